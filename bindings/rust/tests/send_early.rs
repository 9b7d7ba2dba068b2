//! An early start (RFC 9001 section 4.6) that is rejected, or sent again.

#![cfg(not(miri))] // it calls the library

mod sending;

use quic_streams::{Dir, Side, StreamError, WriteError};
use sending::{
    opened, readable, varint, writable, End, Result, ONE_FRAME, STREAM_LIMIT_ERROR,
    STREAM_STATE_ERROR, WINDOW,
};

#[test]
fn counts_of_streams_are_announced_anew() -> Result<()> {
    let mut end = End::new(Side::Client, 1, WINDOW, WINDOW)?;
    end.0.zero_rtt_rejected();
    // A frame that changes nothing: what is due is queued after it.
    assert_eq!(end.max_data(0), Ok(()));
    assert_eq!(end.controls(100)?, []);
    end.0.set_max_concurrent(Dir::Uni, varint(3))?;
    assert_eq!(end.controls(100)?, [0x13, 3]);
    end.0.zero_rtt_rejected();
    assert_eq!(end.max_data(0), Ok(()));
    assert_eq!(end.controls(100)?, [0x12, 1, 0x13, 3]);
    Ok(())
}

// A client that opened streams, and wrote as much as the remembered limits permit.
fn early_client() -> Result<End> {
    let mut end = End::new(Side::Client, 1, WINDOW, 8)?;
    end.permit(2, 10, 10)?;
    assert_eq!(end.open(Dir::Bi)?, Some(0));
    assert_eq!(end.open(Dir::Uni)?, Some(2));
    assert_eq!(end.write(2, 10), Ok(10));
    assert_eq!(end.write_limit(), 0);
    assert_eq!(end.write(0, 1), Err(WriteError::Blocked));
    assert_eq!(end.due()?, [0x14, 10]); // DATA_BLOCKED
    end.finish(2)?;
    assert!(!end.is_unopened(0));
    assert!(!end.is_unopened(2));
    assert_eq!(end.poll(), None);
    Ok(end)
}

// The server opens stream 1, and the limit of the stream rises as its byte is read.
fn open_and_read(end: &mut End) -> Result<()> {
    assert_eq!(end.data(1, 1), Ok(()));
    assert_eq!(end.poll(), opened(Dir::Bi));
    assert_eq!(end.accept(Dir::Bi), Some(1));
    assert_eq!(end.read(1, 8)?, b"t");
    assert_eq!(end.controls(100)?, [0x11, 1, 9]); // MAX_STREAM_DATA
    Ok(())
}

#[test]
fn limits_are_told_of_streams_that_opened_early() -> Result<()> {
    let mut end = early_client()?;
    assert_eq!(end.controls(100)?, [0x14, 10]);
    assert_eq!(end.data(0, 1), Ok(()));
    assert_eq!(end.read(0, 8)?, b"t");
    assert_eq!(end.controls(100)?, [0x11, 0, 9]); // MAX_STREAM_DATA
    assert_eq!(end.poll(), readable(0));
    open_and_read(&mut end)
}

// No stream of the client is there, and nothing is permitted. The streams of the server are.
fn check_rejected(end: &mut End) -> Result<()> {
    assert!(end.is_unopened(0));
    assert!(end.is_unopened(2));
    assert_eq!(end.open(Dir::Bi)?, None);
    assert_eq!(end.open(Dir::Uni)?, None);
    assert_eq!(end.priority(2), Err(StreamError::ClosedStream));
    assert_eq!(end.write(2, 1), Err(WriteError::ClosedStream));
    assert_eq!(end.write_limit(), 0);
    assert_eq!(end.data(0, 1), Err(STREAM_STATE_ERROR));
    assert_eq!(end.data(5, 1), Err(STREAM_LIMIT_ERROR));
    assert_eq!(end.info().remote_open_bi, 0);
    assert_eq!(end.sends(1200)?, b"");
    assert!(!end.can_send_data());
    open_and_read(end)?;
    assert_eq!(end.write(1, 1), Err(WriteError::Blocked));
    assert_eq!(end.write_limit(), 0);
    Ok(())
}

#[test]
fn streams_begin_anew_where_an_early_start_is_rejected() -> Result<()> {
    let mut end = early_client()?;
    end.0.zero_rtt_rejected();
    check_rejected(&mut end)?;
    end.permit(2, 20, 15)?;
    assert_eq!(end.write_limit(), 20);
    assert_eq!(end.poll(), writable(1));
    assert_eq!(end.open(Dir::Uni)?, Some(2));
    assert_eq!(end.open(Dir::Bi)?, Some(0));
    assert_eq!(end.open(Dir::Uni)?, Some(6));
    assert_eq!(end.open(Dir::Uni)?, None);
    assert_eq!(end.priority(2), Ok(0));
    assert_eq!(end.data(0, 3), Ok(()));
    assert_eq!(end.poll(), readable(0));
    assert_eq!(end.write(2, 5), Ok(5));
    assert_eq!(end.write(0, 20), Ok(15));
    assert_eq!(end.write(6, 1), Err(WriteError::Blocked));
    assert_eq!(end.max_data(30), Ok(()));
    assert_eq!(end.write_limit(), 10);
    assert_eq!(end.poll(), writable(6));
    let sent = end.sends(1200)?;
    assert_eq!(sent, b"\x0a\x02\x05thirt\x0a\x00\x0fthirty two byte");
    assert!(!end.can_send_data());
    Ok(())
}

const OF_TEN: &[u8] = b"\x0a\x0a\x1dfffffffffffffffffffffffffffff";
const OF_ZERO: &[u8] = b"\x0a\x00\x02ab";
const OF_TWO: &[u8] = b"\x0b\x02\x03cde";
const OF_SIX: &[u8] = b"\x0b\x06\x00";

// A client that sent on four streams, and gave one up. Of a further one it sent a part. All of it is to be sent again.
fn client_that_sends_again() -> Result<End> {
    let mut end = End::with_limits(Side::Client, 4, WINDOW, WINDOW)?;
    for stream in [2, 6, 10, 14] {
        assert_eq!(end.open(Dir::Uni)?, Some(stream));
    }
    assert_eq!(end.open(Dir::Bi)?, Some(0));
    assert_eq!(end.open(Dir::Bi)?, Some(4));
    assert_eq!(end.put(0, b"ab"), Ok(2));
    assert_eq!(end.put(2, b"cde"), Ok(3));
    end.finish(2)?;
    end.finish(6)?;
    assert_eq!(end.put(14, b"x"), Ok(1));
    let sent = [OF_ZERO, OF_TWO, OF_SIX, b"\x0a\x0e\x01x"].concat();
    assert_eq!(end.sends(100)?, sent);
    end.reset(14, 7)?;
    assert_eq!(end.put(10, &[b'f'; 29]), Ok(29));
    assert_eq!(end.sends(30)?, b"\x08\x0affffffffffffffffffffffffffff");
    end.0.retransmit_all_for_0rtt()?;
    Ok(end)
}

#[test]
fn all_that_was_sent_early_is_sent_again() -> Result<()> {
    let mut end = client_that_sends_again()?;
    let again = [OF_TEN, OF_ZERO, OF_TWO, OF_SIX].concat();
    assert_eq!(end.sends(100)?, again);
    assert_eq!(end.sends(100)?, b"");
    Ok(())
}

#[test]
fn a_stream_that_was_lost_is_sent_again_once() -> Result<()> {
    let mut end = client_that_sends_again()?;
    // 58 bytes take two frames here: the second one begins below the longest head before the end.
    end.sent(58, &[OF_TEN, OF_ZERO].concat())?;
    let lost = end.sent(ONE_FRAME, OF_TWO)?;
    end.sent(ONE_FRAME, OF_SIX)?;
    assert_eq!(end.sends(100)?, b"");
    end.0.lost(lost)?;
    end.0.retransmit_all_for_0rtt()?;
    assert_eq!(end.sends(39)?, [OF_TWO, OF_ZERO, OF_SIX].concat());
    Ok(())
}
