//! The send halves of all streams: what writes, limits, reports and frames do to them.

#![cfg(not(miri))] // it calls the library

mod sending;

use quic_streams::{Dir, Side, StreamError, WriteError};
use sending::{available, opened, varint, writable, End, Result, ONE_FRAME, WINDOW};

const BLOCKED: std::result::Result<usize, WriteError> = Err(WriteError::Blocked);

// The greatest limit of a peer (RFC 9000 section 16).
const GREATEST: u64 = (1 << 62) - 1;

fn client(streams: u64, data: u64, stream_data: u64) -> Result<End> {
    End::with_limits(Side::Client, streams, data, stream_data)
}

// A client that opened these unidirectional streams.
fn client_of(opens: &[u64], data: u64, stream_data: u64) -> Result<End> {
    let mut end = client(opens.len() as u64, data, stream_data)?;
    for stream in opens {
        assert_eq!(end.open(Dir::Uni)?, Some(*stream));
    }
    Ok(end)
}

#[test]
fn what_is_acknowledged_is_released() -> Result<()> {
    let mut end = client_of(&[2], 100, 100)?;
    end.0.set_send_window(8);
    assert_eq!(end.write(2, 4), Ok(4));
    let first = end.sent(ONE_FRAME, b"\x0a\x02\x04thir")?;
    assert_eq!(end.write(2, 4), Ok(4));
    assert_eq!(end.write_limit(), 0);
    let second = end.sent(ONE_FRAME, b"\x0e\x02\x04\x04thir")?;
    end.0.acked(second)?;
    assert_eq!(end.write_limit(), 0);
    end.0.acked(first)?;
    assert_eq!(end.write_limit(), 8);
    // Two writes are queued once.
    assert_eq!(end.write(2, 4), Ok(4));
    assert_eq!(end.write(2, 4), Ok(4));
    end.sent(100, b"\x0e\x02\x08\x08thirthir")?;
    assert_eq!(end.sends(100)?, b"");
    Ok(())
}

// On stream 6 waits a byte that was written first. What was lost of stream 2 comes before it, once.
fn is_due_first(end: &mut End, frame: &[u8]) -> Result<()> {
    assert!(end.can_send_data());
    end.sent(ONE_FRAME, frame)?;
    end.sent(ONE_FRAME, b"\x0a\x06\x01t")?;
    assert_eq!(end.sends(100)?, b"");
    Ok(())
}

#[test]
fn what_is_lost_is_due_again() -> Result<()> {
    let mut end = client_of(&[2, 6], 100, 100)?;
    end.set_priority(2, 7)?;
    let mut tokens = Vec::new();
    let frames: [(&[u8], &[u8]); 3] = [
        (b"ab", b"\x0a\x02\x02ab"),
        (b"cd", b"\x0e\x02\x02\x02cd"),
        (b"efgh", b"\x0e\x02\x04\x04efgh"),
    ];
    for (bytes, frame) in frames {
        assert_eq!(end.put(2, bytes), Ok(bytes.len()));
        tokens.push(end.sent(ONE_FRAME, frame)?);
    }
    assert!(!end.can_send_data());
    assert_eq!(end.write(6, 1), Ok(1));
    end.0.lost(tokens[1])?;
    end.0.lost(tokens[0])?;
    is_due_first(&mut end, b"\x0a\x02\x04abcd")
}

#[test]
fn an_end_that_is_lost_is_due_again() -> Result<()> {
    let mut end = client_of(&[2, 6], 100, 100)?;
    end.set_priority(2, 7)?;
    assert_eq!(end.put(2, b"abcdefgh"), Ok(8));
    let data = end.sent(ONE_FRAME, b"\x0a\x02\x08abcdefgh")?;
    end.finish(2)?;
    let alone = end.sent(ONE_FRAME, b"\x0f\x02\x08\x00")?;
    end.0.lost(alone)?;
    let alone = end.sent(ONE_FRAME, b"\x0f\x02\x08\x00")?;
    // The data go again with the end.
    end.0.lost(data)?;
    let whole = end.sent(ONE_FRAME, b"\x0b\x02\x08abcdefgh")?;
    assert_eq!(end.put(6, b"t"), Ok(1));
    end.0.lost(alone)?;
    end.0.lost(whole)?;
    is_due_first(&mut end, b"\x0b\x02\x08abcdefgh")
}

#[test]
fn a_rejected_start_leaves_the_window() -> Result<()> {
    let mut end = client_of(&[2, 6], 10, 9)?;
    assert_eq!(end.open(Dir::Bi)?, Some(0));
    assert_eq!(end.write(2, 8), Ok(8));
    assert_eq!(end.write(0, 4), Ok(2));
    end.finish(6)?;
    end.set_priority(2, 5)?;
    assert_eq!(end.write(2, 1), BLOCKED);
    end.0.set_send_window(7);
    end.0.zero_rtt_rejected();
    for stream in [0, 2] {
        assert_eq!(end.priority(stream), Err(StreamError::ClosedStream));
        assert!(end.is_unopened(stream));
    }
    assert_eq!(end.open(Dir::Uni)?, None);
    assert_eq!(end.write_limit(), 0);
    assert_eq!(end.due()?, []);
    assert_eq!(end.max_data(20), Ok(()));
    assert_eq!(end.write_limit(), 7);
    // The half of the peer's stream stays. The peer gave no limit for it.
    assert_eq!(end.data(1, 1), Ok(()));
    assert_eq!(end.poll(), opened(Dir::Bi));
    assert_eq!(end.accept(Dir::Bi), Some(1));
    assert_eq!(end.write(1, 1), BLOCKED);
    assert_eq!(end.poll(), None);
    assert_eq!(end.max_streams(Dir::Uni, 1), Ok(()));
    assert_eq!(end.poll(), available(Dir::Uni));
    assert_eq!(end.open(Dir::Uni)?, Some(2));
    assert_eq!(end.priority(2), Ok(0));
    Ok(())
}

// Two bytes in the middle of stream 2 are lost, and go again at its priority before all goes again, or not. The end of
// stream 6 was sent, and what was written on stream 0 was not.
fn send_all_again(is_sent_before: bool) -> Result<()> {
    let mut end = client_of(&[2, 6, 10], 10, 9)?;
    assert_eq!(end.open(Dir::Bi)?, Some(0));
    assert_eq!(end.put(2, b"ab"), Ok(2));
    end.sent(ONE_FRAME, b"\x0a\x02\x02ab")?;
    assert_eq!(end.put(2, b"cd"), Ok(2));
    let lost = end.sent(ONE_FRAME, b"\x0e\x02\x02\x02cd")?;
    assert_eq!(end.put(2, b"efgh"), Ok(4));
    end.sent(ONE_FRAME, b"\x0e\x02\x04\x04efgh")?;
    end.finish(6)?;
    end.sent(ONE_FRAME, b"\x0b\x06\x00")?;
    assert_eq!(end.put(0, b"ijkl"), Ok(2));
    end.set_priority(2, 5)?;
    end.0.lost(lost)?;
    if is_sent_before {
        end.sent(ONE_FRAME, b"\x0e\x02\x02\x02cd")?;
    }
    end.0.retransmit_all_for_0rtt()?;
    // Nothing was written on stream 10.
    end.sent(100, b"\x0a\x02\x08abcdefgh\x0a\x00\x02ij\x0b\x06\x00")?;
    assert_eq!(end.sends(100)?, b"");
    Ok(())
}

#[test]
fn what_was_sent_counts_as_not_sent() -> Result<()> {
    send_all_again(false)?;
    send_all_again(true)
}

#[test]
fn blocked_streams_are_told_in_their_order() -> Result<()> {
    let mut end = client_of(&[2, 6], 100, 3)?;
    assert_eq!(end.open(Dir::Bi)?, Some(0));
    assert_eq!(end.open(Dir::Bi)?, Some(4));
    assert_eq!(end.write(6, 3), Ok(3));
    assert_eq!(end.write(6, 1), BLOCKED);
    assert_eq!(end.write(4, 5), Ok(3));
    assert_eq!(end.write(2, 3), Ok(3));
    assert_eq!(end.write(0, 2), Ok(2));
    end.permit(2, 100, 8)?;
    for stream in [4, 2, 6] {
        assert_eq!(end.poll(), writable(stream));
    }
    assert_eq!(end.poll(), None);
    assert_eq!(end.write(6, 9), Ok(5));
    assert_eq!(end.write(0, 9), Ok(6));
    assert_eq!(end.write(4, 9), Ok(5));
    Ok(())
}

#[test]
fn a_stream_waits_for_the_connection_too() -> Result<()> {
    let mut end = client(2, 4, 4)?;
    assert_eq!(end.open(Dir::Uni)?, Some(2));
    assert_eq!(end.write(2, 4), Ok(4));
    assert_eq!(end.open(Dir::Uni)?, Some(6));
    end.permit(2, 4, 9)?;
    assert_eq!(end.poll(), None);
    assert_eq!(end.max_data(6), Ok(()));
    assert_eq!(end.poll(), writable(2));
    assert_eq!(end.poll(), None);
    Ok(())
}

#[test]
fn a_finished_stream_is_not_told() -> Result<()> {
    let mut end = client_of(&[2, 6], 100, 3)?;
    assert_eq!(end.write(2, 3), Ok(3));
    assert_eq!(end.write(6, 3), Ok(3));
    end.finish(2)?;
    end.permit(2, 100, 8)?;
    assert_eq!(end.poll(), writable(6));
    assert_eq!(end.poll(), None);
    Ok(())
}

#[test]
fn frames_of_streams_at_a_priority() -> Result<()> {
    let mut end = client_of(&[2, 6, 10], 1000, 1000)?;
    // One that was not used is queued first, by a write of nothing.
    assert_eq!(end.put(10, b""), Ok(0));
    end.set_priority(2, 3)?;
    assert_eq!(end.write(2, 2), Ok(2));
    assert_eq!(end.write(6, 2), Ok(2));
    // One that was reset is passed over.
    end.reset(6, 7)?;
    end.sent(100, b"\x0a\x02\x02th\x0a\x0a\x00")?;
    assert_eq!(end.put(2, b""), Ok(0));
    end.sent(100, b"\x0e\x02\x02\x00")?;
    assert_eq!(end.sends(100)?, b"");
    Ok(())
}

#[test]
fn every_size_is_taken() -> Result<()> {
    let mut end = client_of(&[2], 1 << 30, 1 << 30)?;
    end.0.set_send_window(1 << 30);
    for power in 0..17 {
        for size in [(1 << power) - 1, 1 << power, (1 << power) + 1] {
            assert_eq!(end.put(2, &vec![7; size]), Ok(size));
        }
    }
    Ok(())
}

#[test]
fn every_limit_is_taken() -> Result<()> {
    for shift in 0..62 {
        let mut end = client_of(&[2], 9, 0)?;
        assert_eq!(end.write(2, 1), BLOCKED);
        assert_eq!(end.max_stream_data(2, GREATEST >> shift), Ok(()));
        assert_eq!(end.poll(), writable(2));
    }
    Ok(())
}

const MANY: u64 = 100_000;

#[test]
fn many_streams_wait_and_are_told() -> Result<()> {
    let mut end = client(MANY, MANY, 9)?;
    let streams = (0..MANY).map(|index| 4 * index);
    for stream in streams.clone() {
        assert_eq!(end.open(Dir::Bi)?, Some(stream));
        assert_eq!(end.write(stream, 1), Ok(1));
    }
    for stream in streams.clone() {
        assert_eq!(end.write(stream, 1), BLOCKED);
    }
    assert_eq!(end.max_data(2 * MANY), Ok(()));
    for stream in streams.rev() {
        assert_eq!(end.poll(), writable(stream));
        assert_eq!(end.write(stream, 1), Ok(1));
    }
    assert_eq!(end.poll(), None);
    assert_eq!(end.open(Dir::Bi)?, None);
    assert_eq!(end.max_data(GREATEST), Ok(()));
    Ok(())
}

#[test]
fn streams_of_the_peer_are_permitted() -> Result<()> {
    let mut end = End::new(Side::Server, 3, WINDOW, WINDOW)?;
    end.permit(0, 100, 9)?;
    end.0.set_max_concurrent(Dir::Bi, varint(4))?;
    assert_eq!(end.controls(100)?, [0x12, 4]); // MAX_STREAMS
    assert_eq!(end.data(12, 1), Ok(()));
    for stream in [0, 4, 8, 12] {
        assert_eq!(end.accept(Dir::Bi), Some(stream));
    }
    assert_eq!(end.write(8, 1), Ok(1));
    assert_eq!(end.write(12, 10), Ok(9));
    assert_eq!(end.write(16, 1), Err(WriteError::ClosedStream));
    Ok(())
}
