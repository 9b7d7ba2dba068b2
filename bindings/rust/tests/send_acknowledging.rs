//! Acknowledgements and losses of what an end sent.

#![cfg(not(miri))] // it calls the library

mod sending;

use quic_streams::{Dir, Side};
use sending::{finished, End, Result, ONE_FRAME, STREAM_LIMIT_ERROR};

// How many streams there are where many are tried.
const MANY: u64 = 65_537;

// A client that permits its peer one stream of each direction, and may itself open so many.
fn client(streams: u64) -> Result<End> {
    End::with_limits(Side::Client, streams, 100, 100)
}

fn send_streams(end: &mut End) -> u64 {
    end.info().send_streams
}

// A client that opened 0 and 2, and accepted 1 and 3. On the last one it does not send.
fn client_of_three() -> Result<End> {
    let mut end = client(1)?;
    assert_eq!(send_streams(&mut end), 0);
    assert_eq!(end.open(Dir::Uni)?, Some(2));
    assert_eq!(end.open(Dir::Uni)?, None);
    assert_eq!(send_streams(&mut end), 1);
    assert_eq!(end.open(Dir::Bi)?, Some(0));
    assert_eq!(send_streams(&mut end), 2);
    // The peer opens one of each direction.
    assert_eq!(end.whole(1), Ok(()));
    assert_eq!(end.whole(3), Ok(()));
    assert_eq!(send_streams(&mut end), 2);
    assert_eq!(end.accept(Dir::Uni), Some(3));
    assert_eq!(send_streams(&mut end), 2);
    assert_eq!(end.accept(Dir::Bi), Some(1));
    assert_eq!(end.accept(Dir::Bi), None);
    assert_eq!(send_streams(&mut end), 3);
    Ok(end)
}

#[test]
fn opened_and_accepted_streams_count() -> Result<()> {
    let mut end = client_of_three()?;
    end.finish(1)?;
    end.finish(2)?;
    end.reset(0, 3)?;
    assert_eq!(send_streams(&mut end), 3);
    let of_peer = end.sent(ONE_FRAME, b"\x0b\x01\x00")?;
    let first = end.sent(ONE_FRAME, b"\x0b\x02\x00")?;
    // The end of this client's own stream is sent twice.
    end.0.retransmit_all_for_0rtt()?;
    let second = end.sent(ONE_FRAME, b"\x0b\x02\x00")?;
    let (bytes, reset) = end.emit_control(100)?.ok_or("a reset is due")?;
    assert_eq!(bytes, b"\x04\x00\x03\x00");
    assert_eq!(send_streams(&mut end), 3);
    // What is acknowledged to the end counts no more.
    for (token, count) in [(first, 2), (second, 2), (of_peer, 1), (reset, 0)] {
        end.0.acked(token)?;
        assert_eq!(send_streams(&mut end), count);
    }
    Ok(())
}

// Opens so many streams and ends them. Each is queued twice: an empty frame of it was lost before its end came.
fn open_and_end(end: &mut End, count: u64) -> Result<()> {
    for stream in (2..).step_by(4).take(count as usize) {
        assert_eq!(end.open(Dir::Uni)?, Some(stream));
        assert_eq!(end.put(stream, b""), Ok(0));
    }
    let mut tokens = Vec::new();
    while let Some((_, token)) = end.emit_data(1200)? {
        tokens.push(token);
    }
    for token in tokens {
        end.0.lost(token)?;
    }
    for stream in (2..).step_by(4).take(count as usize) {
        end.finish(stream)?;
    }
    Ok(())
}

#[test]
fn every_number_of_streams_is_finished() -> Result<()> {
    let mut end = client(MANY)?;
    open_and_end(&mut end, MANY)?;
    while let Some((_, token)) = end.emit_data(1200)? {
        end.0.acked(token)?;
    }
    for stream in (2..).step_by(4).take(MANY as usize) {
        assert_eq!(end.poll(), finished(stream));
    }
    assert_eq!(end.poll(), None);
    Ok(())
}

// A stream of the peer comes with its end, is stopped, and is reset by this end too.
fn replace(end: &mut End, stream: u64) -> Result<()> {
    assert_eq!(end.whole(stream), Ok(()));
    assert_eq!(end.accept(Dir::Bi), Some(stream));
    end.stop(stream, 9)?;
    end.reset(stream, 3)?;
    let (_, token) = end.emit_control(100)?.ok_or("a reset is due")?;
    end.0.acked(token)?;
    Ok(())
}

#[test]
fn every_number_of_streams_is_replaced() -> Result<()> {
    let mut end = client(0)?;
    for index in 0..MANY {
        replace(&mut end, 4 * index + 1)?;
    }
    assert_eq!(end.info().remote_open_bi, 0);
    // MAX_STREAMS with the count of 65,538: one more may come.
    assert_eq!(end.controls(100)?, b"\x12\x80\x01\x00\x02");
    assert_eq!(end.data(4 * MANY + 1, 1), Ok(()));
    assert_eq!(end.data(4 * MANY + 5, 1), Err(STREAM_LIMIT_ERROR));
    Ok(())
}
