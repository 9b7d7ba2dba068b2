//! The send half of a stream, and what is kept of its bytes.

#![cfg(not(miri))] // it calls the library

mod sending;

use quic_streams::{Dir, FinishError, Side, WriteError};
use sending::{finished, stopped, varint, writable, End, Result};

// The greatest limit of a peer (RFC 9000 section 16).
const GREATEST: u64 = (1 << 62) - 1;

// A client with one stream, 2, and its limits.
fn client(data: u64, stream_data: u64) -> Result<End> {
    let mut end = End::with_limits(Side::Client, 1, data, stream_data)?;
    assert_eq!(end.open(Dir::Uni)?, Some(2));
    Ok(end)
}

#[test]
fn write_takes_at_most_the_limit_handed_in() -> Result<()> {
    let mut end = client(5, 100)?;
    assert_eq!(end.put(2, b"Hello, world!"), Ok(5));
    assert_eq!(end.max_data(105), Ok(()));
    assert_eq!(end.put(2, b", world!"), Ok(8));
    assert_eq!(end.put(2, b""), Ok(0));
    end.sent(100, b"\x0a\x02\x0dHello, world!")?;
    assert_eq!(end.sends(100)?, b"");
    Ok(())
}

#[test]
fn a_larger_limit_unblocks() -> Result<()> {
    let mut end = client(100, 3)?;
    assert_eq!(end.max_stream_data(2, 5), Ok(()));
    assert_eq!(end.poll(), None);
    assert_eq!(end.put(2, b"abcdefgh"), Ok(5));
    assert_eq!(end.max_stream_data(2, 5), Ok(()));
    assert_eq!(end.poll(), None);
    assert_eq!(end.max_stream_data(2, GREATEST), Ok(()));
    assert_eq!(end.poll(), writable(2));
    assert_eq!(end.put(2, b"fgh"), Ok(3));
    assert_eq!(end.finish(2), Ok(()));
    assert_eq!(end.put(2, b"i"), Err(WriteError::ClosedStream));
    end.sent(100, b"\x0b\x02\x08abcdefgh")?;
    Ok(())
}

#[test]
fn the_first_stop_counts() -> Result<()> {
    let mut end = client(100, 0)?;
    assert_eq!(end.stop_sending(2, 7), Ok(()));
    assert_eq!(end.poll(), stopped(2, 7));
    assert_eq!(end.stop_sending(2, 8), Ok(()));
    assert_eq!(end.poll(), None);
    assert_eq!(end.put(2, b"abc"), Err(WriteError::Stopped(varint(7))));
    assert_eq!(end.finish(2), Err(FinishError::Stopped(varint(7))));
    Ok(())
}

// An acknowledged end does not complete a stream without every byte.
#[test]
fn complete_needs_every_byte() -> Result<()> {
    let mut end = client(100, 100)?;
    assert_eq!(end.put(2, b"abc"), Ok(3));
    let data = end.sent(100, b"\x0a\x02\x03abc")?;
    assert!(!end.can_send_data());
    end.finish(2)?;
    assert!(end.can_send_data());
    let fin = end.sent(100, b"\x0f\x02\x03\x00")?;
    end.0.acked(fin)?;
    assert_eq!(end.poll(), None);
    end.0.acked(data)?;
    assert_eq!(end.poll(), finished(2));
    assert_eq!(end.poll(), None);
    Ok(())
}

// Three bytes are sent, with the end or not, and then the stream is given up.
fn reset_after(frame: &[u8], is_finished: bool) -> Result<()> {
    let mut end = client(100, 100)?;
    assert_eq!(end.put(2, b"abc"), Ok(3));
    if is_finished {
        end.finish(2)?;
    }
    let token = end.sent(100, frame)?;
    end.reset(2, 7)?;
    assert!(!end.can_send_data());
    end.0.acked(token)?;
    assert_eq!(end.poll(), None);
    assert_eq!(end.finish(2), Err(FinishError::ClosedStream));
    assert_eq!(end.controls(100)?, [0x04, 2, 7, 3]); // RESET_STREAM
    Ok(())
}

#[test]
fn nothing_is_complete_after_a_reset() -> Result<()> {
    reset_after(b"\x0a\x02\x03abc", false)?;
    reset_after(b"\x0b\x02\x03abc", true)
}

#[test]
fn discarded_bytes_are_gone() -> Result<()> {
    let mut end = client(100, 100)?;
    end.0.set_send_window(13);
    assert_eq!(end.put(2, b"Hello, world!"), Ok(13));
    end.sent(100, b"\x0a\x02\x0dHello, world!")?;
    assert_eq!(end.write_limit(), 0);
    end.reset(2, 7)?;
    assert_eq!(end.write_limit(), 13);
    assert!(!end.can_send_data());
    assert_eq!(end.controls(100)?, [0x04, 2, 7, 13]); // RESET_STREAM
    Ok(())
}
