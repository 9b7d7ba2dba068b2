//! The frames that an end writes, and when data can be sent.

#![cfg(not(miri))] // it calls the library

mod sending;

use quic_streams::{Dir, Side, WriteError};
use sending::{varint, End, Result};

// The client is held back on its streams 2 and 6, and gives the first one up.
fn send_and_reset(end: &mut End) -> Result<()> {
    end.permit(2, 6, 3)?;
    assert_eq!(end.open(Dir::Uni)?, Some(2));
    assert_eq!(end.open(Dir::Uni)?, Some(6));
    assert_eq!(end.write(2, 2), Ok(2));
    assert_eq!(end.write(6, 4), Ok(3));
    // STREAM_DATA_BLOCKED is of no use once the stream has another limit.
    assert_eq!(end.write(6, 1), Err(WriteError::Blocked));
    assert_eq!(end.max_stream_data(6, 10), Ok(()));
    assert_eq!(end.write(6, 3), Ok(1));
    assert_eq!(end.write(6, 1), Err(WriteError::Blocked));
    end.reset(2, 9)?;
    Ok(())
}

// The client stops two streams of the server, and reads a byte of two others.
fn stop_and_read(end: &mut End) -> Result<()> {
    assert_eq!(end.data(7, 0), Ok(()));
    assert_eq!(end.accept(Dir::Uni), Some(3));
    assert_eq!(end.accept(Dir::Uni), Some(7));
    end.stop(3, 9)?;
    end.stop(7, 9)?;
    for (dir, stream) in [(Dir::Bi, 1), (Dir::Uni, 11)] {
        assert_eq!(end.data(stream, 1), Ok(()));
        assert_eq!(end.accept(dir), Some(stream));
        assert_eq!(end.read(stream, 8)?, b"t");
    }
    // MAX_STREAM_DATA is of no use once the final size is known.
    assert_eq!(end.fin(11, 1), Ok(()));
    Ok(())
}

#[test]
fn kinds_come_in_their_order_and_the_useless_is_dropped() -> Result<()> {
    let mut end = End::new(Side::Client, 3, 8, 8)?;
    end.0.set_max_concurrent(Dir::Uni, varint(4))?;
    end.0.set_max_concurrent(Dir::Bi, varint(4))?;
    send_and_reset(&mut end)?;
    stop_and_read(&mut end)?;
    let wanted = [
        &[0x04, 2, 9, 2][..], // RESET_STREAM
        &[0x05, 7, 9],        // STOP_SENDING, the last one first
        &[0x05, 3, 9],
        &[0x10, 10],   // MAX_DATA
        &[0x11, 1, 9], // MAX_STREAM_DATA
        &[0x12, 4],    // MAX_STREAMS
        &[0x13, 4],
        &[0x14, 6], // DATA_BLOCKED
    ];
    assert_eq!(end.controls(1200)?, wanted.concat());
    assert!(!end.info().has_pending);
    assert_eq!(end.controls(1200)?, b"");
    Ok(())
}

#[test]
fn data_can_be_sent_while_a_queued_stream_is_not_reset() -> Result<()> {
    let mut end = End::with_limits(Side::Client, 2, 10, 10)?;
    assert_eq!(end.open(Dir::Uni)?, Some(2));
    assert!(!end.can_send_data());
    assert_eq!(end.write(2, 3), Ok(3));
    assert!(end.can_send_data());
    end.reset(2, 7)?;
    assert!(!end.can_send_data());
    assert_eq!(end.open(Dir::Uni)?, Some(6));
    assert_eq!(end.write(6, 1), Ok(1));
    assert!(end.can_send_data());
    assert_eq!(end.sends(1200)?, b"\x0a\x06\x01t");
    assert!(!end.can_send_data());
    assert_eq!(end.sends(60)?, b"");
    Ok(())
}
