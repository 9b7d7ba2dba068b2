//! Streams that frames open, and what the handle of a stream tells.

#![cfg(not(miri))] // it calls the library

mod sending;

use quic_streams::{Dir, FinishError, Side, StreamError, WriteError};
use sending::{
    opened, readable, stopped, End, Result, STREAM_LIMIT_ERROR, STREAM_STATE_ERROR, WINDOW,
};

#[test]
fn frames_open_streams_of_the_peer() -> Result<()> {
    let mut end = End::new(Side::Client, 1, WINDOW, 8)?;
    end.permit(1, 42, 42)?;
    assert_eq!(end.data(0, 1), Err(STREAM_STATE_ERROR));
    assert_eq!(end.max_stream_data(0, 9), Err(STREAM_STATE_ERROR));
    assert_eq!(end.open(Dir::Bi)?, Some(0));
    assert_eq!(end.data(0, 1), Ok(()));
    assert_eq!(end.poll(), readable(0));
    assert_eq!(end.read(0, 8)?, b"t");
    assert_eq!(end.controls(100)?, [0x11, 0, 9]); // MAX_STREAM_DATA
    assert_eq!(end.data(4, 1), Err(STREAM_STATE_ERROR));
    assert_eq!(end.max_stream_data(3, 9), Err(STREAM_STATE_ERROR));
    assert_eq!(end.max_stream_data(5, 9), Err(STREAM_LIMIT_ERROR));
    assert_eq!(end.max_stream_data(1, 9), Ok(()));
    assert_eq!(end.poll(), opened(Dir::Bi));
    assert_eq!(end.accept(Dir::Bi), Some(1));
    assert_eq!(end.write(1, 1), Ok(1));
    Ok(())
}

#[test]
fn a_stop_opens_a_stream_of_the_peer() -> Result<()> {
    let mut end = End::with_limits(Side::Client, 1, 42, 42)?;
    assert_eq!(end.stop_sending(5, 1), Err(STREAM_LIMIT_ERROR));
    assert_eq!(end.stop_sending(2, 1), Err(STREAM_STATE_ERROR));
    assert_eq!(end.poll(), None);
    assert_eq!(end.stop_sending(1, 1), Ok(()));
    assert_eq!(end.poll(), opened(Dir::Bi));
    assert_eq!(end.poll(), stopped(1, 1));
    assert_eq!(end.poll(), None);
    Ok(())
}

#[test]
fn a_closed_connection_takes_nothing() -> Result<()> {
    let mut end = End::with_limits(Side::Client, 3, 42, 42)?;
    assert_eq!(end.open(Dir::Uni)?, Some(2));
    end.0.close();
    assert_eq!(end.open(Dir::Uni)?, None);
    assert_eq!(end.write(2, 1), Err(WriteError::Blocked));
    assert_eq!(end.write(6, 1), Err(WriteError::ClosedStream));
    assert_eq!(end.finish(2), Ok(()));
    Ok(())
}

#[test]
fn a_handle_tells_priority_and_code() -> Result<()> {
    let mut end = End::with_limits(Side::Server, 1, 42, 42)?;
    assert_eq!(end.priority(3), Err(StreamError::ClosedStream));
    assert_eq!(end.finish(3), Err(FinishError::ClosedStream));
    assert_eq!(end.open(Dir::Uni)?, Some(3));
    assert_eq!(end.priority(3), Ok(0));
    assert_eq!(end.set_priority(3, 3), Ok(()));
    assert_eq!(end.priority(3), Ok(3));
    assert_eq!(end.stop_code(3), Ok(None));
    assert_eq!(end.stop_sending(3, 0), Ok(()));
    assert_eq!(end.stop_code(3), Ok(Some(0)));
    // The code of the first stop stays, also behind a reset.
    assert_eq!(end.reset(3, 0), Ok(()));
    assert_eq!(end.stop_sending(3, 1), Ok(()));
    assert_eq!(end.stop_code(3), Ok(Some(0)));
    Ok(())
}
