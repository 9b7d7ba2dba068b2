//! What the limits of the peer let an end write, and what the limits of an end let its peer open.

#![cfg(not(miri))] // it calls the library

mod sending;

use quic_streams::{Dir, Side, WriteError};
use sending::{varint, writable, End, Result, FRAME_ENCODING_ERROR, STREAM_LIMIT_ERROR, WINDOW};

const BLOCKED: std::result::Result<usize, WriteError> = Err(WriteError::Blocked);

fn client(streams: u64, data: u64, stream_data: u64) -> Result<End> {
    End::with_limits(Side::Client, streams, data, stream_data)
}

#[test]
fn what_holds_writes_back_is_told() -> Result<()> {
    let mut end = client(1, 4, 10)?;
    assert_eq!(end.open(Dir::Uni)?, Some(2));
    assert_eq!(end.write(2, 6), Ok(4));
    assert_eq!(end.write_limit(), 0);
    assert_eq!(end.write(2, 2), BLOCKED);
    assert_eq!(end.due()?, [0x14, 4]); // DATA_BLOCKED
    assert_eq!(end.max_data(4), Ok(()));
    assert_eq!(end.poll(), None);
    assert_eq!(end.max_data(9), Ok(()));
    assert!(!end.info().has_pending);
    assert_eq!(end.due()?, []);
    assert_eq!(end.poll(), writable(2));
    assert_eq!(end.poll(), None);
    assert_eq!(end.write(2, 10), Ok(5));
    Ok(())
}

#[test]
fn a_blocked_connection_is_told_where_a_write_was_refused() -> Result<()> {
    let mut end = client(1, 2, 10)?;
    assert_eq!(end.open(Dir::Uni)?, Some(2));
    assert_eq!(end.write(2, 2), Ok(2));
    assert_eq!(end.due()?, []);
    assert_eq!(end.write(2, 1), BLOCKED);
    assert_eq!(end.due()?, [0x14, 2]); // DATA_BLOCKED
    assert_eq!(end.max_data(3), Ok(()));
    assert!(!end.info().has_pending);
    assert_eq!(end.due()?, []);
    Ok(())
}

#[test]
fn a_stream_that_is_stopped_at_its_limit_is_not_told() -> Result<()> {
    let mut end = client(1, 4, 2)?;
    assert_eq!(end.open(Dir::Uni)?, Some(2));
    assert_eq!(end.write(2, 3), Ok(2));
    assert_eq!(end.write(2, 1), BLOCKED);
    assert_eq!(end.due()?, [0x15, 2, 2]); // STREAM_DATA_BLOCKED
    assert_eq!(end.stop_sending(2, 5), Ok(()));
    assert!(!end.info().has_pending);
    assert_eq!(end.due()?, []);
    Ok(())
}

#[test]
fn the_peer_opens_as_many_as_it_may() -> Result<()> {
    assert_eq!(client(1, 42, 42)?.data(3, 1), Ok(()));
    let mut end = client(1, 42, 42)?;
    assert_eq!(end.info().remote_open_uni, 0);
    assert_eq!(end.data(7, 1), Err(STREAM_LIMIT_ERROR));
    end.0.set_max_concurrent(Dir::Uni, varint(3))?;
    assert_eq!(end.controls(100)?, [0x13, 3]); // MAX_STREAMS
    assert_eq!(end.data(7, 1), Ok(()));
    assert_eq!(end.data(11, 1), Ok(()));
    assert_eq!(end.info().remote_open_uni, 3);
    assert_eq!(end.data(15, 1), Err(STREAM_LIMIT_ERROR));
    // A lower count takes nothing back.
    end.0.set_max_concurrent(Dir::Uni, varint(1))?;
    assert_eq!(end.controls(100)?, []);
    assert_eq!(end.data(11, 1), Ok(()));
    assert_eq!(end.data(15, 1), Err(STREAM_LIMIT_ERROR));
    end.0.set_max_concurrent(Dir::Bi, varint(2))?;
    assert_eq!(end.controls(100)?, [0x12, 2]); // MAX_STREAMS
    assert_eq!(end.data(5, 1), Ok(()));
    assert_eq!(end.data(9, 1), Err(STREAM_LIMIT_ERROR));
    Ok(())
}

// Three streams are written up to the limits that were remembered.
fn client_of_remembered_limits() -> Result<End> {
    let mut end = client(2, 100, 10)?;
    assert_eq!(end.open(Dir::Uni)?, Some(2));
    assert_eq!(end.open(Dir::Uni)?, Some(6));
    assert_eq!(end.open(Dir::Bi)?, Some(0));
    assert_eq!(end.open(Dir::Bi)?, Some(4));
    assert_eq!(end.write(6, 11), Ok(10));
    assert_eq!(end.write(6, 1), BLOCKED);
    assert_eq!(end.write(2, 10), Ok(10));
    assert_eq!(end.write(0, 10), Ok(10));
    assert_eq!(end.write(0, 1), BLOCKED);
    assert_eq!(end.poll(), None);
    Ok(end)
}

#[test]
fn streams_of_remembered_limits_are_told_in_their_order() -> Result<()> {
    let mut end = client_of_remembered_limits()?;
    end.permit(3, 200, 20)?;
    for stream in [0, 2, 6] {
        assert_eq!(end.poll(), writable(stream));
    }
    assert_eq!(end.poll(), None);
    // No limit holds a stream back any more.
    assert!(!end.info().has_pending);
    assert_eq!(end.due()?, []);
    assert_eq!(end.write(6, 20), Ok(10));
    assert_eq!(end.write(2, 1), Ok(1));
    assert_eq!(end.write(4, 30), Ok(20));
    assert_eq!(end.open(Dir::Uni)?, Some(10));
    end.permit(3, 200, 20)?;
    assert_eq!(end.poll(), None);
    Ok(())
}

#[test]
fn a_stream_that_both_limits_block_is_told_twice() -> Result<()> {
    let mut end = client(1, 10, 10)?;
    assert_eq!(end.open(Dir::Uni)?, Some(2));
    assert_eq!(end.write(2, 10), Ok(10));
    assert_eq!(end.write(2, 1), BLOCKED);
    assert_eq!(end.due()?, [0x14, 10]); // DATA_BLOCKED
    end.permit(1, 1000, 1000)?;
    assert_eq!(end.poll(), writable(2));
    assert_eq!(end.poll(), writable(2));
    assert_eq!(end.poll(), None);
    assert_eq!(end.write(2, 10), Ok(10));
    Ok(())
}

#[test]
fn a_stream_waits_where_the_connection_permits_no_more() -> Result<()> {
    let mut end = client(1, 10, 10)?;
    assert_eq!(end.open(Dir::Uni)?, Some(2));
    assert_eq!(end.write(2, 10), Ok(10));
    end.permit(1, 10, 20)?;
    assert_eq!(end.poll(), None);
    assert_eq!(end.max_data(30), Ok(()));
    assert_eq!(end.poll(), writable(2));
    assert_eq!(end.poll(), None);
    Ok(())
}

#[test]
fn a_stream_that_was_not_used_is_told_too() -> Result<()> {
    let mut end = client(1, 100, 0)?;
    assert_eq!(end.open(Dir::Uni)?, Some(2));
    end.permit(1, 1000, 1000)?;
    assert_eq!(end.poll(), writable(2));
    assert_eq!(end.poll(), None);
    assert_eq!(end.write(2, 5), Ok(5));
    Ok(())
}

#[test]
fn no_count_of_streams_is_above_the_greatest() -> Result<()> {
    let mut end = End::new(Side::Client, 1, WINDOW, WINDOW)?;
    let above = end.max_streams(Dir::Uni, (1 << 60) + 1);
    assert_eq!(above, Err(FRAME_ENCODING_ERROR));
    assert_eq!(end.max_streams(Dir::Uni, 1 << 60), Ok(()));
    Ok(())
}

#[test]
fn a_limit_of_a_stream_that_is_not_permitted_is_refused() -> Result<()> {
    let mut end = End::new(Side::Server, 128, WINDOW, WINDOW)?;
    // The client's bidirectional stream of index 2^40.
    let far = (1 << 40) << 2;
    assert_eq!(end.max_stream_data(far, 1), Err(STREAM_LIMIT_ERROR));
    // It opened nothing.
    assert_eq!(end.info().remote_open_bi, 0);
    assert_eq!(end.poll(), None);
    assert_eq!(end.accept(Dir::Bi), None);
    Ok(())
}
