//! The host's word of a stream and the event of its end, which a session has only if they were asked for.

#![cfg(not(miri))] // it calls the library

mod common;

use common::{config, events, frames, stream_id, Result};
use quic_streams::{Dir, Emit, Event, Limits, Received, Side, StreamError, StreamId, StreamsState};
use quic_streams_sys as sys;

/// The first unidirectional stream of a client (RFC 9000 section 2.1).
const FIRST: StreamId = stream_id(2);

fn session(side: Side, track_streams: bool) -> Result<StreamsState> {
    let mut config = config(4, 1000, 1000);
    config.track_streams = track_streams;
    let mut made = StreamsState::new(side, &config)?;
    made.set_params(&Limits::of(&config))?;
    Ok(made)
}

/// A client whose stream is acknowledged, and a server that read it to its end. Each sets a word for it, if it can.
fn one_stream(tracks: [bool; 2]) -> Result<[StreamsState; 2]> {
    let mut a = session(Side::Client, tracks[0])?;
    let mut b = session(Side::Server, tracks[1])?;
    assert_eq!(a.open(Dir::Uni)?, Some(FIRST));
    assert_eq!(a.set_user(FIRST, 7).is_ok(), tracks[0]);
    a.send_stream(FIRST).write(b"hello")?;
    a.send_stream(FIRST).finish()?;
    assert_eq!(b.receive(&frames(&mut a, Emit::ALL)?)?, Received::All);
    assert_eq!(b.accept(Dir::Uni)?, Some(FIRST));
    assert_eq!(b.set_user(FIRST, u64::MAX).is_ok(), tracks[1]);
    let mut text = [0; 10];
    assert_eq!(b.recv_stream(FIRST).read(&mut text)?, Some(5));
    assert_eq!(b.recv_stream(FIRST).read(&mut text)?, None);
    Ok([a, b])
}

#[test]
fn the_end_of_a_tracked_stream_is_an_event() -> Result<()> {
    let id = FIRST;
    let (finished, opened) = (Event::Finished { id }, Event::Opened { dir: Dir::Uni });
    let [mut a, mut b] = one_stream([true, true])?;
    assert_eq!((a.user(id), b.user(id)), (Some(7), Some(u64::MAX)));
    assert_eq!(events(&mut a), [finished, Event::Closed { id, user: 7 }]);
    let user = u64::MAX;
    assert_eq!(events(&mut b), [opened, Event::Closed { id, user }]);
    assert_eq!((a.user(id), b.user(id)), (None, None));
    assert_eq!(a.set_user(id, 8), Err(StreamError::ClosedStream));
    // Each endpoint decides for itself.
    let [mut a, mut b] = one_stream([true, false])?;
    assert_eq!(events(&mut a), [finished, Event::Closed { id, user: 7 }]);
    assert_eq!(events(&mut b), [opened]);
    Ok(())
}

#[test]
fn a_stream_that_is_not_tracked_has_no_word_and_no_event_of_its_end() -> Result<()> {
    let mut a = session(Side::Client, false)?;
    assert_eq!(a.open(Dir::Uni)?, Some(FIRST));
    assert_eq!(a.set_user(FIRST, 7), Err(StreamError::ClosedStream));
    assert_eq!(a.user(FIRST), None);
    let [mut a, mut b] = one_stream([false, false])?;
    assert_eq!(events(&mut a), [Event::Finished { id: FIRST }]);
    assert_eq!(events(&mut b), [Event::Opened { dir: Dir::Uni }]);
    Ok(())
}

#[test]
fn streams_are_tracked_or_not() {
    let mut config = sys::qs_config {
        side: u64::from(sys::QS_CLIENT),
        ..sys::qs_config::ZERO
    };
    for (track_streams, wanted) in [
        (0, sys::QS_OK),
        (1, sys::QS_OK),
        (2, sys::QS_ERR_ARGUMENT),
        (u64::MAX, sys::QS_ERR_ARGUMENT),
    ] {
        config.track_streams = track_streams;
        let mut conn = sys::qs_conn::ZERO;
        // SAFETY: the handle is closed, and nothing else has it.
        let result = unsafe { sys::qs_conn_open(&mut conn, &config) };
        assert_eq!(result, wanted, "of {track_streams}");
        assert_eq!(conn.live, u64::from(wanted == sys::QS_OK));
        // SAFETY: the handle is as the library left it.
        unsafe { sys::qs_conn_free(&mut conn) };
    }
}
