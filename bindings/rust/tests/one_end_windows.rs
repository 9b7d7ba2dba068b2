//! The counts of streams and the windows that one end permits its peer.

#![cfg(not(miri))] // it calls the library

mod one_end;

use one_end::steps::*;
use one_end::{
    client, config, control_frames, emit, stream_id, varint, Result, CONTROL, GREATEST, MAX_DATA,
    WINDOW,
};
use quic_streams::{Dir, StreamsState};

// The 128th stream of the peer, and the one above it.
const LAST_STREAM: [Step; 2] = [
    Step::Final(511, 0, 0, TAKEN),
    Step::Final(515, 0, 0, STREAM_LIMIT),
];

const FREED: [Step; 2] = [Step::Stop(511, true), Step::Final(515, 0, 0, TAKEN)];

const ONE_MORE: [Step; 2] = [
    Step::Concurrent(Dir::Uni, 129, 129),
    Step::Final(515, 0, 0, TAKEN),
];

// As many as were permitted stay so.
const ONE_LESS: [Step; 6] = [
    Step::Concurrent(Dir::Uni, 127, 128),
    Step::Stop(511, true),
    Step::Final(515, 0, 0, STREAM_LIMIT),
    Step::Reset(507, 0, 0, TAKEN),
    Step::Stop(507, true),
    Step::Final(515, 0, 0, TAKEN),
];

#[test]
fn the_peer_opens_no_more_streams_than_are_permitted() -> Result<()> {
    for steps in [FREED.as_slice(), ONE_MORE.as_slice(), ONE_LESS.as_slice()] {
        let steps = [LAST_STREAM.as_slice(), steps].concat();
        run(&config(128, WINDOW, WINDOW), &steps)?;
    }
    Ok(())
}

const CAPACITY: [Step; 3] = [
    Step::Concurrent(Dir::Uni, 200, 200),
    Step::Concurrent(Dir::Bi, 201, 201),
    Step::Remote(201, 200, 0),
];

#[test]
fn counts_of_streams_are_set() -> Result<()> {
    run(&config(128, WINDOW, WINDOW), &[CAPACITY, CAPACITY].concat())
}

// A client whose windows of streams are never told.
fn wide_client() -> Result<StreamsState> {
    client(1, WINDOW, GREATEST)
}

// Hands in so many bytes behind what came, and reads them.
fn pass(end: &mut StreamsState, count: usize) -> Result<()> {
    let offset = end.info().data_received;
    take_in(end, 3, offset, count, false)?;
    end.accept(Dir::Uni)?;
    let mut bytes = vec![0; count];
    let read = end.recv_stream(stream_id(3)).read_into(&mut bytes, true)?;
    assert_eq!(read, Some((count, offset)));
    Ok(())
}

// The limit that the next payload tells in MAX_DATA, which is alone there, if one is due.
fn told(end: &mut StreamsState) -> Result<Option<u64>> {
    Ok(emit(end, 100, CONTROL)?.map(|(payload, _)| {
        let frames = control_frames(&payload);
        assert_eq!((frames.len(), frames[0][0]), (1, MAX_DATA));
        frames[0][1]
    }))
}

// How many bytes of credit were given beyond the first window.
fn credit(end: &mut StreamsState) -> u64 {
    end.info().local_max_data - WINDOW
}

fn is_doubled() -> Result<()> {
    for (read, limit) in [(0, 2 * WINDOW), (1024, 2 * WINDOW + 1024)] {
        let mut end = wide_client()?;
        end.set_receive_window(varint(2 * WINDOW));
        assert!(end.due().control);
        assert_eq!(credit(&mut end), WINDOW);
        if read > 0 {
            pass(&mut end, read)?;
        }
        assert_eq!(credit(&mut end), WINDOW + read as u64);
        assert_eq!(told(&mut end)?, Some(limit));
    }
    Ok(())
}

// Bytes that are read, the credit beyond the first window then, and the limit that is told. The last frame comes up to
// the limit of the connection.
const SMALLER: [(usize, u64, Option<u64>); 4] = [
    (1024, 0, None),
    (1024, 0, None),
    (524_288, 2048, None),
    (524_288, 2048 + 524_288, Some(WINDOW + 2048 + 524_288)),
];

fn is_halved() -> Result<()> {
    let mut end = wide_client()?;
    end.set_receive_window(varint(WINDOW / 2));
    assert!(!end.due().control);
    for (read, given, limit) in SMALLER {
        pass(&mut end, read)?;
        assert_eq!(credit(&mut end), given);
        assert_eq!(told(&mut end)?, limit);
    }
    Ok(())
}

#[test]
fn a_receive_window_is_doubled_or_halved() -> Result<()> {
    is_doubled()?;
    is_halved()
}

const READ_ALL: [Step; 2] = [
    Step::Data(3, 0, 1, TAKEN),
    Step::Ordered(3, Reads(1, 1), Given(1, Last::Asked, false)),
];

#[test]
fn nothing_is_told_above_the_greatest_limit() -> Result<()> {
    let mut config = config(4, GREATEST, GREATEST);
    config.send_window = 0;
    run(&config, &READ_ALL)
}
