//! Control frames that were lost join those that wait.

#![cfg(not(miri))] // it calls the library

mod one_end;

use one_end::*;
use quic_streams::{Dir, StreamsState, Token};

const MAX_STREAMS_BIDI: u64 = 0x12;

/// A client with two streams. Each byte that is read of one is worth a frame.
fn client_of_two() -> Result<StreamsState> {
    let mut end = client(1, WINDOW, 8)?;
    permit(&mut end, 2, WINDOW, WINDOW)?;
    for stream in [0, 4] {
        assert_eq!(end.open(Dir::Bi)?, Some(stream_id(stream)));
    }
    Ok(end)
}

/// Takes a byte of a stream and reads it.
fn pass(end: &mut StreamsState, stream: u64, offset: u64) -> Result<()> {
    let id = stream_id(stream);
    end.on_stream(id, offset, b"x", false, 1)?;
    let read = end.recv_stream(id).read_into(&mut [0], true)?;
    assert_eq!(read, Some((1, offset)));
    Ok(())
}

/// All frames that are due are in the next payload: these, where those of MAX_STREAM_DATA may come in any order.
fn sends(end: &mut StreamsState, wanted: &[&[u64]]) -> Result<Token> {
    let (bytes, token) = emit(end, 100, CONTROL)?.ok_or("nothing is due")?;
    let mut frames = control_frames(&bytes);
    frames.sort_by_key(|it| (it[0], (it[0] == MAX_STREAM_DATA).then_some(it[1])));
    assert_eq!(frames, wanted);
    assert!(!end.due().control && !end.info().has_pending);
    Ok(token)
}

// What was lost stands behind what waits, so of the resets it is told first. What both have is told once.
#[test]
fn lists_go_behind_and_sets_are_united() -> Result<()> {
    let mut end = client_of_two()?;
    end.send_stream(stream_id(4)).reset(varint(1))?;
    pass(&mut end, 0, 0)?;
    pass(&mut end, 4, 0)?;
    end.set_max_concurrent(Dir::Uni, varint(3))?;
    let lost = [
        &[RESET_STREAM, 4, 1, 0][..],
        &[MAX_STREAM_DATA, 0, 9],
        &[MAX_STREAM_DATA, 4, 9],
        &[MAX_STREAMS_UNI, 3],
    ];
    let lost = sends(&mut end, &lost)?;
    end.send_stream(stream_id(0)).reset(varint(7))?;
    pass(&mut end, 0, 1)?;
    end.set_max_concurrent(Dir::Bi, varint(2))?;
    end.lost(lost)?;
    let all = [
        &[RESET_STREAM, 4, 1, 0][..],
        &[RESET_STREAM, 0, 7, 0],
        &[MAX_STREAM_DATA, 0, 10],
        &[MAX_STREAM_DATA, 4, 9],
        &[MAX_STREAMS_BIDI, 2],
        &[MAX_STREAMS_UNI, 3],
    ];
    sends(&mut end, &all)?;
    Ok(())
}
