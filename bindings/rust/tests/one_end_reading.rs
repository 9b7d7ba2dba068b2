//! What reads of a stream give, and the credit that they tell.

#![cfg(not(miri))] // it calls the library

mod one_end;

use one_end::steps::take_in;
use one_end::*;
use quic_streams::{Dir, ReadError};
use std::mem::MaybeUninit;

#[test]
fn as_many_chunks_are_given_as_are_asked_for() -> Result<()> {
    let mut end = client(1, WINDOW, WINDOW)?;
    let mut offset = 0;
    for size in 1..20 {
        take_in(&mut end, 3, offset, size, false)?;
        end.accept(Dir::Uni)?;
        let mut stream = end.recv_stream(stream_id(3));
        let mut reader = stream.chunks(true);
        let answers: Vec<_> = (0..9).map(|_| reader.next(2)).collect();
        let chunks: Vec<_> = answers.iter().flatten().flatten().collect();
        assert_eq!(chunks.len(), ((size + 1) / 2).min(9), "{size} bytes");
        let bytes: Vec<u8> = chunks.iter().flat_map(|it| it.bytes.clone()).collect();
        assert_eq!(bytes, pattern(offset, size.min(18)), "{size} bytes");
        let more = answers.last() != Some(&Err(ReadError::Blocked));
        assert_eq!(more, size > 16, "{size} bytes");
        offset += size as u64;
    }
    Ok(())
}

// A limit of a stream is told once its credit is worth a frame, and that of the connection is not.
#[test]
fn a_read_gives_credit() -> Result<()> {
    let mut end = client(128, WINDOW, 8)?;
    take_in(&mut end, 3, 0, 1, false)?;
    end.accept(Dir::Uni)?;
    let mut byte = [0];
    assert_eq!(end.recv_stream(stream_id(3)).read(&mut byte)?, Some(1));
    assert!(end.due().control);
    let (payload, _) = emit(&mut end, 1200, CONTROL)?.expect("a limit is due");
    assert_eq!(control_frames(&payload), [[MAX_STREAM_DATA, 3, 9]]);
    let info = end.info();
    assert_eq!((info.local_max_data, info.data_received), (WINDOW + 1, 1));
    Ok(())
}

// The bytes behind those that were read stay as they were, in order and as they come.
#[test]
fn a_read_initialises_as_many_bytes_as_it_says() -> Result<()> {
    let mut end = client(1, WINDOW, WINDOW)?;
    let mut offset = 0;
    for (size, ordered) in (1..20).map(|size| (size, true)).chain([(9, false)]) {
        take_in(&mut end, 3, offset, size, false)?;
        end.accept(Dir::Uni)?;
        let mut room = [MaybeUninit::new(255); 32];
        let mut stream = end.recv_stream(stream_id(3));
        let read = stream.read_into_uninit(&mut room, ordered)?;
        assert_eq!(read, Some((size, offset)));
        // SAFETY: all were initialised above.
        let bytes = room.map(|byte| unsafe { byte.assume_init() });
        assert_eq!(bytes[..size], pattern(offset, size), "{size} bytes");
        assert!(bytes[size..].iter().all(|byte| *byte == 255));
        let again = stream.read_into_uninit(&mut room, ordered);
        assert_eq!(again, Err(ReadError::Blocked));
        offset += size as u64;
    }
    Ok(())
}
