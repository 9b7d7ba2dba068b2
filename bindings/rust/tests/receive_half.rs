//! The receive half of a stream: what it takes and counts, and what it gives.

#![cfg(not(miri))] // it calls the library

mod one_end;

use one_end::steps::*;
use one_end::*;
use quic_streams::{Config, Dir, ReadError, StreamError, StreamId, StreamsState};

const ID: StreamId = stream_id(3);

/// INTERNAL_ERROR (RFC 9000 section 20.1).
const INTERNAL: Answer = Err(1);

/// How many bytes a window has that no test fills.
const AMPLE: u64 = 1 << 30;

fn ample() -> Config {
    config(128, WINDOW, WINDOW)
}

const OUT_OF_ORDER: [Step; 5] = [
    Step::Final(3, 3, 3, TAKEN),
    Step::Ordered(3, Reads(4, 1), Given(0, Last::Blocked, false)),
    Step::Data(3, 0, 3, TAKEN),
    Step::Ordered(3, Reads(4, 9), Given(6, Last::Ended, false)),
    Step::Is(6, 6),
];

const EMPTY: [Step; 3] = [
    Step::Final(3, 0, 0, TAKEN),
    Step::Ordered(3, Reads(4, 1), Given(0, Last::Ended, false)),
    Step::Is(0, 0),
];

#[test]
fn the_end_is_told_where_all_was_read() -> Result<()> {
    run(&ample(), &OUT_OF_ORDER)?;
    run(&ample(), &EMPTY)
}

// The connection permits 1000 bytes, and each stream 8.
const NOTHING_COUNTS: [Step; 4] = [
    Step::Data(3, 0, 9, FLOW_CONTROL),
    Step::Data(3, GREATEST, 1, FLOW_CONTROL),
    // No frame has such an offset (RFC 9000 section 16).
    Step::Data(3, u64::MAX, 1, FRAME_ENCODING),
    Step::Is(0, 0),
];

// Once other streams had 993 bytes. The read gives credit for one byte more, and for others.
const NEAR_THE_LIMIT: [Step; 12] = [
    Step::Is(0, 993),
    Step::Data(3, 0, 8, FLOW_CONTROL),
    Step::Is(0, 993),
    Step::Data(3, 0, 7, TAKEN),
    Step::Is(0, 1000),
    Step::Data(3, 7, 1, FLOW_CONTROL),
    Step::Data(3, 6, 1, TAKEN),
    Step::Is(0, 1000),
    Step::Ordered(7, Reads(8, 2), Given(8, Last::Blocked, true)),
    Step::Is(8, 1000),
    Step::Data(3, 0, 8, TAKEN),
    Step::Is(8, 1001),
];

#[test]
fn data_above_a_limit_are_refused() -> Result<()> {
    let mut steps = NOTHING_COUNTS.to_vec();
    steps.extend((1..=124).map(|index| Step::Data(4 * index + 3, 0, 8, TAKEN)));
    steps.push(Step::Data(4 * 125 + 3, 0, 1, TAKEN));
    steps.extend(NEAR_THE_LIMIT);
    run(&config(128, 1000, 8), &steps)
}

const TOLD_END: [Step; 9] = [
    Step::Final(3, 0, 10, TAKEN),
    Step::Data(3, 0, 11, FINAL_SIZE),
    Step::Final(3, 0, 5, FINAL_SIZE),
    Step::Data(3, 5, 5, TAKEN),
    Step::Is(0, 10),
    Step::Reset(3, 7, 9, FINAL_SIZE),
    Step::Reset(3, 7, 10, TAKEN),
    Step::Ordered(3, Reads(4, 1), Given(0, Last::Reset(7), false)),
    Step::Is(10, 10),
];

#[test]
fn a_final_size_stays() -> Result<()> {
    run(&ample(), &TOLD_END)
}

/// How many bytes of credit were given beyond a window, and how many were received.
fn counted(end: &mut StreamsState, window: u64) -> (u64, u64) {
    let info = end.info();
    (info.local_max_data - window, info.data_received)
}

#[test]
fn a_stopped_half_counts_without_storing() -> Result<()> {
    let mut end = client(128, 1024, 8)?;
    take_in(&mut end, 3, 3, 3, false)?;
    end.accept(Dir::Uni)?;
    assert_eq!(counted(&mut end, 1024), (0, 6));
    assert!(!end.due().control);
    end.recv_stream(ID).stop(varint(9))?;
    assert_eq!(counted(&mut end, 1024), (6, 6));
    // The limit of the stream is announced neither now nor later.
    let frames = joined(&emit_all(&mut end, 1200, CONTROL)?);
    assert_eq!(control_frames(&frames), [[STOP_SENDING, 3, 9]]);
    take_in(&mut end, 3, 7, 1, false)?;
    assert_eq!(counted(&mut end, 1024), (8, 8));
    take_in(&mut end, 3, 0, 3, false)?;
    assert_eq!(counted(&mut end, 1024), (8, 8));
    assert!(!end.due().control);
    let mut stream = end.recv_stream(ID);
    assert_eq!(stream.stop(varint(9)), Err(StreamError::ClosedStream));
    assert_eq!(stream.read(&mut [0; 4]), Err(ReadError::ClosedStream));
    Ok(())
}

// Of each payload of 1000 bytes one is kept, so that with each 33rd the waste is above 32768. The 32nd time more than
// 1024 pieces are left.
#[test]
fn data_keep_their_payload_alive() -> Result<()> {
    let mut end = client(1, AMPLE, AMPLE)?;
    for index in 0..1056 {
        let answer = answer_of(end.on_stream(ID, 2 * index, b"x", false, 1000))?;
        let wanted = if index < 1055 { TAKEN } else { INTERNAL };
        assert_eq!(answer, wanted, "frame {index}");
        assert_eq!(end.info().data_received, 2 * index + 1, "frame {index}");
    }
    Ok(())
}

fn next_seed(seed: u32) -> u32 {
    seed.wrapping_mul(1_664_525).wrapping_add(1_013_904_223)
}

// So many bytes that look random.
fn draw(seed: u32, count: usize) -> Vec<u8> {
    std::iter::successors(Some(next_seed(seed)), |seed| Some(next_seed(*seed)))
        .map(|seed| (seed >> 24) as u8)
        .take(count)
        .collect()
}

// Reads a chunk of at most so many bytes, and puts it behind others. Says whether there was one.
fn read_chunk(end: &mut StreamsState, most: usize, given: &mut Vec<u8>) -> Result<bool> {
    let start = given.len();
    given.resize(start + most, 0);
    let read = end.recv_stream(ID).read(&mut given[start..]);
    let count = match read {
        Ok(count) => count.ok_or("the stream has no end")?,
        Err(ReadError::Blocked) => 0,
        Err(error) => return Err(error.into()),
    };
    given.truncate(start + count);
    Ok(count != 0)
}

// Takes a frame of so many bytes behind what was read, and reads it in two parts.
fn pass(end: &mut StreamsState, start: u64, size: usize, seed: u32) -> Result<()> {
    let bytes = draw(seed, size);
    end.on_stream(ID, start, &bytes, false, size)?;
    assert_eq!(end.info().data_received, start + size as u64);
    end.accept(Dir::Uni)?;
    let mut given = Vec::new();
    let cut = seed as usize % (size + 1);
    if cut > 0 {
        assert!(read_chunk(end, cut, &mut given)?, "{size} bytes");
        assert_eq!(given.len(), cut, "{size} bytes");
    }
    assert_eq!(
        read_chunk(end, 1 << 17, &mut given)?,
        cut < size,
        "{size} bytes"
    );
    assert!(given == bytes, "{size} bytes");
    assert!(!read_chunk(end, 1, &mut given)?, "{size} bytes");
    Ok(())
}

#[test]
fn takes_and_gives_every_size() -> Result<()> {
    let mut end = client(1, AMPLE, AMPLE)?;
    let (mut start, mut seed) = (0, 20_260_722);
    for power in 0..17 {
        for size in [(1 << power) - 1, 1 << power, (1 << power) + 1] {
            seed = next_seed(seed);
            pass(&mut end, start, size, seed)?;
            start += size as u64;
        }
    }
    Ok(())
}

// The last byte comes first.
#[test]
fn takes_any_number_of_frames() -> Result<()> {
    let mut end = client(1, AMPLE, AMPLE)?;
    let bytes = draw(20_260_722, 65_537);
    for (at, byte) in bytes.iter().enumerate().rev() {
        let answer = answer_of(end.on_stream(ID, at as u64, &[*byte], false, 1))?;
        assert_eq!(answer, TAKEN, "at {at}");
    }
    end.accept(Dir::Uni)?;
    let mut given = Vec::new();
    while read_chunk(&mut end, 1 << 17, &mut given)? {}
    assert!(given == bytes);
    Ok(())
}
