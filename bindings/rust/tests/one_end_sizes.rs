//! Bytes, streams, chunks and control frames of one end, in numbers on both sides of powers of two.

#![cfg(not(miri))] // it calls the library

mod one_end;

use one_end::steps::{read, take_in, Given, Last, Reads};
use one_end::*;
use quic_streams::{Dir, Event, ReadError, StreamsState, Token, WriteError};

// The sizes on both sides of each power of two up to 2^16.
fn sizes() -> impl Iterator<Item = usize> {
    (0..17).flat_map(|power| [(1 << power) - 1, 1 << power, (1 << power) + 1])
}

// Takes a frame of so many bytes behind what came, and reads it in two chunks.
fn pass_in(end: &mut StreamsState, offset: u64, size: usize) -> Result<()> {
    take_in(end, 3, offset, size, false)?;
    end.accept(Dir::Uni)?;
    let mut stream = end.recv_stream(stream_id(3));
    let mut chunks = stream.chunks(true);
    let (mut bytes, mut last) = (Vec::new(), None);
    for _ in 0..3 {
        match chunks.next((size + 1) / 2) {
            Ok(chunk) => bytes.extend(chunk.expect("the stream has no end").bytes),
            Err(error) => last = Some(error),
        }
        if last.is_some() {
            break;
        }
    }
    assert_eq!(last, Some(ReadError::Blocked), "{size} bytes");
    assert!(bytes == pattern(offset, size), "{size} bytes");
    Ok(())
}

#[test]
fn every_size_is_taken_and_read() -> Result<()> {
    let mut end = client(1, WINDOW, WINDOW)?;
    let mut offset = 0;
    for size in sizes() {
        pass_in(&mut end, offset, size)?;
        offset += size as u64;
    }
    Ok(())
}

// Takes a stream of three bytes, and reads it byte by byte.
fn pass_stream(end: &mut StreamsState, stream: u64) -> Result<()> {
    take_in(end, stream, 0, 3, true)?;
    let id = stream_id(stream);
    assert_eq!(end.accept(Dir::Uni), Ok(Some(id)));
    for offset in 0..3 {
        let mut byte = [0];
        let read = end.recv_stream(id).read_into(&mut byte, false)?;
        assert_eq!(read, Some((1, offset)), "{id}");
        assert_eq!(byte.as_slice(), pattern(offset, 1), "{id}");
    }
    let Given(bytes, last, _) = read(end, stream, false, Reads(1, 1))?;
    assert_eq!((bytes, last), (0, Last::Ended), "{id}");
    Ok(())
}

#[test]
fn every_number_of_streams_and_chunks_is_served() -> Result<()> {
    let mut end = client(1025, WINDOW, WINDOW)?;
    for index in 0..1025 {
        pass_stream(&mut end, 4 * index + 3)?;
    }
    let payloads = emit_all(&mut end, 1200, CONTROL)?;
    let frames = control_frames(&joined(&payloads));
    assert_eq!(frames, [[MAX_STREAMS_UNI, 2050]]);
    Ok(())
}

// What is to be sent of a finished stream: its id, its bytes, and which of them.
#[derive(Clone, Copy)]
struct Part<'a> {
    stream: u64,
    content: &'a [u8],
    first: usize,
    end: usize,
}

// A payload in flight, with the bytes from one offset to another.
#[derive(Clone, Copy)]
struct Flying {
    token: Token,
    first: usize,
    end: usize,
}

// The frame that has to come first in a payload of so many bytes (RFC 9000 section 19.8), and where it ends. Where all
// that is left leaves room, eight bytes are kept for the length.
fn frame_of(part: &Part, max: usize) -> (Vec<u8>, usize) {
    let first = part.first as u64;
    let offset_size = if first == 0 { 0 } else { size_of(first) };
    let room = max - (1 + size_of(part.stream) + offset_size);
    let left = part.end - part.first;
    let has_length = left < room;
    let count = left.min(if has_length {
        room.saturating_sub(8)
    } else {
        room
    });
    let end = part.first + count;
    let (offset_bit, length_bit) = (u8::from(first != 0) << 2, u8::from(has_length) << 1);
    let end_bit = u8::from(end == part.content.len());
    let mut bytes = vec![0x08 | offset_bit | length_bit | end_bit];
    put_number(&mut bytes, part.stream);
    if first != 0 {
        put_number(&mut bytes, first);
    }
    if has_length {
        put_number(&mut bytes, count as u64);
    }
    bytes.extend_from_slice(&part.content[part.first..end]);
    (bytes, end)
}

// Writes payloads of at most so many bytes until nothing is left of a part.
fn send(end: &mut StreamsState, flying: &mut Vec<Flying>, part: Part, max: usize) -> Result<()> {
    let (mut first, size) = (part.first, part.content.len());
    for _ in 0..5 {
        let (frame, next) = frame_of(&Part { first, ..part }, max);
        let (bytes, token) = emit(end, max, STREAMS)?.expect("data are due");
        assert!(bytes == frame, "{size} bytes");
        let end = next;
        flying.push(Flying { token, first, end });
        first = next;
        if first == part.end {
            break;
        }
    }
    assert_eq!(first, part.end, "{size} bytes");
    assert!(!end.info().can_send_stream_data);
    Ok(())
}

// Loses the middle one of the payloads, writes it again, and has the others acknowledged.
fn lose_and_ack(end: &mut StreamsState, mut flying: Vec<Flying>, part: Part) -> Result<()> {
    let lost = flying.remove(flying.len() / 2);
    end.lost(lost.token)?;
    let lost = Part {
        first: lost.first,
        end: lost.end,
        ..part
    };
    send(end, &mut flying, lost, part.content.len() + 40)?;
    for payload in flying {
        end.acked(payload.token)?;
    }
    let id = stream_id(part.stream);
    assert_eq!(end.poll(), Some(Event::Finished { id }));
    assert_eq!(end.poll(), None);
    Ok(())
}

// Opens a stream, writes so many bytes, and ends it; then all of it is sent, lost in part, and acknowledged.
fn pass_out(end: &mut StreamsState, stream: u64, size: usize, max: usize) -> Result<()> {
    let (content, id) = (pattern(0, size), stream_id(stream));
    assert_eq!(end.open(Dir::Uni)?, Some(id));
    // A write of nothing would queue the stream as well.
    if size > 0 {
        assert_eq!(end.send_stream(id).write(&content), Ok(size));
    }
    end.send_stream(id).finish()?;
    let part = Part {
        stream,
        content: &content,
        first: 0,
        end: size,
    };
    let mut flying = Vec::new();
    send(end, &mut flying, part, max)?;
    assert_eq!(flying.len() > 1, max < size + 10, "{size} bytes");
    lose_and_ack(end, flying, part)
}

#[test]
fn every_size_is_sent_lost_and_acknowledged() -> Result<()> {
    for is_cut in [false, true] {
        let mut end = client(1, WINDOW, WINDOW)?;
        permit(&mut end, 51, WINDOW, WINDOW)?;
        for (index, size) in (0..).zip(sizes()) {
            let max = if is_cut { size / 3 + 26 } else { size + 40 };
            pass_out(&mut end, 4 * index + 2, size, max)?;
        }
    }
    Ok(())
}

// The window of each stream, and the bytes whose credit is worth a frame there. The limit of the connection is not told.
const STREAM_WINDOW: u64 = 1 << 14;
const WORTH_A_FRAME: usize = 1 << 11;
const TOLD: u64 = STREAM_WINDOW + WORTH_A_FRAME as u64;

// The codes of a reset and of a stop, which are no ids.
fn reset_code(index: u64) -> u64 {
    u64::from(!(index as u32))
}

fn stop_code(index: u64) -> u64 {
    index ^ 0x5555
}

// Queues an entry of each of four kinds: for streams 0, 2 and 3, or those so many times 4 behind them.
fn queue_entry(end: &mut StreamsState, index: u64) -> Result<()> {
    let first = stream_id(4 * index);
    assert_eq!(end.open(Dir::Bi)?, Some(first));
    assert_eq!(end.send_stream(first).write(b"th"), Ok(1));
    let blocked = end.send_stream(first).write(b"i");
    assert_eq!(blocked, Err(WriteError::Blocked));
    take_in(end, first.into(), 0, WORTH_A_FRAME, false)?;
    let Given(bytes, _, _) = read(end, first.into(), true, Reads(WORTH_A_FRAME, 1))?;
    assert_eq!(bytes, WORTH_A_FRAME);
    let own = stream_id(4 * index + 2);
    assert_eq!(end.open(Dir::Uni)?, Some(own));
    end.send_stream(own).reset(varint(reset_code(index)))?;
    let of_peer = stream_id(4 * index + 3);
    end.recv_stream(of_peer).stop(varint(stop_code(index)))?;
    Ok(())
}

// A client with so many entries of each kind.
fn with_entries(count: u64) -> Result<StreamsState> {
    let mut end = client(count, 1 << 40, STREAM_WINDOW)?;
    permit(&mut end, count, WINDOW, 1)?;
    // A stream of the peer opens all below it.
    take_in(&mut end, 4 * count - 1, 0, 0, false)?;
    for index in 0..count {
        assert_eq!(end.accept(Dir::Uni), Ok(Some(stream_id(4 * index + 3))));
        queue_entry(&mut end, index)?;
    }
    Ok(end)
}

fn length_of_entries(count: u64) -> usize {
    let ids = |index: u64| 2 * size_of(4 * index) + size_of(4 * index + 2) + size_of(4 * index + 3);
    let codes = |index: u64| size_of(reset_code(index)) + size_of(stop_code(index));
    // The limit that is told takes four bytes, every other number takes one: types, a final size and a limit.
    (0..count)
        .map(|index| ids(index) + codes(index) + 4 + 4 + 1 + 1)
        .sum()
}

// Each entry is there once, resets and stops in the order of these indices.
fn are_entries(frames: &[Vec<u64>], indices: impl Iterator<Item = u64> + Clone) {
    let of = |kind: u64| frames.iter().filter(move |it| it[0] == kind).cloned();
    let resets = indices
        .clone()
        .map(|it| vec![RESET_STREAM, 4 * it + 2, reset_code(it), 0]);
    assert!(of(RESET_STREAM).eq(resets));
    let stops = indices
        .clone()
        .map(|it| vec![STOP_SENDING, 4 * it + 3, stop_code(it)]);
    assert!(of(STOP_SENDING).eq(stops));
    let count = indices.count() as u64;
    for (kind, limit) in [(MAX_STREAM_DATA, TOLD), (STREAM_DATA_BLOCKED, 1)] {
        let mut found: Vec<_> = of(kind).collect();
        found.sort();
        let wanted = (0..count).map(|it| vec![kind, 4 * it, limit]);
        assert!(found.into_iter().eq(wanted));
    }
    assert_eq!(frames.len() as u64, 4 * count);
}

// Writes entries for so many streams into payloads of at most so many bytes, until nothing is left, and then loses these.
fn write_entries(count: u64, max: usize) -> Result<()> {
    let mut end = with_entries(count)?;
    let payloads = emit_all(&mut end, max, CONTROL)?;
    assert!(payloads.iter().all(|(bytes, _)| bytes.len() <= max));
    let bytes = joined(&payloads);
    assert_eq!(bytes.len(), length_of_entries(count));
    // What was queued last comes first.
    are_entries(&control_frames(&bytes), (0..count).rev());
    assert!(!end.due().control && !end.info().has_pending);
    for (_, token) in payloads {
        end.lost(token)?;
    }
    let again = joined(&emit_all(&mut end, max, CONTROL)?);
    are_entries(&control_frames(&again), 0..count);
    Ok(())
}

#[test]
fn every_number_of_entries_is_written_once() -> Result<()> {
    for count in [1, 2, 3, 255, 256, 257, 1023, 1024, 1025, 4095, 4096, 4097] {
        write_entries(count, 1 << 20)?;
        write_entries(count, 60)?;
    }
    Ok(())
}
