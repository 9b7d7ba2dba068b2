//! One end, the bytes that it is handed, and the payloads that it writes.

#![allow(dead_code, unused_imports)] // each test file uses a part

#[path = "../common/mod.rs"]
mod common;
pub mod steps;

pub use common::{config, events, limits, stream_id, varint, Result, CONTROL, STREAMS, WINDOW};
use quic_streams::{Emit, Side, StreamsState, Token};

/// The greatest number of a frame (RFC 9000 section 16).
pub const GREATEST: u64 = (1 << 62) - 1;

// The types of frames (RFC 9000 section 19).
pub const RESET_STREAM: u64 = 0x04;
pub const STOP_SENDING: u64 = 0x05;
pub const MAX_DATA: u64 = 0x10;
pub const MAX_STREAM_DATA: u64 = 0x11;
pub const MAX_STREAMS_UNI: u64 = 0x13;
pub const STREAM_DATA_BLOCKED: u64 = 0x15;

/// A client of [`config`].
pub fn client(streams: u64, window: u64, stream_window: u64) -> Result<StreamsState> {
    let config = config(streams, window, stream_window);
    Ok(StreamsState::new(Side::Client, &config)?)
}

/// The peer permits so many streams of each direction, and so many bytes in all and on each stream.
pub fn permit(end: &mut StreamsState, streams: u64, data: u64, stream_data: u64) -> Result<()> {
    end.set_params(&limits(streams, data, stream_data))?;
    Ok(())
}

/// The bytes of every stream: each tells its place.
pub fn pattern(offset: u64, count: usize) -> Vec<u8> {
    (0..count as u64)
        .map(|place| (offset.wrapping_add(place) % 251) as u8)
        .collect()
}

/// The next payload of at most so many bytes, if there is one.
pub fn emit(
    end: &mut StreamsState,
    max_size: usize,
    what: Emit,
) -> Result<Option<(Vec<u8>, Token)>> {
    let payload = end.emit_lent(max_size, what)?;
    Ok(payload.map(|payload| (payload.bytes.to_vec(), payload.token)))
}

/// All payloads that are due, each of at most so many bytes.
pub fn emit_all(
    end: &mut StreamsState,
    max_size: usize,
    what: Emit,
) -> Result<Vec<(Vec<u8>, Token)>> {
    let mut payloads = Vec::new();
    while let Some(payload) = emit(end, max_size, what)? {
        payloads.push(payload);
    }
    Ok(payloads)
}

/// The bytes of payloads, one behind another.
pub fn joined(payloads: &[(Vec<u8>, Token)]) -> Vec<u8> {
    payloads
        .iter()
        .flat_map(|(bytes, _)| bytes.clone())
        .collect()
}

/// How many bytes a number takes (RFC 9000 section 16).
pub fn size_of(number: u64) -> usize {
    match number {
        0..=0x3f => 1,
        0x40..=0x3fff => 2,
        0x4000..=0x3fff_ffff => 4,
        _ => 8,
    }
}

/// Appends a number (RFC 9000 section 16).
pub fn put_number(bytes: &mut Vec<u8>, number: u64) {
    let size = size_of(number);
    let prefix = (size.trailing_zeros() as u8) << 6;
    let start = bytes.len();
    bytes.extend_from_slice(&number.to_be_bytes()[8 - size..]);
    bytes[start] |= prefix;
}

/// Takes the number that comes first.
fn take_number(bytes: &mut &[u8]) -> u64 {
    let size = 1 << (bytes[0] >> 6);
    let (number, rest) = bytes.split_at(size);
    *bytes = rest;
    let first = u64::from(number[0] & 0x3f);
    number[1..]
        .iter()
        .fold(first, |sum, byte| sum << 8 | u64::from(*byte))
}

/// The control frames of a payload: of each its type and its numbers (RFC 9000 section 19).
pub fn control_frames(payload: &[u8]) -> Vec<Vec<u64>> {
    let (mut rest, mut frames) = (payload, Vec::new());
    while !rest.is_empty() {
        let kind = take_number(&mut rest);
        let count = match kind {
            0x04 => 3,
            0x05 | 0x11 | 0x15 => 2,
            0x10 | 0x12..=0x14 => 1,
            _ => panic!("type {kind:#x} is no control frame of streams"),
        };
        let numbers = (0..count).map(|_| take_number(&mut rest));
        frames.push(
            std::iter::once(kind)
                .chain(numbers.collect::<Vec<_>>())
                .collect(),
        );
    }
    frames
}
