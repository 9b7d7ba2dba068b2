//! What the test programs share.

// Each test program compiles this module for itself, and uses a part of it.
#![allow(dead_code)]

use quic_streams::{Config, Dir, Emit, Event, Limits, Side, StreamId, StreamsState, VarInt};
use std::error::Error;
use std::iter::from_fn;

pub type Result<T, E = Box<dyn Error>> = std::result::Result<T, E>;

/// The windows of an end, where a test does not say others.
pub const WINDOW: u64 = 1 << 20;

/// Control frames alone: all but STREAM and DATAGRAM.
pub const CONTROL: Emit = Emit::CONTROL;

/// STREAM frames alone, of streams that take turns.
pub const STREAMS: Emit = Emit::STREAMS;

/// The stream of a number below 2^62 (RFC 9000 section 2.1).
pub const fn stream_id(number: u64) -> StreamId {
    let initiator = match number & 1 {
        0 => Side::Client,
        _ => Side::Server,
    };
    let dir = match number & 2 {
        0 => Dir::Bi,
        _ => Dir::Uni,
    };
    StreamId::new(initiator, dir, number >> 2)
}

/// A number below 2^62.
pub fn varint(number: u64) -> VarInt {
    VarInt::from_u64(number).expect("a number below 2^62")
}

/// An end that permits its peer so many streams of each direction, and so many bytes in all and on each stream.
pub fn config(streams: u64, window: u64, stream_window: u64) -> Config {
    let mut config = Config::default();
    config.max_remote_uni = varint(streams);
    config.max_remote_bi = varint(streams);
    config.send_window = WINDOW;
    config.receive_window = varint(window);
    config.stream_window = varint(stream_window);
    config.datagram_receive = None;
    config.datagram_send = 0;
    config
}

/// The peer permits so many streams of each direction, and so many bytes in all and on each stream.
pub fn limits(streams: u64, data: u64, stream_data: u64) -> Limits {
    let mut limits = Limits::default();
    limits.initial_max_data = varint(data);
    limits.initial_max_streams_bidi = varint(streams);
    limits.initial_max_streams_uni = varint(streams);
    limits.initial_max_stream_data_uni = varint(stream_data);
    limits.initial_max_stream_data_bidi_local = varint(stream_data);
    limits.initial_max_stream_data_bidi_remote = varint(stream_data);
    limits
}

/// The events that wait, in their order.
pub fn events(end: &mut StreamsState) -> Vec<Event> {
    from_fn(|| end.poll()).collect()
}

/// Takes out the frames that wait, of the kinds that are named, and reports them as acknowledged.
pub fn frames(end: &mut StreamsState, what: Emit) -> Result<Vec<u8>> {
    let (mut packet, mut all) = ([0; 1200], Vec::new());
    while let Some(payload) = end.emit(&mut packet, what)? {
        all.extend_from_slice(&packet[..payload.len]);
        end.acked(payload.token)?;
    }
    Ok(all)
}

/// The same of the control frames alone.
pub fn control_frames(end: &mut StreamsState) -> Result<Vec<u8>> {
    frames(end, CONTROL)
}
