//! Values of quinn-proto as those of the library, and back.

use crate::connection::streams::StreamEvent;
use crate::connection::Event;
use crate::{Dir, StreamId, TransportError, VarInt};
use quic_streams as layer;

pub(super) fn layer_id(id: StreamId) -> layer::StreamId {
    layer::StreamId::from(layer_int(id.into()))
}

pub(super) fn id_of(id: layer::StreamId) -> StreamId {
    StreamId(id.into())
}

pub(super) fn layer_int(number: VarInt) -> layer::VarInt {
    layer::VarInt::from_u64(number.into()).unwrap_or(layer::VarInt::MAX)
}

pub(super) fn layer_dir(dir: Dir) -> layer::Dir {
    match dir {
        Dir::Bi => layer::Dir::Bi,
        Dir::Uni => layer::Dir::Uni,
    }
}

fn dir_of(dir: layer::Dir) -> Dir {
    match dir {
        layer::Dir::Bi => Dir::Bi,
        layer::Dir::Uni => Dir::Uni,
    }
}

pub(super) fn code_of(code: layer::VarInt) -> VarInt {
    VarInt::from_u64(code.into()).unwrap_or(VarInt::MAX)
}

/// The event of quinn-proto, where it has one: it never blocks a datagram.
pub(super) fn event_of(event: layer::Event) -> Option<Event> {
    let event = match event {
        layer::Event::Opened { dir } => StreamEvent::Opened { dir: dir_of(dir) },
        layer::Event::Readable { id } => StreamEvent::Readable { id: id_of(id) },
        layer::Event::Writable { id } => StreamEvent::Writable { id: id_of(id) },
        layer::Event::Finished { id } => StreamEvent::Finished { id: id_of(id) },
        layer::Event::Stopped { id, error_code } => StreamEvent::Stopped {
            id: id_of(id),
            error_code: code_of(error_code),
        },
        layer::Event::Available { dir } => StreamEvent::Available { dir: dir_of(dir) },
        layer::Event::DatagramReceived => return Some(Event::DatagramReceived),
        _ => return None,
    };
    Some(Event::Stream(event))
}

/// The error of a rejected frame, by its code (RFC 9000 section 20.1).
pub(super) fn transport_error(error: layer::ReceiveError) -> TransportError {
    let layer::ReceiveError::Transport(error) = error else {
        return TransportError::INTERNAL_ERROR(error.to_string());
    };
    match u64::from(error.code) {
        0x3 => TransportError::FLOW_CONTROL_ERROR(error.reason),
        0x4 => TransportError::STREAM_LIMIT_ERROR(error.reason),
        0x5 => TransportError::STREAM_STATE_ERROR(error.reason),
        0x6 => TransportError::FINAL_SIZE_ERROR(error.reason),
        0x7 => TransportError::FRAME_ENCODING_ERROR(error.reason),
        0xa => TransportError::PROTOCOL_VIOLATION(error.reason),
        _ => TransportError::INTERNAL_ERROR(error.reason),
    }
}
