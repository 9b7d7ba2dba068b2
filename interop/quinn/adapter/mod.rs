//! What quinn-proto calls of its streams and datagrams, over the library of this repository.
//!
//! This folder takes the place of quinn-proto's `connection/streams` and `connection/datagrams.rs`. The state of the streams
//! is in the library; here are the names and types that the packet layer and applications of quinn-proto know.

use bytes::Bytes;
use thiserror::Error;

use crate::{Dir, StreamId, VarInt};

mod application;
mod datagrams;
mod incoming;
mod names;
mod outgoing;
mod payloads;
mod reading;
mod recv;
mod send;
mod state;

pub use datagrams::{Datagrams, SendDatagramError};
pub(crate) use payloads::Payloads;
pub use recv::{Chunks, ReadError, ReadableError};
pub use send::{FinishError, WriteError, Written};
pub use state::StreamsState;

/// Access to streams
pub struct Streams<'a> {
    pub(super) state: &'a mut StreamsState,
    pub(super) conn_state: &'a super::State,
}

impl Streams<'_> {
    /// Opens the next stream of a direction, unless as many are open as the peer allows
    pub fn open(&mut self, dir: Dir) -> Option<StreamId> {
        if self.conn_state.is_closed() {
            return None;
        }
        self.state.open(dir)
    }

    /// Accepts the next stream of a direction that the peer opened, if one waits
    pub fn accept(&mut self, dir: Dir) -> Option<StreamId> {
        self.state.accept(dir)
    }

    /// The number of streams that may have unacknowledged data
    pub fn send_streams(&self) -> usize {
        self.state.send_streams()
    }
}

/// The receive side of a stream
pub struct RecvStream<'a> {
    pub(super) id: StreamId,
    pub(super) state: &'a mut StreamsState,
}

impl RecvStream<'_> {
    /// Begins to read, in order or in the order of arrival
    pub fn read(&mut self, ordered: bool) -> Result<Chunks<'_>, ReadableError> {
        Chunks::new(self.state, self.id, ordered)
    }

    /// Asks the peer to stop sending, and drops unread data
    pub fn stop(&mut self, error_code: VarInt) -> Result<(), UnknownStream> {
        self.state.stop(self.id, error_code)
    }
}

/// The send side of a stream
pub struct SendStream<'a> {
    pub(super) id: StreamId,
    pub(super) state: &'a mut StreamsState,
    pub(super) conn_state: &'a super::State,
}

impl SendStream<'_> {
    /// Writes the first bytes of `data`, and returns how many
    pub fn write(&mut self, data: &[u8]) -> Result<usize, WriteError> {
        if self.conn_state.is_closed() {
            return Err(WriteError::Blocked);
        }
        self.state.write(self.id, data)
    }

    /// Writes the first of some chunks, and returns how many and how much. What was written is cut from them.
    pub fn write_chunks(&mut self, data: &mut [Bytes]) -> Result<Written, WriteError> {
        send::write_chunks(self, data)
    }

    /// The code of the peer's STOP_SENDING, if one was received
    pub fn stopped(&mut self) -> Result<Option<VarInt>, UnknownStream> {
        self.state.stopped(self.id)
    }

    /// Finishes the stream: nothing more can be written
    pub fn finish(&mut self) -> Result<(), FinishError> {
        self.state.finish(self.id)
    }

    /// Resets the stream: data is not retransmitted any more
    pub fn reset(&mut self, error_code: VarInt) -> Result<(), UnknownStream> {
        self.state.reset(self.id, error_code)
    }

    /// Sets the priority of the stream
    pub fn set_priority(&mut self, priority: i32) -> Result<(), UnknownStream> {
        self.state.set_priority(self.id, priority)
    }

    /// The priority that was set last
    pub fn priority(&self) -> Result<i32, UnknownStream> {
        self.state.priority(self.id)
    }
}

/// An event for the application
#[derive(Debug, PartialEq, Eq)]
pub enum StreamEvent {
    /// The peer opened streams of a direction
    Opened {
        /// The direction
        dir: Dir,
    },
    /// More streams of a direction may be opened
    Available {
        /// The direction
        dir: Dir,
    },
    /// The peer asked to stop sending on a stream
    Stopped {
        /// The stream
        id: StreamId,
        /// The application error code
        error_code: VarInt,
    },
    /// All data of a stream was acknowledged, with its FIN
    Finished {
        /// The stream
        id: StreamId,
    },
    /// A blocked stream may be written on again
    Writable {
        /// The stream
        id: StreamId,
    },
    /// A stream may have data, a FIN or a reset to read
    Readable {
        /// The stream
        id: StreamId,
    },
}

/// Whether a packet should be sent
#[derive(Copy, Clone, Debug, Default, Eq, PartialEq)]
#[must_use = "a packet may have to be sent"]
pub struct ShouldTransmit(bool);

impl ShouldTransmit {
    /// Whether a packet should be sent
    pub fn should_transmit(self) -> bool {
        self.0
    }
}

/// The stream was neither opened nor accepted, or this side of it is closed
#[derive(Debug, Error, Clone, PartialEq, Eq)]
#[error("unknown stream")]
pub struct UnknownStream {
    _private: (),
}
