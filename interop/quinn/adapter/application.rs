//! Opening, accepting and writing.

use quic_streams as layer;

use super::names::{code_of, id_of, layer_dir, layer_id, layer_int};
use super::reading::Readable;
use super::{FinishError, StreamsState, UnknownStream, WriteError};
use crate::{Dir, StreamId, VarInt};

impl StreamsState {
    pub(super) fn open(&mut self, dir: Dir) -> Option<StreamId> {
        let opened = self.endpoint().open(layer_dir(dir));
        let id = id_of(self.value(opened)??);
        self.opened[dir as usize] += 1;
        if dir == Dir::Bi {
            self.readable.insert(id, Readable::default());
        }
        Some(id)
    }

    pub(super) fn accept(&mut self, dir: Dir) -> Option<StreamId> {
        match self.ahead[dir as usize].pop_front() {
            Some(id) => Some(id),
            None => self.take(dir),
        }
    }

    /// Accepts the next stream of the peer from the library.
    fn take(&mut self, dir: Dir) -> Option<StreamId> {
        let accepted = self.endpoint().accept(layer_dir(dir));
        let id = id_of(self.value(accepted)??);
        self.given[dir as usize] += 1;
        self.readable.insert(id, Readable::default());
        Some(id)
    }

    /// Accepts streams from the library up to one that the application uses before it accepts it.
    pub(super) fn take_ahead(&mut self, id: StreamId) {
        let dir = id.dir();
        while self.is_to_come(id) {
            let Some(next) = self.take(dir) else {
                break;
            };
            self.ahead[dir as usize].push_back(next);
        }
    }

    /// Whether a stream of the peer was not accepted from the library
    pub(super) fn is_to_come(&self, id: StreamId) -> bool {
        id.initiator() != self.side && id.index() >= self.given[id.dir() as usize]
    }

    /// The send side of a stream
    fn sending(&mut self, id: StreamId) -> layer::SendStream<'_> {
        self.take_ahead(id);
        self.endpoint().send_stream(layer_id(id))
    }

    pub(super) fn send_streams(&self) -> usize {
        let all = self.endpoint.info().send_streams as usize;
        all.saturating_sub(self.ahead[Dir::Bi as usize].len())
    }

    /// Writes on a stream. A stop is reported even if a full window would block the write: a stream that is not reset then
    /// keeps its final size from the peer, which may return no credit without it.
    pub(super) fn write(&mut self, id: StreamId, data: &[u8]) -> Result<usize, WriteError> {
        let mut stream = self.sending(id);
        let error = match stream.write(data) {
            Ok(count) => {
                self.unsent += count as u64;
                return Ok(count);
            }
            Err(layer::WriteError::Blocked) => match stream.stopped() {
                Ok(Some(code)) => layer::WriteError::Stopped(code),
                _ => layer::WriteError::Blocked,
            },
            Err(error) => error,
        };
        Err(match error {
            layer::WriteError::Stopped(code) => WriteError::Stopped(code_of(code)),
            layer::WriteError::ClosedStream => WriteError::UnknownStream,
            layer::WriteError::Blocked => WriteError::Blocked,
            _ => {
                self.ran_out_of_memory();
                WriteError::Blocked
            }
        })
    }

    pub(super) fn finish(&mut self, id: StreamId) -> Result<(), FinishError> {
        match self.sending(id).finish() {
            Ok(()) => Ok(()),
            Err(layer::FinishError::Stopped(code)) => Err(FinishError::Stopped(code_of(code))),
            Err(layer::FinishError::ClosedStream) => Err(FinishError::UnknownStream),
            Err(_) => {
                self.ran_out_of_memory();
                Err(FinishError::UnknownStream)
            }
        }
    }

    pub(super) fn reset(&mut self, id: StreamId, code: VarInt) -> Result<(), UnknownStream> {
        self.unsent = 0;
        let reset = self.sending(id).reset(layer_int(code));
        self.on_stream(reset)
    }

    pub(super) fn stopped(&mut self, id: StreamId) -> Result<Option<VarInt>, UnknownStream> {
        let stopped = self.sending(id).stopped();
        Ok(self.on_stream(stopped)?.map(code_of))
    }

    pub(super) fn set_priority(&mut self, id: StreamId, value: i32) -> Result<(), UnknownStream> {
        let set = self.sending(id).set_priority(value);
        self.on_stream(set)
    }

    pub(super) fn priority(&self, id: StreamId) -> Result<i32, UnknownStream> {
        self.on_stream(self.endpoint.priority(layer_id(id)))
    }

    /// The result of a call on a stream.
    pub(super) fn on_stream<T>(
        &self,
        result: Result<T, layer::StreamError>,
    ) -> Result<T, UnknownStream> {
        if let Err(layer::StreamError::OutOfMemory) = result {
            self.ran_out_of_memory();
        }
        result.map_err(|_| UnknownStream { _private: () })
    }
}
