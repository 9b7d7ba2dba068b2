//! Reading.

use std::mem::MaybeUninit;
use std::slice;

use bytes::buf::UninitSlice;
use bytes::BufMut;
use quic_streams as layer;

use super::names::{code_of, layer_id, layer_int};
use super::{ReadError, ReadableError, StreamsState, UnknownStream};
use crate::connection::assembler::Chunk;
use crate::{StreamId, VarInt};

/// The longest chunk. An application that copies it finds it in the nearest cache.
const LONGEST_CHUNK: usize = 1 << 12;

/// Chunks take parts of as many bytes.
const ROOM: usize = 1 << 17;

/// A receive side that the application may read.
#[derive(Default)]
pub(super) struct Readable {
    /// Whether it was read in the order of arrival.
    unordered: bool,
    /// Whether all was read from the library, which has closed this side.
    finished: bool,
    /// Bytes that were read from the library and not by the application.
    left: Option<Chunk>,
}

impl StreamsState {
    pub(super) fn stop(&mut self, id: StreamId, code: VarInt) -> Result<(), UnknownStream> {
        self.take_ahead(id);
        if matches!(self.readable.remove(&id), Some(side) if side.finished) {
            return Ok(());
        }
        let stopped = self
            .endpoint()
            .recv_stream(layer_id(id))
            .stop(layer_int(code));
        self.on_stream(stopped)
    }

    /// Whether a stream can be read
    pub(super) fn begin_read(&mut self, id: StreamId, ordered: bool) -> Result<(), ReadableError> {
        self.take_ahead(id);
        if self.is_to_come(id) {
            return Ok(());
        }
        let readable = self.readable.get_mut(&id);
        let side = readable.ok_or(ReadableError::UnknownStream)?;
        if ordered && side.unordered {
            return Err(ReadableError::IllegalOrderedRead);
        }
        side.unordered |= !ordered;
        Ok(())
    }

    /// Reads the next chunk of a stream, with whether more may follow at once; `None` at its end
    pub(super) fn read(
        &mut self,
        id: StreamId,
        ordered: bool,
        max_length: usize,
    ) -> Result<Option<(Chunk, bool)>, ReadError> {
        let Some(side) = self.readable.get_mut(&id).filter(|_| max_length > 0) else {
            return Err(ReadError::Blocked);
        };
        if let Some(chunk) = side.left.take() {
            return Ok(Some(self.cut(id, (chunk, true), max_length)));
        }
        let read = match ordered && max_length != usize::MAX {
            _ if side.finished => Ok(None),
            true => self.read_frames(id),
            false => self.read_frame(id, ordered, max_length),
        };
        let end = match read {
            Ok(Some(read)) => return Ok(Some(self.cut(id, read, max_length))),
            Ok(None) => Ok(None),
            Err(layer::ReadError::Reset(code)) => Err(ReadError::Reset(code_of(code))),
            Err(error) => {
                if let layer::ReadError::OutOfMemory = error {
                    self.ran_out_of_memory();
                }
                return Err(ReadError::Blocked);
            }
        };
        self.readable.remove(&id);
        end
    }

    /// Keeps the part of a chunk that is too long.
    fn cut(&mut self, id: StreamId, read: (Chunk, bool), max_length: usize) -> (Chunk, bool) {
        let (mut chunk, has_more) = read;
        let length = max_length.min(LONGEST_CHUNK);
        if chunk.bytes.len() <= length {
            return (chunk, has_more);
        }
        let bytes = chunk.bytes.split_off(length);
        let offset = chunk.offset + length as u64;
        self.readable.entry(id).or_default().left = Some(Chunk { offset, bytes });
        (chunk, true)
    }

    /// Reads the data of several frames in order, as one chunk.
    fn read_frames(&mut self, id: StreamId) -> Result<Option<(Chunk, bool)>, layer::ReadError> {
        self.due.set(None);
        let mut stream = self.endpoint.recv_stream(layer_id(id));
        let read = stream.read_lent()?;
        let length = read.pieces().map(<[u8]>::len).sum();
        if self.room.capacity() < length {
            self.room.reserve(length.max(ROOM));
        }
        read.pieces().for_each(|piece| self.room.put_slice(piece));
        let (offset, next) = (read.offset, read.next);
        match (length, next) {
            (0, layer::Next::Finished) => return Ok(None),
            (0, _) => return Err(layer::ReadError::Blocked),
            (_, layer::Next::Finished) => self.readable.entry(id).or_default().finished = true,
            _ => {}
        }
        let bytes = self.room.split().freeze();
        let has_more = next != layer::Next::Blocked;
        Ok(Some((Chunk { offset, bytes }, has_more)))
    }

    /// Reads the data of one frame, or the part of it that the room has space for.
    fn read_frame(
        &mut self,
        id: StreamId,
        ordered: bool,
        max_length: usize,
    ) -> Result<Option<(Chunk, bool)>, layer::ReadError> {
        if self.room.capacity() < LONGEST_CHUNK {
            self.room.reserve(ROOM);
        }
        self.due.set(None);
        let room = uninit(self.room.chunk_mut());
        let length = max_length.min(room.len());
        let mut stream = self.endpoint.recv_stream(layer_id(id));
        let Some((count, offset)) = stream.read_into_uninit(&mut room[..length], ordered)? else {
            return Ok(None);
        };
        // SAFETY: the read initialised as many bytes, from the first on.
        unsafe { self.room.advance_mut(count) };
        let bytes = self.room.split().freeze();
        Ok(Some((Chunk { offset, bytes }, true)))
    }
}

/// Memory that need not be initialised, as Rust's own type of it.
fn uninit(room: &mut UninitSlice) -> &mut [MaybeUninit<u8>] {
    // SAFETY: it is as many bytes, initialised or not, and the borrow goes on.
    unsafe { slice::from_raw_parts_mut(room.as_mut_ptr().cast(), room.len()) }
}
