//! Reading.

use thiserror::Error;

use super::{ShouldTransmit, StreamsState};
use crate::connection::assembler::Chunk;
use crate::{StreamId, VarInt};

/// The chunks of a stream, as they are read
pub struct Chunks<'a> {
    streams: &'a mut StreamsState,
    id: StreamId,
    ordered: bool,
    end: Option<Result<(), ReadError>>,
    finalized: bool,
}

impl<'a> Chunks<'a> {
    pub(super) fn new(
        streams: &'a mut StreamsState,
        id: StreamId,
        ordered: bool,
    ) -> Result<Self, ReadableError> {
        streams.begin_read(id, ordered)?;
        Ok(Self {
            streams,
            id,
            ordered,
            end: None,
            finalized: false,
        })
    }

    /// The next chunk, of at most `max_length` bytes, or `None` at the end of the stream
    ///
    /// Nothing is received while this lives, so the library is asked once for what follows the last chunk. Call `finalize`
    /// after the last chunk.
    pub fn next(&mut self, max_length: usize) -> Result<Option<Chunk>, ReadError> {
        assert!(!self.finalized, "next() after finalize()");
        if let Some(end) = &self.end {
            return end.clone().map(|()| None);
        }
        let end = match self.streams.read(self.id, self.ordered, max_length) {
            Ok(Some((chunk, has_more))) => {
                if !has_more {
                    self.end = Some(Err(ReadError::Blocked));
                }
                return Ok(Some(chunk));
            }
            Err(ReadError::Blocked) => return Err(ReadError::Blocked),
            Ok(None) => Ok(()),
            Err(error) => Err(error),
        };
        self.end = Some(end.clone());
        end.map(|()| None)
    }

    /// Ends the reading, and returns whether a packet should be sent: the library returned credit with each chunk
    pub fn finalize(mut self) -> ShouldTransmit {
        self.finalized = true;
        ShouldTransmit(self.streams.has_pending())
    }
}

impl Drop for Chunks<'_> {
    fn drop(&mut self) {
        debug_assert!(
            self.finalized || std::thread::panicking(),
            "finalize() must be called before the drop"
        );
    }
}

/// Why no data was read
#[derive(Clone, Debug, Error, Hash, PartialEq, Eq, PartialOrd, Ord)]
pub enum ReadError {
    /// No data is available; [`StreamEvent::Readable`](crate::StreamEvent::Readable) follows
    #[error("blocked")]
    Blocked,
    /// The peer reset the stream, with this code
    #[error("reset by peer: code {0}")]
    Reset(VarInt),
}

/// Why a stream cannot be read
#[derive(Clone, Debug, Error, Hash, PartialEq, Eq, PartialOrd, Ord)]
pub enum ReadableError {
    /// The stream was neither opened nor accepted, was stopped, or was read to its end or its reset
    #[error("unknown stream")]
    UnknownStream,
    /// The stream was read in the order of arrival before
    #[error("ordered read after unordered read")]
    IllegalOrderedRead,
}
