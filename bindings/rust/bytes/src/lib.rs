//! Chunks of [`Bytes`] for the streams of [`quic_streams`].

#![warn(missing_docs, clippy::pedantic)]
#![forbid(unsafe_code)]

use bytes::{Buf, Bytes};
use quic_streams::{Chunks, ReadError, SendStream, WriteError, Written};

/// Writes chunks of [`Bytes`].
pub trait SendBytes {
    /// Writes chunks one after the other, until one is not written to its end, and returns how much was written. What was
    /// written is cut from them.
    ///
    /// # Errors
    ///
    /// [`WriteError`] if nothing was written. An error after the first byte is left to the next call.
    fn write_bytes(&mut self, chunks: &mut [Bytes]) -> Result<Written, WriteError>;
}

impl SendBytes for SendStream<'_> {
    fn write_bytes(&mut self, chunks: &mut [Bytes]) -> Result<Written, WriteError> {
        let mut slices: Vec<&[u8]> = chunks.iter().map(AsRef::as_ref).collect();
        let written = self.write_chunks(&mut slices)?;
        let mut left = written.bytes;
        for chunk in chunks {
            let taken = left.min(chunk.len());
            chunk.advance(taken);
            left -= taken;
        }
        Ok(written)
    }
}

/// Reads chunks as [`Bytes`].
pub trait RecvBytes {
    /// The next chunk, of at most `max_length` bytes, and the offset of its first byte. `None` at the end of the stream.
    ///
    /// # Errors
    ///
    /// [`ReadError`], and nothing is read.
    fn next_bytes(&mut self, max_length: usize) -> Result<Option<(u64, Bytes)>, ReadError>;
}

impl RecvBytes for Chunks<'_, '_> {
    fn next_bytes(&mut self, max_length: usize) -> Result<Option<(u64, Bytes)>, ReadError> {
        let chunk = self.next(max_length)?;
        Ok(chunk.map(|chunk| (chunk.offset, Bytes::from(chunk.bytes))))
    }
}
