//! Writing.

use bytes::{Buf, Bytes};
use thiserror::Error;

use super::SendStream;
use crate::VarInt;

/// How much was written
#[derive(Debug, Default, PartialEq, Eq, Clone, Copy)]
pub struct Written {
    /// The number of chunks that were written completely
    pub chunks: usize,
    /// The number of bytes
    pub bytes: usize,
}

/// Why no data was written
#[derive(Clone, Debug, Error, Hash, PartialEq, Eq, PartialOrd, Ord)]
pub enum WriteError {
    /// A limit leaves no credit; [`StreamEvent::Writable`](crate::StreamEvent::Writable) follows
    #[error("unable to accept further writes")]
    Blocked,
    /// The peer asked to stop sending, with this code
    #[error("stopped by peer: code {0}")]
    Stopped(VarInt),
    /// The stream was neither opened nor accepted, or was finished or reset
    #[error("unknown stream")]
    UnknownStream,
}

/// Why a stream was not finished
#[derive(Debug, Error, Clone, PartialEq, Eq)]
pub enum FinishError {
    /// The peer asked to stop sending, with this code
    #[error("stopped by peer: code {0}")]
    Stopped(VarInt),
    /// The stream was neither opened nor accepted, or was finished or reset
    #[error("unknown stream")]
    UnknownStream,
}

/// Writes chunks one after another, until one is not written completely. An error after the first byte is returned by the
/// next call.
pub(super) fn write_chunks(
    stream: &mut SendStream<'_>,
    data: &mut [Bytes],
) -> Result<Written, WriteError> {
    let mut written = Written::default();
    for chunk in data {
        let taken = match stream.write(chunk) {
            Ok(taken) => taken,
            Err(error) if written == Written::default() => return Err(error),
            Err(_) => break,
        };
        chunk.advance(taken);
        written.bytes += taken;
        if !chunk.is_empty() {
            break;
        }
        written.chunks += 1;
    }
    Ok(written)
}
