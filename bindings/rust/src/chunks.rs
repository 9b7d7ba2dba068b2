use crate::datagrams::initialized;
use crate::errors::ReadError;
use crate::recv::RecvStream;
use std::mem::MaybeUninit;

/// A chunk has at most this many bytes.
const ROOM: usize = 65_536;

/// Bytes of a stream, and their offset.
#[derive(Clone, Debug, PartialEq, Eq)]
#[non_exhaustive]
pub struct Chunk {
    /// The offset of the first byte.
    pub offset: u64,
    /// The bytes. Their capacity is their length.
    pub bytes: Vec<u8>,
}

/// The chunks of a stream. Each returns the credit of its bytes to the peer.
#[derive(Debug)]
pub struct Chunks<'a, 'b> {
    pub(crate) stream: &'a mut RecvStream<'b>,
    pub(crate) ordered: bool,
}

impl Chunks<'_, '_> {
    /// The next chunk, of at most `max_length` bytes, and of at most 65,536. `None` at the end of the stream. A `max_length`
    /// of 0 counts as 1.
    ///
    /// A chunk takes as much memory as it has bytes, whatever `max_length` is and the peer sends.
    ///
    /// # Errors
    ///
    /// [`ReadError`], and nothing is read.
    // The array is not initialised, so its size costs nothing but the stack.
    #[allow(clippy::should_implement_trait, clippy::large_stack_arrays)]
    pub fn next(&mut self, max_length: usize) -> Result<Option<Chunk>, ReadError> {
        let mut room = [MaybeUninit::uninit(); ROOM];
        let room = &mut room[..max_length.clamp(1, ROOM)];
        let read = self.stream.read_into_uninit(room, self.ordered)?;
        Ok(read.map(|(count, offset)| Chunk {
            offset,
            // SAFETY: the read initialised the first `count` bytes.
            bytes: unsafe { initialized(&room[..count]) }.to_vec(),
        }))
    }
}
