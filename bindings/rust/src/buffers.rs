use crate::errors::{unexpected, OutOfMemory, ReceiveError};
use crate::state::{emitted, received, StreamsState};
use crate::values::{Emit, Payload, Received};
use quic_streams_sys as sys;
use std::fmt;
use std::ops::{Deref, DerefMut};
use std::slice::{from_raw_parts, from_raw_parts_mut};

/// Memory of the library for one payload: [`StreamsState::emit_buffer`] writes into it, and
/// [`StreamsState::receive_buffer`] takes a payload out of it, both without a copy. In between its bytes are read and
/// written, for example to encrypt or decrypt a packet in place.
///
/// ```
/// # use quic_streams::{Buffer, Config, Dir, Emit, Limits, Received, Side, StreamsState};
/// # fn main() -> Result<(), Box<dyn std::error::Error>> {
/// # let config = Config::default();
/// # let mut client = StreamsState::new(Side::Client, &config)?;
/// # let mut server = StreamsState::new(Side::Server, &config)?;
/// # client.set_params(&Limits::of(&config))?;
/// # let id = client.open(Dir::Uni)?.unwrap();
/// # client.send_stream(id).write(b"hello")?;
/// let mut buffer = Buffer::new();
/// let payload = client.emit_buffer(&mut buffer, 1200, Emit::ALL)?.expect("data is pending");
/// assert_eq!(&buffer[..], b"\x0a\x02\x05hello");
/// assert_eq!(server.receive_buffer(&mut buffer, payload.len)?, Received::All);
///
/// buffer.reserve(1500)?; // for the next packet
/// buffer[0] = 0x40;
/// # Ok(())
/// # }
/// ```
///
/// Its bytes cannot be used while it changes:
///
/// ```compile_fail,E0502
/// # use quic_streams::Buffer;
/// fn kept(buffer: &mut Buffer) {
///     let bytes = &buffer[..];
///     buffer.reserve(1500).unwrap();
///     assert!(bytes.is_empty());
/// }
/// ```
///
/// Nor after it is gone:
///
/// ```compile_fail,E0515
/// # use quic_streams::Buffer;
/// fn kept(buffer: Buffer) -> &'static [u8] {
///     &buffer
/// }
/// ```
pub struct Buffer {
    raw: sys::qs_buffer,
}

// SAFETY: the memory behind it is its own, belongs to no session and to no thread, and the buffer may move (quic_streams.h).
unsafe impl Send for Buffer {}
// SAFETY: by `&Buffer` bytes are read alone; each call on it takes `&mut`.
unsafe impl Sync for Buffer {}

impl Buffer {
    /// One without bytes. Allocates nothing.
    #[must_use]
    pub const fn new() -> Self {
        Self {
            raw: sys::qs_buffer::ZERO,
        }
    }

    /// Makes it at least `size` bytes long, with zeros after its bytes.
    ///
    /// # Errors
    ///
    /// [`OutOfMemory`], and its bytes stay.
    pub fn reserve(&mut self, size: usize) -> Result<(), OutOfMemory> {
        // SAFETY: the buffer is borrowed for this call alone.
        match unsafe { sys::qs_buffer_reserve(&mut self.raw, size) } {
            sys::QS_OK => Ok(()),
            sys::QS_ERR_NOMEM => Err(OutOfMemory),
            result => unexpected(result),
        }
    }

    /// The buffer, opened: the calls on a session reject a closed one.
    fn open(&mut self) -> Result<*mut sys::qs_buffer, OutOfMemory> {
        if !self.is_open() {
            self.reserve(0)?;
        }
        Ok(&mut self.raw)
    }

    /// Whether the library shows its bytes. Those of a closed one are not looked at.
    fn is_open(&self) -> bool {
        self.raw.live == 1
    }
}

impl Default for Buffer {
    fn default() -> Self {
        Self::new()
    }
}

impl Drop for Buffer {
    fn drop(&mut self) {
        // SAFETY: the buffer is borrowed for this call alone, and nothing borrows its bytes any more.
        unsafe { sys::qs_buffer_free(&mut self.raw) }
    }
}

impl fmt::Debug for Buffer {
    fn fmt(&self, f: &mut fmt::Formatter<'_>) -> fmt::Result {
        f.debug_tuple("Buffer").field(&&self[..]).finish()
    }
}

impl Deref for Buffer {
    type Target = [u8];

    fn deref(&self) -> &[u8] {
        if !self.is_open() || self.raw.len == 0 {
            return &[];
        }
        // SAFETY: each call on an open buffer sets `data` and `len` to its bytes, which are initialised and its own.
        unsafe { from_raw_parts(self.raw.data, self.raw.len) }
    }
}

impl DerefMut for Buffer {
    fn deref_mut(&mut self) -> &mut [u8] {
        if !self.is_open() || self.raw.len == 0 {
            return &mut [];
        }
        // SAFETY: each call on an open buffer sets `data` and `len` to its bytes, which are initialised and its own, and it
        // is borrowed mutably.
        unsafe { from_raw_parts_mut(self.raw.data, self.raw.len) }
    }
}

/// Payloads in buffers.
impl StreamsState {
    /// Writes pending frames into a buffer, at most `max_size` bytes. The buffer has these alone then. `None`: no pending
    /// frame fits, and the buffer keeps its bytes.
    ///
    /// # Errors
    ///
    /// [`OutOfMemory`], and the buffer keeps its bytes.
    pub fn emit_buffer(
        &mut self,
        buffer: &mut Buffer,
        max_size: usize,
        what: Emit,
    ) -> Result<Option<Payload>, OutOfMemory> {
        let parts = match what.raw() {
            Some(parts) => parts,
            None => return Ok(None),
        };
        let mut payload = sys::qs_payload::ZERO;
        let (conn, fair, raw) = (self.handle(), u32::from(what.fair), buffer.open()?);
        // SAFETY: the handle is this session's, the buffer is borrowed for this call alone, and `payload` is a local of its
        // own.
        let result = unsafe { sys::qs_emit_buffer(conn, parts, fair, max_size, raw, &mut payload) };
        emitted(result, &payload)
    }

    /// Processes the payload of the peer that is the first `len` bytes of a buffer. If all frames are the library's, the
    /// buffer has other bytes afterwards, and may be shorter; else it keeps its bytes.
    ///
    /// # Errors
    ///
    /// As [`StreamsState::receive`], but with [`ReceiveError::OutOfMemory`] the payload may be gone: treat the packet as not
    /// received.
    ///
    /// # Panics
    ///
    /// If the buffer has fewer than `len` bytes.
    pub fn receive_buffer(
        &mut self,
        buffer: &mut Buffer,
        len: usize,
    ) -> Result<Received, ReceiveError> {
        self.receive_buffer_from(buffer, len, 0)
    }

    /// Processes a payload in a buffer from byte `at` on, behind a frame of the host. The buffer keeps its bytes, except if
    /// `at` is 0.
    ///
    /// # Errors
    ///
    /// As [`StreamsState::receive_buffer`].
    ///
    /// # Panics
    ///
    /// If the buffer has fewer than `len` bytes, or `at` is above `len`.
    pub fn receive_buffer_from(
        &mut self,
        buffer: &mut Buffer,
        len: usize,
        at: usize,
    ) -> Result<Received, ReceiveError> {
        assert!(len <= buffer.len(), "the payload is longer than its buffer");
        assert!(at <= len, "the payload ends before this byte");
        let (mut next, mut error) = (at, sys::qs_error::ZERO);
        let raw = buffer.open().map_err(|_| ReceiveError::OutOfMemory(at))?;
        // SAFETY: the handle is this session's, the buffer is borrowed for this call alone, and `next` and `error` are
        // locals of their own.
        let result =
            unsafe { sys::qs_receive_buffer(self.handle(), raw, len, &mut next, &mut error) };
        received(result, next, &error)
    }
}
