use crate::chunks::Chunks;
use crate::errors::{unexpected, ReadError, StreamError};
use crate::id::StreamId;
use crate::send::{done, sent_code};
use crate::state::StreamsState;
use crate::varint::VarInt;
use quic_streams_sys as sys;
use std::fmt;
use std::marker::PhantomData;
use std::mem::MaybeUninit;
use std::slice::from_raw_parts;

/// Why nothing was read.
#[cold]
fn read_error(result: i32, code: u64) -> ReadError {
    match result {
        sys::QS_ERR_BLOCKED => ReadError::Blocked,
        sys::QS_ERR_RESET => ReadError::Reset(VarInt::returned(code)),
        sys::QS_ERR_ORDER => ReadError::IllegalOrderedRead,
        sys::QS_ERR_NO_STREAM => ReadError::ClosedStream,
        sys::QS_ERR_NOMEM => ReadError::OutOfMemory,
        result => unexpected(result),
    }
}

/// What follows the bytes that a read returned.
#[derive(Clone, Copy, Debug, PartialEq, Eq)]
pub enum Next {
    /// More may be available.
    More,
    /// Nothing more is available now; [`Event::Readable`](crate::Event::Readable) follows.
    Blocked,
    /// Nothing more follows, and the receive side is closed.
    Finished,
}

impl Next {
    /// What follows the bytes of a read of several frames.
    #[inline]
    fn of(result: i32, code: u64) -> Result<Self, ReadError> {
        match result {
            sys::QS_OK => Ok(Self::More),
            sys::QS_DONE => Ok(Self::Blocked),
            sys::QS_END => Ok(Self::Finished),
            result => Err(read_error(result, code)),
        }
    }
}

/// What [`RecvStream::read_many`] put into a buffer.
#[derive(Clone, Copy, Debug, PartialEq, Eq)]
#[non_exhaustive]
pub struct ReadMany {
    /// How many bytes; may be 0.
    pub count: usize,
    /// The offset of the first byte, if there are any.
    pub offset: u64,
    /// What follows them.
    pub next: Next,
}

/// A read lends at most this many segments.
const MOST_LENT: usize = 64;

/// What [`RecvStream::read_lent`] lent.
pub struct ReadLent<'a> {
    /// The first `count` are initialised, and show bytes that stay for `'a`.
    slices: [MaybeUninit<sys::qs_slice>; MOST_LENT],
    count: usize,
    /// The offset of the first byte, if there are any.
    pub offset: u64,
    /// What follows the bytes.
    pub next: Next,
    lent: PhantomData<&'a [u8]>,
}

impl<'a> ReadLent<'a> {
    /// The bytes, in the segments in which they were received; there may be none.
    pub fn pieces(&self) -> impl Iterator<Item = &'a [u8]> + '_ {
        self.slices[..self.count].iter().map(|slice| {
            // SAFETY: the library wrote the first `count` slices. Each shows `len` bytes at `memory + start`, which stay
            // until the next call on the handle, which cannot be made while `'a` lives.
            unsafe {
                let slice = slice.assume_init();
                from_raw_parts(slice.memory.add(slice.start), slice.len)
            }
        })
    }
}

impl fmt::Debug for ReadLent<'_> {
    fn fmt(&self, f: &mut fmt::Formatter<'_>) -> fmt::Result {
        f.debug_struct("ReadLent")
            .field("pieces", &self.pieces().collect::<Vec<_>>())
            .field("offset", &self.offset)
            .field("next", &self.next)
            .finish()
    }
}

/// The receive side of a stream.
#[derive(Debug)]
pub struct RecvStream<'a> {
    pub(crate) state: &'a mut StreamsState,
    pub(crate) id: StreamId,
}

impl<'a> RecvStream<'a> {
    /// The stream.
    #[must_use]
    pub fn id(&self) -> StreamId {
        self.id
    }

    /// Reads the next bytes in order into `out`, and returns how many, at least one. `None` at the end of the stream. More
    /// may be available, until this is [`ReadError::Blocked`].
    ///
    /// # Errors
    ///
    /// [`ReadError`], and nothing is read.
    ///
    /// # Panics
    ///
    /// If `out` is empty.
    pub fn read(&mut self, out: &mut [u8]) -> Result<Option<usize>, ReadError> {
        Ok(self.read_into(out, true)?.map(|(count, _)| count))
    }

    /// Reads the next bytes into `out`, in order or as they were received. Returns how many, at least one, and the offset of
    /// the first. `None` at the end of the stream. After an unordered read, an ordered one is
    /// [`ReadError::IllegalOrderedRead`].
    ///
    /// # Errors
    ///
    /// [`ReadError`], and nothing is read.
    ///
    /// # Panics
    ///
    /// If `out` is empty.
    pub fn read_into(
        &mut self,
        out: &mut [u8],
        ordered: bool,
    ) -> Result<Option<(usize, u64)>, ReadError> {
        self.read_into_uninit(as_uninit(out), ordered)
    }

    /// Reads as [`RecvStream::read_into`] does, into memory that need not be initialised. The first bytes of `out`, as many
    /// as it returns, are initialised then. The others stay as they were.
    ///
    /// ```
    /// # use quic_streams::{Config, Dir, Emit, Limits, Side, StreamsState};
    /// # fn main() -> Result<(), Box<dyn std::error::Error>> {
    /// # let config = Config::default();
    /// # let mut client = StreamsState::new(Side::Client, &config)?;
    /// # let mut server = StreamsState::new(Side::Server, &config)?;
    /// # client.set_params(&Limits::of(&config))?;
    /// # let id = client.open(Dir::Uni)?.unwrap();
    /// # client.send_stream(id).write(b"hello")?;
    /// # let mut packet = [0; 100];
    /// # let payload = client.emit(&mut packet, Emit::ALL)?.unwrap();
    /// # let _ = server.receive(&packet[..payload.len])?;
    /// # server.accept(Dir::Uni)?;
    /// let mut text = Vec::with_capacity(4096);
    /// let read = server.recv_stream(id).read_into_uninit(text.spare_capacity_mut(), true)?;
    /// let (count, _) = read.expect("the stream goes on");
    /// // SAFETY: the first `count` bytes are initialised.
    /// unsafe { text.set_len(count) };
    /// assert_eq!(text, b"hello");
    /// # Ok(())
    /// # }
    /// ```
    ///
    /// # Errors
    ///
    /// [`ReadError`], and nothing is read.
    ///
    /// # Panics
    ///
    /// If `out` is empty.
    #[inline]
    pub fn read_into_uninit(
        &mut self,
        out: &mut [MaybeUninit<u8>],
        ordered: bool,
    ) -> Result<Option<(usize, u64)>, ReadError> {
        assert!(!out.is_empty(), "a read needs room");
        let (mut count, mut offset, mut code) = (0, 0, 0);
        let (conn, id) = (self.state.handle(), self.id.into());
        let (at, cap) = (out.as_mut_ptr().cast(), out.len());
        let read = if ordered {
            sys::qs_stream_read
        } else {
            sys::qs_stream_read_unordered
        };
        // SAFETY: the handle is this session's, `at` points to `cap` bytes, which are only written, and `count`, `offset` and
        // `code` are locals of their own.
        match unsafe { read(conn, id, at, cap, &mut count, &mut offset, &mut code) } {
            sys::QS_OK => Ok(Some((count, offset))),
            sys::QS_END => Ok(None),
            result => Err(read_error(result, code)),
        }
    }

    /// Reads the next bytes in order into `out`, those of several frames in one call. Returns with them whether more may
    /// follow.
    ///
    /// ```
    /// # use quic_streams::{Config, Dir, Emit, Limits, Next, Side, StreamsState};
    /// # fn main() -> Result<(), Box<dyn std::error::Error>> {
    /// # let config = Config::default();
    /// # let mut client = StreamsState::new(Side::Client, &config)?;
    /// # let mut server = StreamsState::new(Side::Server, &config)?;
    /// # client.set_params(&Limits::of(&config))?;
    /// # let id = client.open(Dir::Uni)?.unwrap();
    /// # client.send_stream(id).write(b"hello")?;
    /// # client.send_stream(id).finish()?;
    /// # let mut packet = [0; 100];
    /// # let payload = client.emit(&mut packet, Emit::ALL)?.unwrap();
    /// # let _ = server.receive(&packet[..payload.len])?;
    /// # server.accept(Dir::Uni)?;
    /// let mut buffer = [0; 4096];
    /// let read = server.recv_stream(id).read_many(&mut buffer)?;
    /// assert_eq!(&buffer[..read.count], b"hello");
    /// assert_eq!((read.offset, read.next), (0, Next::Finished));
    /// # Ok(())
    /// # }
    /// ```
    ///
    /// # Errors
    ///
    /// [`ReadError`], but never [`ReadError::Blocked`], and nothing is read.
    ///
    /// # Panics
    ///
    /// If `out` is empty.
    pub fn read_many(&mut self, out: &mut [u8]) -> Result<ReadMany, ReadError> {
        self.read_many_uninit(as_uninit(out))
    }

    /// Reads as [`RecvStream::read_many`] does, into memory that need not be initialised. The first bytes of `out`, as many
    /// as it returns, are initialised then. The others stay as they were.
    ///
    /// # Errors
    ///
    /// As [`RecvStream::read_many`].
    ///
    /// # Panics
    ///
    /// If `out` is empty.
    #[inline]
    pub fn read_many_uninit(&mut self, out: &mut [MaybeUninit<u8>]) -> Result<ReadMany, ReadError> {
        assert!(!out.is_empty(), "a read needs room");
        let (mut count, mut offset, mut code) = (0, 0, 0);
        let (conn, id) = (self.state.handle(), self.id.into());
        let (at, cap) = (out.as_mut_ptr().cast(), out.len());
        // SAFETY: the handle is this session's, `at` points to `cap` bytes, which are only written, and `count`, `offset` and
        // `code` are locals of their own.
        let result = unsafe {
            sys::qs_stream_read_many(conn, id, at, cap, &mut count, &mut offset, &mut code)
        };
        Ok(ReadMany {
            next: Next::of(result, code)?,
            count,
            offset,
        })
    }

    /// Reads the next bytes in order, of up to 64 frames in one call, without a copy: they stay in memory of the library until
    /// the endpoint is used again.
    ///
    /// ```
    /// # use quic_streams::{Config, Dir, Emit, Limits, Next, Side, StreamsState};
    /// # fn main() -> Result<(), Box<dyn std::error::Error>> {
    /// # let config = Config::default();
    /// # let mut client = StreamsState::new(Side::Client, &config)?;
    /// # let mut server = StreamsState::new(Side::Server, &config)?;
    /// # client.set_params(&Limits::of(&config))?;
    /// # let id = client.open(Dir::Uni)?.unwrap();
    /// # client.send_stream(id).write(b"hello")?;
    /// # client.send_stream(id).finish()?;
    /// # let mut packet = [0; 100];
    /// # let payload = client.emit(&mut packet, Emit::ALL)?.unwrap();
    /// # let _ = server.receive(&packet[..payload.len])?;
    /// # server.accept(Dir::Uni)?;
    /// let mut stream = server.recv_stream(id);
    /// let read = stream.read_lent()?;
    /// assert_eq!(read.pieces().collect::<Vec<_>>(), [b"hello"]);
    /// assert_eq!((read.offset, read.next), (0, Next::Finished));
    /// # Ok(())
    /// # }
    /// ```
    ///
    /// The bytes cannot be used after the next call:
    ///
    /// ```compile_fail,E0499
    /// # use quic_streams::RecvStream;
    /// fn two_at_once(stream: &mut RecvStream<'_>) {
    ///     let first = stream.read_lent().unwrap();
    ///     let second = stream.read_lent().unwrap();
    ///     assert_eq!(first.pieces().count(), 0);
    /// }
    /// ```
    ///
    /// Nor do the pieces outlive the borrow, although they outlive the list of them:
    ///
    /// ```compile_fail,E0499
    /// # use quic_streams::RecvStream;
    /// fn kept(stream: &mut RecvStream<'_>) {
    ///     let piece = stream.read_lent().unwrap().pieces().next().unwrap();
    ///     stream.read_lent().unwrap();
    ///     assert!(!piece.is_empty());
    /// }
    /// ```
    ///
    /// Nor after the endpoint is gone:
    ///
    /// ```compile_fail,E0515
    /// # use quic_streams::{ReadLent, StreamId, StreamsState};
    /// fn kept(mut state: StreamsState, id: StreamId) -> ReadLent<'static> {
    ///     state.recv_stream(id).read_lent().unwrap()
    /// }
    /// ```
    ///
    /// # Errors
    ///
    /// As [`RecvStream::read_many`].
    pub fn read_lent(&mut self) -> Result<ReadLent<'_>, ReadError> {
        let mut slices = [MaybeUninit::<sys::qs_slice>::uninit(); MOST_LENT];
        let (mut count, mut offset, mut code) = (0, 0, 0);
        let (conn, id) = (self.state.handle(), self.id.into());
        let (at, max) = (slices.as_mut_ptr().cast(), slices.len());
        // SAFETY: the handle is this session's, `at` points to `max` slices, which are only written, and `count`,
        // `offset` and `code` are locals of their own.
        let result = unsafe {
            sys::qs_stream_read_lent(conn, id, at, max, &mut count, &mut offset, &mut code)
        };
        Ok(ReadLent {
            next: Next::of(result, code)?,
            slices,
            count,
            offset,
            lent: PhantomData,
        })
    }

    /// The chunks of the stream, in order or as they were received. After an unordered read, an ordered one is
    /// [`ReadError::IllegalOrderedRead`].
    ///
    /// ```
    /// # use quic_streams::{Config, Dir, Emit, Limits, ReadError, Side, StreamsState};
    /// # fn main() -> Result<(), Box<dyn std::error::Error>> {
    /// # let config = Config::default();
    /// # let mut client = StreamsState::new(Side::Client, &config)?;
    /// # let mut server = StreamsState::new(Side::Server, &config)?;
    /// # client.set_params(&Limits::of(&config))?;
    /// # let id = client.open(Dir::Uni)?.unwrap();
    /// # client.send_stream(id).write(b"hello")?;
    /// # let mut packet = [0; 100];
    /// # let payload = client.emit(&mut packet, Emit::ALL)?.unwrap();
    /// # let _ = server.receive(&packet[..payload.len])?;
    /// # server.accept(Dir::Uni)?;
    /// let mut stream = server.recv_stream(id);
    /// let mut chunks = stream.chunks(false);
    /// let chunk = chunks.next(3)?.expect("the stream goes on");
    /// assert_eq!((chunk.offset, chunk.bytes.as_slice()), (0, &b"hel"[..]));
    /// assert_eq!(chunks.next(usize::MAX)?.expect("the stream goes on").bytes, b"lo");
    /// assert_eq!(chunks.next(usize::MAX), Err(ReadError::Blocked));
    /// # Ok(())
    /// # }
    /// ```
    pub fn chunks(&mut self, ordered: bool) -> Chunks<'_, 'a> {
        Chunks {
            stream: self,
            ordered,
        }
    }

    /// Asks the peer to stop sending (STOP_SENDING), and drops unread data.
    ///
    /// # Errors
    ///
    /// [`StreamError`], and the stream is not stopped.
    pub fn stop(&mut self, error_code: VarInt) -> Result<(), StreamError> {
        let (conn, id, code) = (self.state.handle(), self.id.into(), error_code.into());
        // SAFETY: the handle is this session's.
        done(unsafe { sys::qs_stream_stop(conn, id, code) })
    }

    /// The code with which the peer reset the stream, if it did. Returning it closes the receive side.
    ///
    /// # Errors
    ///
    /// [`StreamError`].
    pub fn received_reset(&mut self) -> Result<Option<VarInt>, StreamError> {
        let mut code = 0;
        let (conn, id) = (self.state.handle(), self.id.into());
        // SAFETY: the handle is this session's, and `code` is a local of its own.
        let result = unsafe { sys::qs_stream_received_reset(conn, id, &mut code) };
        sent_code(result, code)
    }
}

/// Bytes as memory that need not be initialised, for a call that stores nothing but bytes.
fn as_uninit(bytes: &mut [u8]) -> &mut [MaybeUninit<u8>] {
    // SAFETY: `MaybeUninit<u8>` has the layout of `u8`, and only this module's reads get the slice, which write bytes alone.
    unsafe { &mut *(bytes as *mut [u8] as *mut [MaybeUninit<u8>]) }
}
