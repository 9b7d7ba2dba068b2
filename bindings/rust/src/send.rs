use crate::errors::{unexpected, FinishError, StreamError, WriteError};
use crate::id::StreamId;
use crate::state::StreamsState;
use crate::varint::VarInt;
use quic_streams_sys as sys;

/// The result of a call on a stream that returns nothing else.
pub(crate) fn done(result: i32) -> Result<(), StreamError> {
    match result {
        sys::QS_OK => Ok(()),
        result => Err(stream_error(result)),
    }
}

/// The result of a question whether the peer sent a frame with an application error code.
pub(crate) fn sent_code(result: i32, code: u64) -> Result<Option<VarInt>, StreamError> {
    match result {
        sys::QS_OK => Ok(Some(VarInt::returned(code))),
        sys::QS_DONE => Ok(None),
        result => Err(stream_error(result)),
    }
}

fn stream_error(result: i32) -> StreamError {
    match result {
        sys::QS_ERR_NO_STREAM => StreamError::ClosedStream,
        sys::QS_ERR_NOMEM => StreamError::OutOfMemory,
        result => unexpected(result),
    }
}

/// How much [`SendStream::write_chunks`] and the calls that finish a stream wrote.
#[derive(Clone, Copy, Debug, Default, PartialEq, Eq)]
#[non_exhaustive]
pub struct Written {
    /// How many bytes.
    pub bytes: usize,
    /// How many chunks to their end.
    pub chunks: usize,
    /// Whether the stream was finished behind them.
    pub finished: bool,
}

impl Written {
    /// A call wrote this many bytes of a chunk. Whether it wrote all of them.
    #[must_use]
    pub fn add(&mut self, bytes: usize, of: usize) -> bool {
        self.bytes += bytes;
        self.chunks += usize::from(bytes == of);
        bytes == of
    }

    // The end alone.
    fn without_chunk(self) -> Self {
        Self { chunks: 0, ..self }
    }
}

/// The send side of a stream.
///
/// One side of one stream is used at a time:
///
/// ```compile_fail,E0499
/// # use quic_streams::{StreamId, StreamsState};
/// fn two_at_once(state: &mut StreamsState, id: StreamId) {
///     let mut first = state.send_stream(id);
///     let mut second = state.send_stream(id);
///     first.finish().unwrap();
/// }
/// ```
#[derive(Debug)]
pub struct SendStream<'a> {
    pub(crate) state: &'a mut StreamsState,
    pub(crate) id: StreamId,
}

impl SendStream<'_> {
    /// The stream.
    #[must_use]
    pub fn id(&self) -> StreamId {
        self.id
    }

    /// Writes data, and returns how many bytes: all, or as many as the peer's limits and the send window allow. After a
    /// partial write, write the rest: only [`WriteError::Blocked`] makes [`Event::Writable`](crate::Event::Writable) certain.
    ///
    /// A stream that the peer stopped is [`WriteError::Stopped`], never [`WriteError::Blocked`]. Reset it, so that the peer
    /// learns its final size.
    ///
    /// # Errors
    ///
    /// [`WriteError`], and nothing is written.
    #[inline]
    pub fn write(&mut self, data: &[u8]) -> Result<usize, WriteError> {
        let (mut written, mut code) = (0, 0);
        let (conn, id) = (self.state.handle(), self.id.into());
        let (at, len) = (data.as_ptr(), data.len());
        // SAFETY: the handle is this session's, `at` points to `len` bytes, and `written` and `code` are locals of their
        // own.
        match unsafe { sys::qs_stream_write(conn, id, at, len, &mut written, &mut code) } {
            sys::QS_OK => Ok(written),
            sys::QS_ERR_BLOCKED => Err(WriteError::Blocked),
            sys::QS_ERR_STOPPED => Err(WriteError::Stopped(VarInt::returned(code))),
            sys::QS_ERR_NO_STREAM => Err(WriteError::ClosedStream),
            sys::QS_ERR_NOMEM => Err(WriteError::OutOfMemory),
            result => unexpected(result),
        }
    }

    /// Writes chunks one after the other, until one is not written to its end, and returns how much was written. What was
    /// written is cut from them.
    ///
    /// ```
    /// # use quic_streams::{Config, Dir, Emit, Limits, Side, StreamsState};
    /// # fn main() -> Result<(), Box<dyn std::error::Error>> {
    /// # let config = Config::default();
    /// # let mut client = StreamsState::new(Side::Client, &config)?;
    /// # client.set_params(&Limits::of(&config))?;
    /// # client.set_send_window(7);
    /// # let id = client.open(Dir::Uni)?.unwrap();
    /// let mut chunks: [&[u8]; 2] = [b"hello", b"world"];
    /// let written = client.send_stream(id).write_chunks(&mut chunks)?; // the window has 7 bytes
    /// assert_eq!((written.bytes, written.chunks), (7, 1));
    /// assert_eq!(chunks, [&b""[..], b"rld"]);
    /// # Ok(())
    /// # }
    /// ```
    ///
    /// # Errors
    ///
    /// [`WriteError`] if nothing was written. An error after the first byte is left to the next call.
    pub fn write_chunks(&mut self, chunks: &mut [&[u8]]) -> Result<Written, WriteError> {
        let mut written = Written::default();
        for chunk in chunks {
            let taken = match self.write(chunk) {
                Ok(taken) => taken,
                Err(error) if written == Written::default() => return Err(error),
                Err(_) => break,
            };
            let is_whole = written.add(taken, chunk.len());
            *chunk = &chunk[taken..];
            if !is_whole {
                break;
            }
        }
        Ok(written)
    }

    /// Writes data as [`SendStream::write`] does, and finishes the stream in the same step if all of it is written: the last
    /// STREAM frame can have the FIN bit.
    ///
    /// If all is written and [`Written::finished`] is false, memory ran out between the two: call [`SendStream::finish`].
    /// Without data it is [`SendStream::finish`], which needs no credit.
    ///
    /// ```
    /// # use quic_streams::{Config, Dir, Emit, Limits, Side, StreamsState};
    /// # fn main() -> Result<(), Box<dyn std::error::Error>> {
    /// # let config = Config::default();
    /// # let mut client = StreamsState::new(Side::Client, &config)?;
    /// # client.set_params(&Limits::of(&config))?;
    /// # client.set_send_window(5);
    /// # let id = client.open(Dir::Uni)?.unwrap();
    /// let written = client.send_stream(id).write_fin(b"hello world")?; // the window has 5 bytes
    /// assert_eq!((written.bytes, written.finished), (5, false));
    /// # client.set_send_window(100);
    /// let written = client.send_stream(id).write_fin(b" world")?; // when the stream is writable again
    /// assert_eq!((written.bytes, written.finished), (6, true));
    /// # Ok(())
    /// # }
    /// ```
    ///
    /// # Errors
    ///
    /// [`WriteError`], and nothing is written.
    pub fn write_fin(&mut self, data: &[u8]) -> Result<Written, WriteError> {
        let (mut bytes, mut code) = (0, 0);
        let (conn, id) = (self.state.handle(), self.id.into());
        let (at, len) = (data.as_ptr(), data.len());
        // SAFETY: the handle is this session's, `at` points to `len` bytes, and `bytes` and `code` are locals of their own.
        let result =
            unsafe { sys::qs_stream_write_fin(conn, id, at, len, 1, &mut bytes, &mut code) };
        let (is_whole, is_done) = (bytes == len, result == sys::QS_OK);
        match result {
            sys::QS_OK => {}
            sys::QS_ERR_NOMEM if is_whole && len > 0 => {}
            sys::QS_ERR_BLOCKED => return Err(WriteError::Blocked),
            sys::QS_ERR_STOPPED => return Err(WriteError::Stopped(VarInt::returned(code))),
            sys::QS_ERR_NO_STREAM => return Err(WriteError::ClosedStream),
            sys::QS_ERR_NOMEM => return Err(WriteError::OutOfMemory),
            result => unexpected(result),
        }
        Ok(Written {
            bytes,
            chunks: usize::from(is_whole),
            finished: is_whole && is_done,
        })
    }

    /// Writes chunks as [`SendStream::write_chunks`] does, and finishes the stream with the last one if all of them are
    /// written. Without a chunk it is [`SendStream::finish`].
    ///
    /// # Errors
    ///
    /// [`WriteError`] if nothing was written and the stream is not finished. An error after the first byte is left to the
    /// next call.
    pub fn write_chunks_fin(&mut self, chunks: &mut [&[u8]]) -> Result<Written, WriteError> {
        let (last, before) = match chunks.split_last_mut() {
            Some(parts) => parts,
            None => return self.write_fin(b"").map(Written::without_chunk),
        };
        let mut written = self.write_chunks(before)?;
        if written.chunks < before.len() {
            return Ok(written);
        }
        let end = match self.write_fin(last) {
            Ok(end) => end,
            Err(error) if written == Written::default() => return Err(error),
            Err(_) => return Ok(written),
        };
        *last = &last[end.bytes..];
        written.bytes += end.bytes;
        written.chunks += end.chunks;
        written.finished = end.finished;
        Ok(written)
    }

    /// How many bytes one [`SendStream::write`] would take now, as [`StreamsState::send_room`].
    ///
    /// # Errors
    ///
    /// [`StreamError::ClosedStream`].
    pub fn send_room(&self) -> Result<u64, StreamError> {
        self.state.send_room(self.id)
    }

    /// Finishes the stream: no data follows, and FIN is sent.
    ///
    /// # Errors
    ///
    /// [`FinishError`], and the stream is not finished.
    pub fn finish(&mut self) -> Result<(), FinishError> {
        let mut code = 0;
        // SAFETY: the handle is this session's, and `code` is a local of its own.
        match unsafe { sys::qs_stream_finish(self.state.handle(), self.id.into(), &mut code) } {
            sys::QS_OK => Ok(()),
            sys::QS_ERR_STOPPED => Err(FinishError::Stopped(VarInt::returned(code))),
            sys::QS_ERR_NO_STREAM => Err(FinishError::ClosedStream),
            sys::QS_ERR_NOMEM => Err(FinishError::OutOfMemory),
            result => unexpected(result),
        }
    }

    /// Resets the stream: unacknowledged data is dropped, and RESET_STREAM is sent.
    ///
    /// # Errors
    ///
    /// [`StreamError`], and the stream is not reset.
    pub fn reset(&mut self, error_code: VarInt) -> Result<(), StreamError> {
        let (conn, id, code) = (self.state.handle(), self.id.into(), error_code.into());
        // SAFETY: the handle is this session's.
        done(unsafe { sys::qs_stream_reset(conn, id, code) })
    }

    /// The code of the peer's STOP_SENDING, if it sent one.
    ///
    /// # Errors
    ///
    /// [`StreamError::ClosedStream`].
    pub fn stopped(&self) -> Result<Option<VarInt>, StreamError> {
        self.state.stopped(self.id)
    }

    /// Sets the priority of the stream: streams of a higher number are sent first. A new stream has priority 0.
    ///
    /// # Errors
    ///
    /// [`StreamError`], and the priority stays.
    pub fn set_priority(&mut self, priority: i32) -> Result<(), StreamError> {
        let (conn, id) = (self.state.handle(), self.id.into());
        // SAFETY: the handle is this session's.
        done(unsafe { sys::qs_stream_set_priority(conn, id, priority) })
    }

    /// The priority that was set last.
    ///
    /// # Errors
    ///
    /// [`StreamError::ClosedStream`].
    pub fn priority(&self) -> Result<i32, StreamError> {
        self.state.priority(self.id)
    }
}

/// Questions about the send side of a stream, which need no `&mut`.
impl StreamsState {
    /// How many bytes one [`SendStream::write`] would take now: the least of what the peer's limit for the stream, its limit
    /// for all streams and the send window allow. 0 if it would be [`WriteError::Blocked`] or [`WriteError::Stopped`]. Nothing
    /// is noted as blocked, so no event follows: write to get [`Event::Writable`](crate::Event::Writable).
    ///
    /// ```
    /// # use quic_streams::{Config, Dir, Limits, Side, StreamsState};
    /// # fn main() -> Result<(), Box<dyn std::error::Error>> {
    /// # let config = Config::default();
    /// # let mut client = StreamsState::new(Side::Client, &config)?;
    /// # client.set_params(&Limits::of(&config))?;
    /// client.set_send_window(7);
    /// let id = client.open(Dir::Uni)?.expect("a stream is allowed");
    /// assert_eq!(client.send_room(id)?, 7);
    /// assert_eq!(client.send_stream(id).write(b"hello world")?, 7);
    /// assert_eq!(client.send_room(id)?, 0);
    /// # Ok(())
    /// # }
    /// ```
    ///
    /// # Errors
    ///
    /// [`StreamError::ClosedStream`], where a write would be [`WriteError::ClosedStream`].
    pub fn send_room(&self, id: StreamId) -> Result<u64, StreamError> {
        let mut bytes = 0;
        // SAFETY: the handle is this session's, and `bytes` is a local of its own.
        done(unsafe { sys::qs_stream_send_room(self.handle(), id.into(), &mut bytes) })?;
        Ok(bytes)
    }

    /// The code of the peer's STOP_SENDING for a stream, if it sent one.
    ///
    /// # Errors
    ///
    /// [`StreamError::ClosedStream`].
    pub fn stopped(&self, id: StreamId) -> Result<Option<VarInt>, StreamError> {
        let mut code = 0;
        // SAFETY: the handle is this session's, and `code` is a local of its own.
        let result = unsafe { sys::qs_stream_stopped(self.handle(), id.into(), &mut code) };
        sent_code(result, code)
    }

    /// The priority of a stream that was set last.
    ///
    /// # Errors
    ///
    /// [`StreamError::ClosedStream`].
    pub fn priority(&self, id: StreamId) -> Result<i32, StreamError> {
        let mut priority = 0;
        // SAFETY: the handle is this session's, and `priority` is a local of its own.
        done(unsafe { sys::qs_stream_priority(self.handle(), id.into(), &mut priority) })?;
        Ok(priority)
    }
}
