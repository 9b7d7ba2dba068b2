use crate::config::{Config, Limits};
use crate::errors::{unexpected, ConfigError, OutOfMemory, ReceiveError, SettleError, StreamError};
use crate::id::{Dir, Side, StreamId};
use crate::recv::RecvStream;
use crate::send::SendStream;
use crate::transport_error::TransportError;
use crate::values::{Due, Emit, Event, Info, Lent, Payload, Received, Stats, Token};
use crate::varint::VarInt;
use quic_streams_sys as sys;
use std::cell::UnsafeCell;
use std::fmt;
use std::ptr::null;
use std::slice::from_raw_parts;

/// One endpoint of a connection: its streams, its datagrams, and its payloads in flight.
///
/// It is `Send`, but not `Sync`: questions such as [`StreamsState::due`] take `&self`, and no two calls may run at once.
///
/// ```compile_fail,E0277
/// fn is_sync<T: Sync>() {}
/// is_sync::<quic_streams::StreamsState>();
/// ```
///
/// ```
/// fn is_send<T: Send>() {}
/// is_send::<quic_streams::StreamsState>();
/// ```
pub struct StreamsState {
    // The library writes to the handle also while it answers a question, which is asked through `&self`.
    conn: UnsafeCell<sys::qs_conn>,
}

// SAFETY: the session behind the handle has memory of its own alone, and nothing in it belongs to a thread. The handle may
// move (quic_streams.h). `UnsafeCell` keeps the type from being `Sync`.
unsafe impl Send for StreamsState {}

impl Drop for StreamsState {
    fn drop(&mut self) {
        // SAFETY: the handle is this session's, and nothing borrows from it any more.
        unsafe { sys::qs_conn_free(self.handle()) }
    }
}

impl fmt::Debug for StreamsState {
    fn fmt(&self, f: &mut fmt::Formatter<'_>) -> fmt::Result {
        f.debug_struct("StreamsState")
            .field("info", &self.info())
            .finish_non_exhaustive()
    }
}

/// The result of a call that returns nothing else.
fn must_be_done(result: i32) {
    if result != sys::QS_OK {
        unexpected(result);
    }
}

/// The result of a call whose only error is out of memory.
fn memory(result: i32) -> Result<(), OutOfMemory> {
    match result {
        sys::QS_OK => Ok(()),
        sys::QS_ERR_NOMEM => Err(OutOfMemory),
        result => unexpected(result),
    }
}

/// The result of a call that takes stream limits.
fn configured(result: i32) -> Result<(), ConfigError> {
    match result {
        sys::QS_OK => Ok(()),
        sys::QS_ERR_ARGUMENT => Err(ConfigError::OutOfRange),
        sys::QS_ERR_NOMEM => Err(ConfigError::OutOfMemory),
        result => unexpected(result),
    }
}

/// The result of a report.
#[inline]
fn reported(result: i32) -> Result<(), SettleError> {
    match result {
        sys::QS_OK => Ok(()),
        sys::QS_ERR_TOKEN => Err(SettleError::UnknownToken),
        sys::QS_ERR_NOMEM => Err(SettleError::OutOfMemory),
        result => unexpected(result),
    }
}

/// The result of a call that processes a payload.
pub(crate) fn received(
    result: i32,
    next: usize,
    error: &sys::qs_error,
) -> Result<Received, ReceiveError> {
    match result {
        sys::QS_OK => Ok(Received::All),
        sys::QS_OTHER_FRAME => Ok(Received::OtherFrame { at: next }),
        sys::QS_ERR_PROTOCOL | sys::QS_ERR_MALFORMED => {
            Err(ReceiveError::Transport(TransportError::of(error)))
        }
        sys::QS_ERR_NOMEM => Err(ReceiveError::OutOfMemory(next)),
        result => unexpected(result),
    }
}

/// The result of a call that writes a payload.
#[inline]
pub(crate) fn emitted(
    result: i32,
    payload: &sys::qs_payload,
) -> Result<Option<Payload>, OutOfMemory> {
    match result {
        sys::QS_OK => Ok(Some(Payload::of(payload))),
        sys::QS_DONE => Ok(None),
        sys::QS_ERR_NOMEM => Err(OutOfMemory),
        result => unexpected(result),
    }
}

/// The version of the library that is linked, as major, minor and patch version.
///
/// ```
/// let (major, minor, _) = quic_streams::version();
/// assert_eq!((major, minor), (0, 1));
/// ```
#[must_use]
pub fn version() -> (u32, u32, u32) {
    // SAFETY: the call has no arguments and reads a constant.
    let number = unsafe { sys::qs_version() };
    (number >> 16, number >> 8 & 0xff, number & 0xff)
}

/// The endpoint, its streams and its events.
impl StreamsState {
    /// Makes an endpoint with no open stream and nothing to send. Nothing can be sent until the peer's limits are set, by
    /// [`StreamsState::set_params`].
    ///
    /// # Errors
    ///
    /// [`ConfigError`] if a stream limit is above 2^60, or memory runs out.
    ///
    /// # Panics
    ///
    /// If the library is of another minor version than this crate ([`version`]): its structs may have other fields.
    pub fn new(side: Side, config: &Config) -> Result<Self, ConfigError> {
        let (major, minor, _) = version();
        assert!(
            (major, minor) == (sys::QS_VERSION_MAJOR, sys::QS_VERSION_MINOR),
            "libquic_streams is version {major}.{minor}, and not that of this crate"
        );
        let raw = config.raw(side.number());
        let made = Self {
            conn: UnsafeCell::new(sys::qs_conn::ZERO),
        };
        // SAFETY: the handle is closed and this session's, and `raw` is a local of its own.
        configured(unsafe { sys::qs_conn_open(made.handle(), &raw) })?;
        Ok(made)
    }

    /// The handle, for the one call that is made now. No reference to it exists: it is reached by pointers alone.
    #[inline]
    pub(crate) fn handle(&self) -> *mut sys::qs_conn {
        self.conn.get()
    }

    /// Sets the limits of the peer's transport parameters. For 0-RTT, call it first with the remembered limits. Each open
    /// stream of this endpoint gets its new limit, with an event if it was blocked.
    ///
    /// # Errors
    ///
    /// [`ConfigError::OutOfRange`] if a stream limit is above 2^60: close the connection with TRANSPORT_PARAMETER_ERROR (RFC
    /// 9000 section 18.2). [`ConfigError::OutOfMemory`], never if this endpoint opened no stream.
    pub fn set_params(&mut self, limits: &Limits) -> Result<(), ConfigError> {
        let raw = limits.raw();
        // SAFETY: the handle is this session's, and `raw` is a local of its own.
        configured(unsafe { sys::qs_set_peer_limits(self.handle(), &raw) })
    }

    /// Reports that the connection is closing: no stream is opened and nothing is written any more. Received data can be
    /// read.
    pub fn close(&mut self) {
        // SAFETY: the handle is this session's.
        must_be_done(unsafe { sys::qs_conn_close(self.handle()) });
    }

    /// Opens the next stream of a direction. `None`: the peer's stream limit is reached, or the connection is closing.
    ///
    /// # Errors
    ///
    /// [`OutOfMemory`], and no stream is opened.
    pub fn open(&mut self, dir: Dir) -> Result<Option<StreamId>, OutOfMemory> {
        let mut id = 0;
        // SAFETY: the handle is this session's, and `id` is a local of its own.
        match unsafe { sys::qs_stream_open(self.handle(), dir.number(), &mut id) } {
            sys::QS_OK => Ok(Some(StreamId::returned(id))),
            sys::QS_DONE => Ok(None),
            sys::QS_ERR_NOMEM => Err(OutOfMemory),
            result => unexpected(result),
        }
    }

    /// Accepts the next stream of a direction that the peer opened, in the order of their ids. `None`: none waits.
    ///
    /// # Errors
    ///
    /// [`OutOfMemory`], and the stream waits still. Only if streams are tracked ([`Config::track_streams`]).
    pub fn accept(&mut self, dir: Dir) -> Result<Option<StreamId>, OutOfMemory> {
        let mut id = 0;
        // SAFETY: the handle is this session's, and `id` is a local of its own.
        match unsafe { sys::qs_stream_accept(self.handle(), dir.number(), &mut id) } {
            sys::QS_OK => Ok(Some(StreamId::returned(id))),
            sys::QS_DONE => Ok(None),
            sys::QS_ERR_NOMEM => Err(OutOfMemory),
            result => unexpected(result),
        }
    }

    /// Sets a word of the host's own for a stream that was opened or accepted, for example the index of what the host keeps of
    /// it. [`Event::Closed`] has the word, and [`StreamsState::user`] returns it until then. The session keeps such words only
    /// if [`Config::track_streams`] is set.
    ///
    /// ```
    /// # use quic_streams::{Config, Dir, Emit, Event, Limits, Side, StreamsState};
    /// # fn main() -> Result<(), Box<dyn std::error::Error>> {
    /// let mut config = Config::default();
    /// config.track_streams = true;
    /// let mut client = StreamsState::new(Side::Client, &config)?;
    /// # client.set_params(&Limits::of(&config))?;
    /// let id = client.open(Dir::Uni)?.expect("a stream is allowed");
    /// client.set_user(id, 7)?; // the index of what this host keeps
    /// client.send_stream(id).finish()?;
    /// # let sent = client.emit(&mut [0; 100], Emit::ALL)?.unwrap();
    /// # client.acked(sent.token)?;
    /// // once the peer acknowledged all of it
    /// assert_eq!(client.poll(), Some(Event::Finished { id }));
    /// assert_eq!(client.poll(), Some(Event::Closed { id, user: 7 }));
    /// # Ok(())
    /// # }
    /// ```
    ///
    /// # Errors
    ///
    /// [`StreamError::ClosedStream`] if the stream was neither opened nor accepted, or raised [`Event::Closed`], or if streams
    /// are not tracked. [`StreamError::OutOfMemory`], and the word is as it was.
    pub fn set_user(&mut self, id: StreamId, user: u64) -> Result<(), StreamError> {
        // SAFETY: the handle is this session's.
        match unsafe { sys::qs_stream_set_user(self.handle(), id.into(), user) } {
            sys::QS_OK => Ok(()),
            sys::QS_ERR_NO_STREAM => Err(StreamError::ClosedStream),
            sys::QS_ERR_NOMEM => Err(StreamError::OutOfMemory),
            result => unexpected(result),
        }
    }

    /// The word of a stream, 0 at first. `None`: the stream was neither opened nor accepted, or raised [`Event::Closed`], or
    /// streams are not tracked.
    #[must_use]
    pub fn user(&self, id: StreamId) -> Option<u64> {
        let mut user = 0;
        // SAFETY: the handle is this session's, and `user` is a local of its own.
        match unsafe { sys::qs_stream_user(self.handle(), id.into(), &mut user) } {
            sys::QS_OK => Some(user),
            sys::QS_ERR_NO_STREAM => None,
            result => unexpected(result),
        }
    }

    /// The send side of a stream.
    #[inline]
    pub fn send_stream(&mut self, id: StreamId) -> SendStream<'_> {
        SendStream { state: self, id }
    }

    /// The receive side of a stream.
    #[inline]
    pub fn recv_stream(&mut self, id: StreamId) -> RecvStream<'_> {
        RecvStream { state: self, id }
    }

    /// Removes and returns the next event for the application, if there is one.
    #[inline]
    pub fn poll(&mut self) -> Option<Event> {
        let mut event = sys::qs_event::ZERO;
        // SAFETY: the handle is this session's, and `event` is a local of its own.
        match unsafe { sys::qs_poll(self.handle(), &mut event) } {
            sys::QS_OK => Some(Event::of(&event)),
            sys::QS_DONE => None,
            result => unexpected(result),
        }
    }

    /// The server rejected the 0-RTT data of a client (RFC 9001 section 4.6.2). Discards the client's streams with all sent
    /// and pending data, and all tokens of earlier payloads. Set the peer's limits next.
    pub fn zero_rtt_rejected(&mut self) {
        // SAFETY: the handle is this session's.
        must_be_done(unsafe { sys::qs_zero_rtt_rejected(self.handle()) });
    }

    /// Queues all data that was sent in 0-RTT again, as needed after a Retry (RFC 9000 section 17.2.5). Control frames are
    /// not covered: report the earlier payloads lost. Meant for a time at which nothing was acknowledged.
    ///
    /// # Errors
    ///
    /// [`OutOfMemory`].
    pub fn retransmit_all_for_0rtt(&mut self) -> Result<(), OutOfMemory> {
        // SAFETY: the handle is this session's.
        memory(unsafe { sys::qs_retransmit_all_for_0rtt(self.handle()) })
    }

    /// Sets how many written bytes are buffered at most until they are acknowledged.
    pub fn set_send_window(&mut self, window: u64) {
        // SAFETY: the handle is this session's.
        must_be_done(unsafe { sys::qs_set_send_window(self.handle(), window) });
    }

    /// Sets how many bytes of all streams may be received and not read. A smaller window takes back no advertised credit.
    pub fn set_receive_window(&mut self, window: VarInt) {
        // SAFETY: the handle is this session's.
        must_be_done(unsafe { sys::qs_set_receive_window(self.handle(), window.into()) });
    }

    /// Sets how many streams of a direction the peer may use at a time. A lower number takes back none that were allowed.
    ///
    /// # Errors
    ///
    /// [`OutOfMemory`].
    pub fn set_max_concurrent(&mut self, dir: Dir, count: VarInt) -> Result<(), OutOfMemory> {
        // SAFETY: the handle is this session's.
        memory(unsafe { sys::qs_set_max_concurrent(self.handle(), dir.number(), count.into()) })
    }

    /// The state of this endpoint.
    #[must_use]
    pub fn info(&self) -> Info {
        let mut info = sys::qs_info::ZERO;
        // SAFETY: the handle is this session's, and `info` is a local of its own.
        must_be_done(unsafe { sys::qs_get_info(self.handle(), &mut info) });
        Info::of(&info)
    }

    /// How many frames of each type this endpoint sent and received, and how many bytes of stream data were declared lost.
    #[must_use]
    pub fn stats(&self) -> Stats {
        let mut stats = sys::qs_stats::ZERO;
        // SAFETY: the handle is this session's, and `stats` is a local of its own.
        must_be_done(unsafe { sys::qs_get_stats(self.handle(), &mut stats) });
        Stats::of(&stats)
    }
}

/// Payloads.
impl StreamsState {
    /// Processes the frames of a payload of the peer: those of streams and datagrams. PADDING, PING and STREAMS_BLOCKED frames
    /// are skipped. In front of a frame of another type, such as ACK or CRYPTO, it stops: the host processes that frame, and
    /// goes on behind it with [`StreamsState::receive_from`].
    ///
    /// The host checks which frames its packet may have (RFC 9000 section 12.4), and rejects a payload without frames.
    ///
    /// ```
    /// # use quic_streams::{Config, Received, Side, StreamsState};
    /// # fn acknowledged(frame: &[u8]) -> usize { 5 }
    /// # fn main() -> Result<(), Box<dyn std::error::Error>> {
    /// # let mut server = StreamsState::new(Side::Server, &Config::default())?;
    /// let payload = b"\x02\x07\x00\x00\x00\x0a\x02\x05hello"; // an ACK and a STREAM frame
    /// let mut received = server.receive(payload)?;
    /// while let Received::OtherFrame { at } = received {
    ///     let len = acknowledged(&payload[at..]); // the length of the host's frame
    ///     received = server.receive_from(payload, at + len)?;
    /// }
    /// # Ok(())
    /// # }
    /// ```
    ///
    /// # Errors
    ///
    /// [`ReceiveError::Transport`] if the connection has to be closed. [`ReceiveError::OutOfMemory`] if memory runs out: go
    /// on with [`StreamsState::receive_from`], or treat the packet as not received.
    #[inline]
    pub fn receive(&mut self, payload: &[u8]) -> Result<Received, ReceiveError> {
        self.receive_from(payload, 0)
    }

    /// Processes a payload from byte `at` on: behind a frame of the host, or where an earlier call ran out of memory.
    ///
    /// # Errors
    ///
    /// As [`StreamsState::receive`].
    ///
    /// # Panics
    ///
    /// If `at` is above the length of the payload.
    #[inline]
    pub fn receive_from(&mut self, payload: &[u8], at: usize) -> Result<Received, ReceiveError> {
        assert!(at <= payload.len(), "the payload ends before this byte");
        let (mut next, mut error) = (at, sys::qs_error::ZERO);
        let (conn, bytes, len) = (self.handle(), payload.as_ptr(), payload.len());
        // SAFETY: the handle is this session's, `bytes` points to `len` bytes, and `next` and `error` are locals of their
        // own.
        let result = unsafe { sys::qs_receive(conn, bytes, len, &mut next, &mut error) };
        received(result, next, &error)
    }

    /// Writes pending frames into `out`. `None`: no pending frame fits. Each pending control and STREAM frame fits into 26
    /// bytes.
    ///
    /// # Errors
    ///
    /// [`OutOfMemory`], and nothing is written.
    #[inline]
    pub fn emit(&mut self, out: &mut [u8], what: Emit) -> Result<Option<Payload>, OutOfMemory> {
        let parts = match what.raw() {
            Some(parts) => parts,
            None => return Ok(None),
        };
        let mut payload = sys::qs_payload::ZERO;
        let (conn, fair) = (self.handle(), u32::from(what.fair));
        let (at, cap) = (out.as_mut_ptr(), out.len());
        // SAFETY: the handle is this session's, `at` points to `cap` bytes, and `payload` is a local of its own.
        let result = unsafe { sys::qs_emit(conn, parts, fair, at, cap, &mut payload) };
        emitted(result, &payload)
    }

    /// Writes pending frames into memory of the library, at most `max_size` bytes. This saves a copy if the host copies or
    /// encrypts the bytes to another place anyway. `None`: no pending frame fits.
    ///
    /// ```
    /// # use quic_streams::{Config, Dir, Emit, Limits, Side, StreamsState};
    /// # fn main() -> Result<(), Box<dyn std::error::Error>> {
    /// # let config = Config::default();
    /// # let mut client = StreamsState::new(Side::Client, &config)?;
    /// # client.set_params(&Limits::of(&config))?;
    /// # let id = client.open(Dir::Uni)?.unwrap();
    /// # client.send_stream(id).write(b"hello")?;
    /// let mut packet = vec![0x40]; // the header of a packet
    /// let payload = client.emit_lent(1200, Emit::ALL)?.expect("data is pending");
    /// packet.extend_from_slice(payload.bytes);
    /// let token = payload.token;
    /// # assert_eq!(&packet[4..], b"hello");
    /// # client.acked(token)?;
    /// # Ok(())
    /// # }
    /// ```
    ///
    /// The bytes cannot be used after the next call:
    ///
    /// ```compile_fail,E0499
    /// # use quic_streams::{Emit, StreamsState};
    /// fn two_at_once(state: &mut StreamsState) {
    ///     let first = state.emit_lent(1200, Emit::ALL).unwrap().unwrap();
    ///     state.poll();
    ///     assert!(!first.bytes.is_empty());
    /// }
    /// ```
    ///
    /// Nor after a question:
    ///
    /// ```compile_fail,E0502
    /// # use quic_streams::{Emit, StreamsState};
    /// fn asked(state: &mut StreamsState) {
    ///     let first = state.emit_lent(1200, Emit::ALL).unwrap().unwrap();
    ///     state.due();
    ///     assert!(!first.bytes.is_empty());
    /// }
    /// ```
    ///
    /// Nor after the endpoint is gone:
    ///
    /// ```compile_fail,E0515
    /// # use quic_streams::{Emit, StreamsState};
    /// fn kept(mut state: StreamsState) -> &'static [u8] {
    ///     state.emit_lent(1200, Emit::ALL).unwrap().unwrap().bytes
    /// }
    /// ```
    ///
    /// # Errors
    ///
    /// [`OutOfMemory`], and nothing is written.
    #[inline]
    pub fn emit_lent(
        &mut self,
        max_size: usize,
        what: Emit,
    ) -> Result<Option<Lent<'_>>, OutOfMemory> {
        let parts = match what.raw() {
            Some(parts) => parts,
            None => return Ok(None),
        };
        let (mut payload, mut data) = (sys::qs_payload::ZERO, null());
        let (conn, fair) = (self.handle(), u32::from(what.fair));
        // SAFETY: the handle is this session's, and `data` and `payload` are locals of their own.
        let result =
            unsafe { sys::qs_emit_lent(conn, parts, fair, max_size, &mut data, &mut payload) };
        Ok(emitted(result, &payload)?.map(|written| {
            // SAFETY: the library wrote `len` bytes at `data`. They stay until the next call on the handle, which cannot be
            // made while this borrow of `&mut self` lives.
            let bytes = unsafe { from_raw_parts(data, written.len) };
            Lent::new(bytes, written)
        }))
    }

    /// What is pending.
    ///
    /// ```
    /// # use quic_streams::{Config, Dir, Limits, Side, StreamsState};
    /// # fn main() -> Result<(), Box<dyn std::error::Error>> {
    /// # let config = Config::default();
    /// # let mut client = StreamsState::new(Side::Client, &config)?;
    /// # client.set_params(&Limits::of(&config))?;
    /// let id = client.open(Dir::Uni)?.expect("a stream is allowed");
    /// assert!(!client.due().streams);
    /// client.send_stream(id).write(b"hello")?;
    /// assert!(client.due().streams);
    /// # Ok(())
    /// # }
    /// ```
    #[inline]
    #[must_use]
    pub fn due(&self) -> Due {
        let mut due = sys::qs_due::ZERO;
        // SAFETY: the handle is this session's, and `due` is a local of its own.
        must_be_done(unsafe { sys::qs_get_due(self.handle(), &mut due) });
        Due::of(&due)
    }

    /// Reports that the packet of a payload was acknowledged.
    ///
    /// # Errors
    ///
    /// [`SettleError::UnknownToken`] if the payload was reported before: a late acknowledgement of a payload that was
    /// reported lost needs no call. [`SettleError::OutOfMemory`] if a part was reported: call again for the rest.
    #[inline]
    pub fn acked(&mut self, token: Token) -> Result<(), SettleError> {
        // SAFETY: the handle is this session's.
        reported(unsafe { sys::qs_acked(self.handle(), token.into_inner()) })
    }

    /// Reports that the packet of a payload is declared lost. A probe (RFC 9002 section 6.2.4) that is to carry the data of
    /// a payload again reports it lost first.
    ///
    /// # Errors
    ///
    /// As [`StreamsState::acked`].
    #[inline]
    pub fn lost(&mut self, token: Token) -> Result<(), SettleError> {
        // SAFETY: the handle is this session's.
        reported(unsafe { sys::qs_lost(self.handle(), token.into_inner()) })
    }
}
