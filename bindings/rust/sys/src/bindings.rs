// Made from include/quic_streams.h by generate.py.

use std::ffi::c_void;
use std::mem::{align_of, size_of};
use std::ptr::{null, null_mut};

/// The version of this header. Before 1.0 a new minor version may change the
/// interface, a new patch version does not.
pub const QS_VERSION_MAJOR: u32 = 0;
/// The version of this header. Before 1.0 a new minor version may change the
/// interface, a new patch version does not.
pub const QS_VERSION_MINOR: u32 = 1;
/// The version of this header. Before 1.0 a new minor version may change the
/// interface, a new patch version does not.
pub const QS_VERSION_PATCH: u32 = 0;
/// No number: datagrams are off.
pub const QS_NONE: u64 = u64::MAX;
/// The least cap with which each pending control frame and STREAM frame can be
/// written. A pending datagram needs its length and its frame's header, and at
/// least 10 bytes. With less, `qs_emit` may return `QS_DONE` although `qs_get_due`
/// reports pending frames.
pub const QS_MIN_ROOM: usize = 26;
/// the call did what it says
pub const QS_OK: i32 = 0;
/// nothing is available now
pub const QS_DONE: i32 = 1;
/// the stream was read to its end
pub const QS_END: i32 = 2;
/// the next frame of a payload is the host's
pub const QS_OTHER_FRAME: i32 = 3;
/// the handle or the buffer is closed
pub const QS_ERR_CLOSED: i32 = -1;
/// out of memory; the call may be repeated
pub const QS_ERR_NOMEM: i32 = -2;
/// a number is above its bound
pub const QS_ERR_ARGUMENT: i32 = -3;
/// the handle is open
pub const QS_ERR_IN_USE: i32 = -4;
/// this side of the stream is not open
pub const QS_ERR_NO_STREAM: i32 = -5;
/// nothing can be written, read or queued now
pub const QS_ERR_BLOCKED: i32 = -6;
/// the peer sent STOP_SENDING
pub const QS_ERR_STOPPED: i32 = -7;
/// the peer sent RESET_STREAM
pub const QS_ERR_RESET: i32 = -8;
/// ordered read after an unordered read
pub const QS_ERR_ORDER: i32 = -9;
/// the peer violated the protocol
pub const QS_ERR_PROTOCOL: i32 = -10;
/// the payload is not a sequence of frames
pub const QS_ERR_MALFORMED: i32 = -11;
/// no unreported payload has this token
pub const QS_ERR_TOKEN: i32 = -12;
/// this endpoint or the peer takes none
pub const QS_ERR_DATAGRAMS_OFF: i32 = -13;
/// the datagram is too long
pub const QS_ERR_TOO_LARGE: i32 = -14;
/// the buffer is too small
pub const QS_ERR_TOO_SMALL: i32 = -15;
/// `QS_CLIENT` of the header.
pub const QS_CLIENT: u32 = 0;
/// `QS_SERVER` of the header.
pub const QS_SERVER: u32 = 1;
/// `QS_BIDI` of the header.
pub const QS_BIDI: u32 = 0;
/// `QS_UNI` of the header.
pub const QS_UNI: u32 = 1;
/// the peer opened streams of dir: accept, read
pub const QS_EVENT_OPENED: u32 = 1;
/// id may have bytes, FIN or a reset to read
pub const QS_EVENT_READABLE: u32 = 2;
/// id was blocked and may accept bytes now
pub const QS_EVENT_WRITABLE: u32 = 3;
/// all data of id and its FIN are acknowledged
pub const QS_EVENT_FINISHED: u32 = 4;
/// STOP_SENDING, app_code, for id: reset it
pub const QS_EVENT_STOPPED: u32 = 5;
/// more streams of dir may be opened
pub const QS_EVENT_AVAILABLE: u32 = 6;
/// a datagram can be read, and none could before
pub const QS_EVENT_DATAGRAM: u32 = 7;
/// a blocked datagram may be queued now
pub const QS_EVENT_DATAGRAM_ROOM: u32 = 8;
/// both sides of id are gone: free what belongs to it. Only if track_streams is 1
pub const QS_EVENT_CLOSED: u32 = 9;
/// RESET_STREAM, STOP_SENDING, MAX_*, *_BLOCKED
pub const QS_CONTROL: u32 = 1;
/// DATAGRAM
pub const QS_DATAGRAMS: u32 = 2;
/// STREAM
pub const QS_STREAMS: u32 = 4;
/// all of them
pub const QS_ALL: u32 = 7;

/// A handle of a session, which is one endpoint of a connection. The host
/// allocates the handle. All zero bytes are a closed handle. It may be moved
/// (memcpy to a new place, no further use of the old one) but never copied: two
/// handles of one session free its memory twice.
#[derive(Debug)]
#[repr(C)]
pub struct qs_conn {
    pub live: u64,
    pub at: *mut c_void,
}

impl qs_conn {
    /// All zero bytes.
    pub const ZERO: Self = Self {
        live: 0,
        at: null_mut(),
    };
}

const _: () = assert!(size_of::<qs_conn>() == 16 && align_of::<qs_conn>() == 8);

/// The configuration of a session.
///
/// The host advertises the same numbers in its transport parameters (RFC 9000
/// section 18.2, RFC 9221 section 3): max_remote_uni as initial_max_streams_uni,
/// max_remote_bidi as initial_max_streams_bidi, receive_window as
/// initial_max_data, stream_window as each initial_max_stream_data_*, and
/// datagram_receive in max_datagram_frame_size.
///
/// A datagram counts its length and 32 bytes against datagram_receive: a longer
/// one than datagram_receive - 32 is a PROTOCOL_VIOLATION of the peer, so
/// advertise a max_datagram_frame_size of at most datagram_receive - 32 plus
/// the header of the frame. If received datagrams exceed datagram_receive, the
/// oldest are dropped, without an event or a count.
///
/// Keep stream_window at or below `QS_WINDOW_FOR`(packet, percent).
#[derive(Clone, Copy, Debug)]
#[repr(C)]
pub struct qs_config {
    pub side: u64,
    pub max_remote_uni: u64,
    pub max_remote_bidi: u64,
    pub send_window: u64,
    pub receive_window: u64,
    pub stream_window: u64,
    pub datagram_receive: u64,
    pub datagram_send: u64,
    pub track_streams: u64,
}

impl qs_config {
    /// All zero bytes.
    pub const ZERO: Self = Self {
        side: 0,
        max_remote_uni: 0,
        max_remote_bidi: 0,
        send_window: 0,
        receive_window: 0,
        stream_window: 0,
        datagram_receive: 0,
        datagram_send: 0,
        track_streams: 0,
    };
}

const _: () = assert!(size_of::<qs_config>() == 72 && align_of::<qs_config>() == 8);

/// The limits in the peer's transport parameters (RFC 9000 section 18.2), by
/// their names there, each below 2^62, and a limit of datagrams, which is any
/// number. An absent parameter is 0; max_datagram is `QS_NONE` if the peer's
/// max_datagram_frame_size is absent or 0 (RFC 9221 section 3).
#[derive(Clone, Copy, Debug)]
#[repr(C)]
pub struct qs_peer_limits {
    pub initial_max_data: u64,
    pub initial_max_streams_bidi: u64,
    pub initial_max_streams_uni: u64,
    pub initial_max_stream_data_uni: u64,
    pub initial_max_stream_data_bidi_local: u64,
    pub initial_max_stream_data_bidi_remote: u64,
    pub max_datagram: u64,
}

impl qs_peer_limits {
    /// All zero bytes.
    pub const ZERO: Self = Self {
        initial_max_data: 0,
        initial_max_streams_bidi: 0,
        initial_max_streams_uni: 0,
        initial_max_stream_data_uni: 0,
        initial_max_stream_data_bidi_local: 0,
        initial_max_stream_data_bidi_remote: 0,
        max_datagram: 0,
    };
}

const _: () = assert!(size_of::<qs_peer_limits>() == 56 && align_of::<qs_peer_limits>() == 8);

/// Lent bytes: the len bytes at memory + start.
#[derive(Clone, Copy, Debug)]
#[repr(C)]
pub struct qs_slice {
    pub memory: *const u8,
    pub start: usize,
    pub len: usize,
}

impl qs_slice {
    /// All zero bytes.
    pub const ZERO: Self = Self {
        memory: null(),
        start: 0,
        len: 0,
    };
}

const _: () = assert!(size_of::<qs_slice>() == 24 && align_of::<qs_slice>() == 8);

/// An event. Look at kind first: a field that the kind does not have is 0, and
/// 0 is a stream id, a direction and an error code too.
#[derive(Clone, Copy, Debug)]
#[repr(C)]
pub struct qs_event {
    pub kind: u64,
    pub dir: u64,
    pub id: u64,
    pub app_code: u64,
    pub user: u64,
}

impl qs_event {
    /// All zero bytes.
    pub const ZERO: Self = Self {
        kind: 0,
        dir: 0,
        id: 0,
        app_code: 0,
        user: 0,
    };
}

const _: () = assert!(size_of::<qs_event>() == 40 && align_of::<qs_event>() == 8);

/// The state of a session.
#[derive(Clone, Copy, Debug)]
#[repr(C)]
pub struct qs_info {
    pub max_concurrent_bidi: u64,
    pub max_concurrent_uni: u64,
    pub max_remote_bidi: u64,
    pub max_remote_uni: u64,
    pub next_remote_bidi: u64,
    pub next_remote_uni: u64,
    pub remote_open_bidi: u64,
    pub remote_open_uni: u64,
    pub local_max_data: u64,
    pub data_received: u64,
    pub write_limit: u64,
    pub send_streams: u64,
    pub payloads: u64,
    pub can_send_stream_data: u64,
    pub has_pending: u64,
}

impl qs_info {
    /// All zero bytes.
    pub const ZERO: Self = Self {
        max_concurrent_bidi: 0,
        max_concurrent_uni: 0,
        max_remote_bidi: 0,
        max_remote_uni: 0,
        next_remote_bidi: 0,
        next_remote_uni: 0,
        remote_open_bidi: 0,
        remote_open_uni: 0,
        local_max_data: 0,
        data_received: 0,
        write_limit: 0,
        send_streams: 0,
        payloads: 0,
        can_send_stream_data: 0,
        has_pending: 0,
    };
}

const _: () = assert!(size_of::<qs_info>() == 120 && align_of::<qs_info>() == 8);

/// How many frames a session sent and received, from its start, and how many
/// bytes were declared lost. A frame that is sent again after a loss counts
/// again. A received frame counts when it is processed, also if it is rejected;
/// one that is processed again after `QS_ERR_NOMEM` counts again. Each number
/// stops at 2^64-1.
#[derive(Clone, Copy, Debug)]
#[repr(C)]
pub struct qs_stats {
    pub sent_stream: u64,
    pub sent_reset_stream: u64,
    pub sent_stop_sending: u64,
    pub sent_max_data: u64,
    pub sent_max_stream_data: u64,
    pub sent_max_streams_bidi: u64,
    pub sent_max_streams_uni: u64,
    pub sent_data_blocked: u64,
    pub sent_stream_data_blocked: u64,
    pub sent_datagram: u64,
    pub received_stream: u64,
    pub received_reset_stream: u64,
    pub received_stop_sending: u64,
    pub received_max_data: u64,
    pub received_max_stream_data: u64,
    pub received_max_streams_bidi: u64,
    pub received_max_streams_uni: u64,
    pub received_data_blocked: u64,
    pub received_stream_data_blocked: u64,
    pub received_datagram: u64,
    pub lost_bytes: u64,
}

impl qs_stats {
    /// All zero bytes.
    pub const ZERO: Self = Self {
        sent_stream: 0,
        sent_reset_stream: 0,
        sent_stop_sending: 0,
        sent_max_data: 0,
        sent_max_stream_data: 0,
        sent_max_streams_bidi: 0,
        sent_max_streams_uni: 0,
        sent_data_blocked: 0,
        sent_stream_data_blocked: 0,
        sent_datagram: 0,
        received_stream: 0,
        received_reset_stream: 0,
        received_stop_sending: 0,
        received_max_data: 0,
        received_max_stream_data: 0,
        received_max_streams_bidi: 0,
        received_max_streams_uni: 0,
        received_data_blocked: 0,
        received_stream_data_blocked: 0,
        received_datagram: 0,
        lost_bytes: 0,
    };
}

const _: () = assert!(size_of::<qs_stats>() == 168 && align_of::<qs_stats>() == 8);

/// Memory for one payload, for a host that copies none: `qs_emit_buffer` writes
/// into it, `qs_receive_buffer` takes a payload out of it. In between the host
/// reads and writes the len bytes at data, for example to encrypt or decrypt a
/// packet in place. All zero bytes are a closed buffer. Like a handle it may be
/// moved, but never copied. A buffer belongs to no session. The library sets
/// data and len and never reads them: after each call they show the bytes of an
/// open buffer, and are NULL and 0 for a closed one. A call on a closed handle
/// leaves the buffer as it is.
#[derive(Debug)]
#[repr(C)]
pub struct qs_buffer {
    pub live: u64,
    pub at: *mut c_void,
    pub data: *mut u8,
    pub len: usize,
}

impl qs_buffer {
    /// All zero bytes.
    pub const ZERO: Self = Self {
        live: 0,
        at: null_mut(),
        data: null_mut(),
        len: 0,
    };
}

const _: () = assert!(size_of::<qs_buffer>() == 32 && align_of::<qs_buffer>() == 8);

/// Why the connection has to be closed.
#[derive(Clone, Copy, Debug)]
#[repr(C)]
pub struct qs_error {
    pub code: u64,
    pub reason_len: u64,
    pub reason: [u8; 80],
}

impl qs_error {
    /// All zero bytes.
    pub const ZERO: Self = Self {
        code: 0,
        reason_len: 0,
        reason: [0; 80],
    };
}

const _: () = assert!(size_of::<qs_error>() == 96 && align_of::<qs_error>() == 8);

/// A payload that was written.
#[derive(Clone, Copy, Debug)]
#[repr(C)]
pub struct qs_payload {
    pub len: u64,
    pub token: u64,
    pub ends: u64,
}

impl qs_payload {
    /// All zero bytes.
    pub const ZERO: Self = Self {
        len: 0,
        token: 0,
        ends: 0,
    };
}

const _: () = assert!(size_of::<qs_payload>() == 24 && align_of::<qs_payload>() == 8);

/// What is pending, each 0 or 1.
#[derive(Clone, Copy, Debug)]
#[repr(C)]
pub struct qs_due {
    pub control: u64,
    pub datagrams: u64,
    pub streams: u64,
}

impl qs_due {
    /// All zero bytes.
    pub const ZERO: Self = Self {
        control: 0,
        datagrams: 0,
        streams: 0,
    };
}

const _: () = assert!(size_of::<qs_due>() == 24 && align_of::<qs_due>() == 8);

extern "C" {
    /// The version of the library that runs, as `QS_VERSION_NUM` is that of this
    /// header. If major or minor version differ, use another library.
    pub fn qs_version() -> u32;
    /// What `qs_conn_open` calls.
    pub fn qs_conn_open_words(conn: *mut qs_conn, words: *const u64, count: usize) -> i32;
    /// Frees the session with all its memory, and closes the handle. A closed
    /// handle stays closed.
    pub fn qs_conn_free(conn: *mut qs_conn);
    /// Reports that the connection is closing (RFC 9000 section 10): call it when
    /// CONNECTION_CLOSE was sent or received, also after `QS_ERR_PROTOCOL` and
    /// `QS_ERR_MALFORMED`. From then on `qs_stream_open` returns `QS_DONE` and
    /// `qs_stream_write` returns `QS_ERR_BLOCKED`, or `QS_ERR_STOPPED`; neither raises an
    /// event later. All other calls work as before: received data can be read,
    /// events polled and payloads reported. Emit no payload and pass in no frame any
    /// more (section 10.2); the library does not refuse them.
    ///
    /// - `QS_OK`: the session is closing
    pub fn qs_conn_close(conn: *mut qs_conn) -> i32;
    /// What `qs_set_peer_limits` calls.
    pub fn qs_set_peer_limits_words(conn: *mut qs_conn, words: *const u64, count: usize) -> i32;
    /// The server rejected the 0-RTT data of a client (RFC 9001 section 4.6.2).
    /// Discards the client's streams with all sent and pending data, and all tokens
    /// of earlier payloads. Set the peer's limits next.
    ///
    /// - `QS_OK`: done
    pub fn qs_zero_rtt_rejected(conn: *mut qs_conn) -> i32;
    /// Queues all data that was sent in 0-RTT again, as needed after a Retry (RFC
    /// 9000 section 17.2.5). Control frames are not covered: report the earlier
    /// payloads lost, by their tokens. Meant for a time at which nothing was
    /// acknowledged.
    ///
    /// - `QS_OK`: done
    /// - `QS_ERR_NOMEM`: out of memory
    pub fn qs_retransmit_all_for_0rtt(conn: *mut qs_conn) -> i32;
    /// Opens the next stream of a direction.
    ///
    /// - dir: `QS_BIDI` or `QS_UNI`
    /// - id: the stream, written with `QS_OK` only
    /// - `QS_OK`: the stream is open
    /// - `QS_DONE`: the peer's stream limit is reached, and `QS_EVENT_AVAILABLE`
    ///   follows when it rises; or the connection is closing
    /// - `QS_ERR_NOMEM`: out of memory
    pub fn qs_stream_open(conn: *mut qs_conn, dir: u32, id: *mut u64) -> i32;
    /// Accepts the next stream of a direction that the peer opened, in the order
    /// of their ids.
    ///
    /// - dir: `QS_BIDI` or `QS_UNI`
    /// - id: the stream, written with `QS_OK` only
    /// - `QS_OK`: the stream is accepted
    /// - `QS_DONE`: no stream waits to be accepted
    /// - `QS_ERR_NOMEM`: out of memory; the stream waits still. Only if
    ///   track_streams is 1
    pub fn qs_stream_accept(conn: *mut qs_conn, dir: u32, id: *mut u64) -> i32;
    /// Sets a number of the host's own for a stream, for example the address of
    /// what the host keeps of it. Each later event of the stream has it. The session
    /// keeps such numbers only if track_streams is 1.
    ///
    /// - id: a stream that was opened or accepted and did not raise
    ///   `QS_EVENT_CLOSED`
    /// - user: any number; it is 0 at first
    /// - `QS_OK`: it is set
    /// - `QS_ERR_NO_STREAM`: there is no such stream, or track_streams is 0
    /// - `QS_ERR_ARGUMENT`: id is 2^62 or above
    /// - `QS_ERR_NOMEM`: out of memory; the number is as it was
    pub fn qs_stream_set_user(conn: *mut qs_conn, id: u64, user: u64) -> i32;
    /// Returns the number that `qs_stream_set_user` set last for a stream.
    ///
    /// - id: as for `qs_stream_set_user`
    /// - user: that number, 0 if none was set; written with `QS_OK` only
    /// - `QS_OK`: *user is set
    /// - `QS_ERR_NO_STREAM`: there is no such stream, or track_streams is 0
    /// - `QS_ERR_ARGUMENT`: id is 2^62 or above
    pub fn qs_stream_user(conn: *const qs_conn, id: u64, user: *mut u64) -> i32;
    /// Writes data to a stream, and copies it: len bytes, or as many as the peer's
    /// limits and the send window allow. After a partial write call again with the
    /// rest: only `QS_ERR_BLOCKED` makes `QS_EVENT_WRITABLE` certain. A write of length
    /// 0 on a stream that is not blocked returns `QS_OK` with 0 bytes.
    ///
    /// - data: len bytes; may be NULL if len is 0
    /// - written: bytes written, with `QS_OK` only
    /// - app_code: the peer's error code, with `QS_ERR_STOPPED` only
    /// - `QS_OK`: *written bytes were taken, at least one if len is not 0
    /// - `QS_ERR_BLOCKED`: nothing can be written now; `QS_EVENT_WRITABLE` follows,
    ///   unless the stream is finished, reset or stopped before, or the
    ///   connection is closing. The session notes that the stream is blocked,
    ///   and DATA_BLOCKED or STREAM_DATA_BLOCKED may become due. Never
    ///   returned for a stream that the peer stopped.
    /// - `QS_ERR_STOPPED`: the peer sent STOP_SENDING: reset the stream, so that
    ///   the peer learns its final size. Also returned while the peer's limits
    ///   or the send window allow no data, and after `qs_conn_close`. The stream
    ///   may be noted as blocked, as with `QS_ERR_BLOCKED`.
    /// - `QS_ERR_NO_STREAM`: the send side is closed or never existed
    /// - `QS_ERR_NOMEM`: out of memory
    pub fn qs_stream_write(
        conn: *mut qs_conn,
        id: u64,
        data: *const u8,
        len: usize,
        written: *mut usize,
        app_code: *mut u64,
    ) -> i32;
    /// Writes data to a stream as `qs_stream_write` does, and finishes the stream in
    /// the same step if fin is not 0 and all of len was taken: the last STREAM frame
    /// of the data can have the FIN bit. If len is 0 and fin is not 0 it is
    /// `qs_stream_finish`, which needs no credit.
    ///
    /// - data: len bytes; may be NULL if len is 0
    /// - fin: not 0: no data follows
    /// - written: bytes written, also with the errors listed here
    /// - app_code: the peer's error code, with `QS_ERR_STOPPED` only
    /// - `QS_OK`: *written bytes were taken, at least one if len is not 0. If fin
    ///   is not 0 and *written is len, the stream is finished, and
    ///   `QS_EVENT_FINISHED` follows when all is acknowledged.
    /// - `QS_ERR_BLOCKED`: as `qs_stream_write`; *written is 0
    /// - `QS_ERR_STOPPED`: as `qs_stream_write`; *written is 0
    /// - `QS_ERR_NO_STREAM`: the send side is closed or never existed
    /// - `QS_ERR_NOMEM`: out of memory. *written is 0, and nothing was written;
    ///   or it is len, all was written and the stream is not finished: call
    ///   `qs_stream_finish`.
    pub fn qs_stream_write_fin(
        conn: *mut qs_conn,
        id: u64,
        data: *const u8,
        len: usize,
        fin: u32,
        written: *mut usize,
        app_code: *mut u64,
    ) -> i32;
    /// Asks how many bytes one `qs_stream_write` would take now: the least of what
    /// the peer's limit for the stream, its limit for all streams and the send
    /// window allow. A write of len bytes takes len or *bytes, whichever is less. If
    /// *bytes is 0, a write of one byte is `QS_ERR_BLOCKED` or `QS_ERR_STOPPED`. Nothing
    /// is noted as blocked, so no event follows: write to get `QS_EVENT_WRITABLE`.
    ///
    /// - bytes: written with `QS_OK` only; 0 if the peer stopped the stream,
    ///   and after `qs_conn_close`
    /// - `QS_OK`: *bytes is set
    /// - `QS_ERR_NO_STREAM`: a write would return it: the send side is finished,
    ///   reset or closed, or never existed
    pub fn qs_stream_send_room(conn: *const qs_conn, id: u64, bytes: *mut u64) -> i32;
    /// Finishes a stream: no data follows, and FIN is sent.
    ///
    /// - app_code: the peer's error code, with `QS_ERR_STOPPED` only
    /// - `QS_OK`: FIN is queued; `QS_EVENT_FINISHED` follows when all is
    ///   acknowledged
    /// - `QS_ERR_STOPPED`: the peer sent STOP_SENDING; reset the stream instead
    /// - `QS_ERR_NO_STREAM`: the send side is closed or never existed
    /// - `QS_ERR_NOMEM`: out of memory
    pub fn qs_stream_finish(conn: *mut qs_conn, id: u64, app_code: *mut u64) -> i32;
    /// Resets a stream (RFC 9000 section 19.4): unacknowledged data is dropped, and
    /// RESET_STREAM is sent.
    ///
    /// - `QS_OK`: the send side is reset
    /// - `QS_ERR_NO_STREAM`: the send side is closed or never existed
    /// - `QS_ERR_NOMEM`: out of memory
    pub fn qs_stream_reset(conn: *mut qs_conn, id: u64, app_code: u64) -> i32;
    /// Asks the peer to stop sending (STOP_SENDING, RFC 9000 section 19.5), and
    /// drops unread data.
    ///
    /// - `QS_OK`: the receive side is stopped
    /// - `QS_ERR_NO_STREAM`: the receive side is closed or never existed
    /// - `QS_ERR_NOMEM`: out of memory
    pub fn qs_stream_stop(conn: *mut qs_conn, id: u64, app_code: u64) -> i32;
    /// Sets the priority of a stream: streams of a higher number are sent first.
    /// A new stream has priority 0.
    ///
    /// - `QS_OK`: the priority is set
    /// - `QS_ERR_NO_STREAM`: the send side is closed or never existed
    /// - `QS_ERR_NOMEM`: out of memory
    pub fn qs_stream_set_priority(conn: *mut qs_conn, id: u64, priority: i32) -> i32;
    /// Reads the priority of a stream.
    ///
    /// - priority: written with `QS_OK` only
    /// - `QS_OK`: *priority is set
    /// - `QS_ERR_NO_STREAM`: the send side is closed or never existed
    pub fn qs_stream_priority(conn: *const qs_conn, id: u64, priority: *mut i32) -> i32;
    /// Asks whether the peer sent STOP_SENDING for a stream.
    ///
    /// - app_code: the peer's error code, with `QS_OK` only
    /// - `QS_OK`: it did
    /// - `QS_DONE`: it did not
    /// - `QS_ERR_NO_STREAM`: the send side is closed or never existed
    pub fn qs_stream_stopped(conn: *const qs_conn, id: u64, app_code: *mut u64) -> i32;
    /// Asks whether the peer reset a stream.
    ///
    /// - app_code: the peer's error code, with `QS_OK` only
    /// - `QS_OK`: it did; this call closes the receive side
    /// - `QS_DONE`: it did not
    /// - `QS_ERR_NO_STREAM`: the receive side is closed or never existed
    /// - `QS_ERR_NOMEM`: out of memory
    pub fn qs_stream_received_reset(conn: *mut qs_conn, id: u64, app_code: *mut u64) -> i32;
    /// Reads the next bytes of a stream in order, at most cap, and returns their
    /// credit to the peer (RFC 9000 section 4.2). Here "nothing now" is
    /// `QS_ERR_BLOCKED`; `qs_stream_read_many` and `qs_stream_read_lent` return `QS_DONE`,
    /// since bytes may come with it.
    ///
    /// - data: at least cap bytes; the first *count are written
    /// - count: bytes read: above 0 with `QS_OK`; 0 with `QS_ERR_BLOCKED`,
    ///   `QS_END`, `QS_ERR_RESET` and `QS_ERR_NOMEM`; else not written
    /// - offset: of the first byte, with `QS_OK` only
    /// - app_code: the peer's error code, with `QS_ERR_RESET` only
    /// - `QS_OK`: more may be available: call again
    /// - `QS_ERR_BLOCKED`: nothing is available now; `QS_EVENT_READABLE` follows
    /// - `QS_END`: all was read, and the receive side is closed
    /// - `QS_ERR_RESET`: the peer reset the stream; the receive side is closed
    /// - `QS_ERR_NOMEM`: out of memory; nothing was read
    /// - `QS_ERR_TOO_SMALL`: cap is 0
    /// - `QS_ERR_NO_STREAM`: the receive side is closed or never existed
    /// - `QS_ERR_ORDER`: the stream was read unordered before
    pub fn qs_stream_read(
        conn: *mut qs_conn,
        id: u64,
        data: *mut u8,
        cap: usize,
        count: *mut usize,
        offset: *mut u64,
        app_code: *mut u64,
    ) -> i32;
    /// Reads received bytes of a stream in any order; else as `qs_stream_read`. After
    /// it an ordered read of the same stream is `QS_ERR_ORDER`.
    /// Parameters and return values are those of `qs_stream_read`.
    pub fn qs_stream_read_unordered(
        conn: *mut qs_conn,
        id: u64,
        data: *mut u8,
        cap: usize,
        count: *mut usize,
        offset: *mut u64,
        app_code: *mut u64,
    ) -> i32;
    /// Reads the next bytes of a stream in order, those of several frames in one
    /// call, and returns with them whether more may follow. It reads up to 64
    /// segments; each has an equal share of cap, of at least 2048 bytes if cap has
    /// as many.
    ///
    /// - data: at least cap bytes; the first *count are written
    /// - count: bytes read, may be 0; 0 with `QS_ERR_RESET` and `QS_ERR_NOMEM`;
    ///   not written with the errors after these
    /// - offset: of the first byte, written only if *count is above 0
    /// - app_code: the peer's error code, with `QS_ERR_RESET` only
    /// - `QS_OK`: more may be available: call again
    /// - `QS_DONE`: nothing more is available now; `QS_EVENT_READABLE` follows
    /// - `QS_END`: nothing more follows, and the receive side is closed
    /// - `QS_ERR_RESET`: the peer reset the stream; the receive side is closed
    /// - `QS_ERR_NOMEM`: out of memory; nothing was read
    /// - `QS_ERR_TOO_SMALL`: cap is 0
    /// - `QS_ERR_NO_STREAM`: the receive side is closed or never existed
    /// - `QS_ERR_ORDER`: the stream was read unordered before
    pub fn qs_stream_read_many(
        conn: *mut qs_conn,
        id: u64,
        data: *mut u8,
        cap: usize,
        count: *mut usize,
        offset: *mut u64,
        app_code: *mut u64,
    ) -> i32;
    /// Reads the next bytes of a stream in order as `qs_stream_read_many` does, but
    /// copies none: slices show where they are in memory of the session, one for
    /// each frame. They are valid until the next call on the handle.
    ///
    /// - slices: room for max of them; the first *count are written, at
    ///   most 64
    /// - count: slices written, may be 0; 0 with `QS_ERR_RESET` and
    ///   `QS_ERR_NOMEM`; not written with the errors after these
    /// - offset: of the first byte, written only if *count is above 0
    /// - app_code: the peer's error code, with `QS_ERR_RESET` only
    /// - `QS_OK`: more may be available: call again
    /// - `QS_DONE`: nothing more is available now; `QS_EVENT_READABLE` follows
    /// - `QS_END`: nothing more follows, and the receive side is closed
    /// - `QS_ERR_RESET`: the peer reset the stream; the receive side is closed
    /// - `QS_ERR_NOMEM`: out of memory; nothing was read
    /// - `QS_ERR_TOO_SMALL`: max is 0
    /// - `QS_ERR_NO_STREAM`: the receive side is closed or never existed
    /// - `QS_ERR_ORDER`: the stream was read unordered before
    pub fn qs_stream_read_lent(
        conn: *mut qs_conn,
        id: u64,
        slices: *mut qs_slice,
        max: usize,
        count: *mut usize,
        offset: *mut u64,
        app_code: *mut u64,
    ) -> i32;
    /// Sets how many written bytes are buffered at most until they are
    /// acknowledged. Any number.
    ///
    /// - `QS_OK`: done
    pub fn qs_set_send_window(conn: *mut qs_conn, window: u64) -> i32;
    /// Sets how many bytes of all streams may be received and not read. A smaller
    /// window takes back no credit that was advertised.
    ///
    /// - `QS_OK`: done
    pub fn qs_set_receive_window(conn: *mut qs_conn, window: u64) -> i32;
    /// Sets how many streams of a direction the peer may use at a time. A lower
    /// number takes back none that were allowed. Time and memory grow with count.
    ///
    /// - `QS_OK`: done
    /// - `QS_ERR_NOMEM`: out of memory
    pub fn qs_set_max_concurrent(conn: *mut qs_conn, dir: u32, count: u64) -> i32;
    /// What `qs_poll` calls.
    pub fn qs_poll_words(conn: *mut qs_conn, words: *mut u64, count: usize) -> i32;
    /// What `qs_get_info` calls.
    pub fn qs_get_info_words(conn: *const qs_conn, words: *mut u64, count: usize) -> i32;
    /// What `qs_get_stats` calls.
    pub fn qs_get_stats_words(conn: *const qs_conn, words: *mut u64, count: usize) -> i32;
    /// Makes a buffer at least size bytes long, with zeros after its bytes. A
    /// closed buffer is opened.
    ///
    /// - `QS_OK`: len is at least size
    /// - `QS_ERR_NOMEM`: out of memory; the bytes stay, and a closed buffer stays
    ///   closed. Never returned for an open buffer that is long enough.
    pub fn qs_buffer_reserve(buffer: *mut qs_buffer, size: usize) -> i32;
    /// Frees the memory of a buffer, and closes it. A closed one stays closed.
    pub fn qs_buffer_free(buffer: *mut qs_buffer);
    /// Processes the frames of a payload from the offset *next on, and copies their
    /// data. It processes RESET_STREAM, STOP_SENDING, STREAM, MAX_DATA,
    /// MAX_STREAM_DATA, MAX_STREAMS, DATA_BLOCKED, STREAM_DATA_BLOCKED and DATAGRAM
    /// frames, skips PADDING, PING and STREAMS_BLOCKED, and stops in front of any
    /// other frame, such as ACK or CRYPTO. The host processes that frame, sets *next
    /// to the offset behind it, and calls again, until the result is another one
    /// than `QS_OTHER_FRAME`. A type that is encoded in more than one byte is another
    /// frame. The host checks which frames its packet may have (RFC 9000 section
    /// 12.4), and rejects a type that nobody knows (FRAME_ENCODING_ERROR) and a
    /// payload without frames: with len 0 the result is `QS_OK`.
    ///
    /// A STOP_SENDING frame for a stream on which only the peer sends, or for one of
    /// this endpoint that is not open, and a STREAM_DATA_BLOCKED frame for a stream
    /// on which only this endpoint sends, are `QS_ERR_PROTOCOL` with
    /// STREAM_STATE_ERROR (sections 19.5 and 19.13).
    /// - payload: len bytes; may be NULL if len is 0
    /// - next: offset of the frame to begin with, 0 in each new payload;
    ///   set to the offset of the first byte that was not processed,
    ///   except with `QS_ERR_CLOSED` and `QS_ERR_ARGUMENT`
    /// - error: written with `QS_ERR_PROTOCOL` and `QS_ERR_MALFORMED` only
    /// - `QS_OK`: everything was processed; *next is len
    /// - `QS_OTHER_FRAME`: a frame that the host processes begins at *next
    /// - `QS_ERR_NOMEM`: the frames before *next were processed. Call again with
    ///   the same *next, or treat the packet as not received: processing a
    ///   frame twice does no harm.
    /// - `QS_ERR_PROTOCOL`: close the connection with *error. The frames before
    ///   *next were processed, the one at *next was rejected. If the
    ///   reassembly limit is exceeded (INTERNAL_ERROR), its data stays
    ///   buffered.
    /// - `QS_ERR_MALFORMED`: close the connection with *error. The frames before
    ///   *next were processed. At *next begin frames of the library of which
    ///   one is malformed, and none of them was processed; or STREAMS_BLOCKED,
    ///   malformed or with a limit above 2^60 (section 19.14).
    /// - `QS_ERR_ARGUMENT`: *next is above len
    pub fn qs_receive(
        conn: *mut qs_conn,
        payload: *const u8,
        len: usize,
        next: *mut usize,
        error: *mut qs_error,
    ) -> i32;
    /// Processes a payload as `qs_receive` does, from the first len bytes of a
    /// buffer. If it has frames of the library alone, *next is 0 and they leave at
    /// most an eighth of the buffer's memory unused, they are not copied: they stay
    /// there, and the buffer gets other memory with any bytes, which may be shorter.
    /// Call `qs_buffer_reserve` before the next packet. Otherwise the data is copied,
    /// and the buffer stays as it is.
    ///
    /// A closed buffer is `QS_ERR_CLOSED`. If a payload was not copied, *next is 0
    /// after an error, and after `QS_ERR_NOMEM` the buffer may have lost the payload:
    /// treat the packet as not received.
    /// - buffer: an open buffer
    /// - len: length of the payload
    /// - next: as with `qs_receive`
    /// - error: written with `QS_ERR_PROTOCOL` and `QS_ERR_MALFORMED` only
    /// - `QS_OK`: everything was processed; *next is len
    /// - `QS_OTHER_FRAME`: the host processes the frame at *next
    /// - `QS_ERR_NOMEM`: the frames before *next were processed
    /// - `QS_ERR_PROTOCOL`: close the connection with *error, as with `qs_receive`
    /// - `QS_ERR_MALFORMED`: close the connection with *error, as with `qs_receive`
    /// - `QS_ERR_ARGUMENT`: len is above the buffer's length, or *next above len
    pub fn qs_receive_buffer(
        conn: *mut qs_conn,
        buffer: *mut qs_buffer,
        len: usize,
        next: *mut usize,
        error: *mut qs_error,
    ) -> i32;
    /// Processes a STREAM frame (RFC 9000 section 19.8), for a host that decodes
    /// frames itself. The `qs_on_` calls take one frame each, with its fields.
    /// DATA_BLOCKED and STREAM_DATA_BLOCKED change nothing and have no call: the
    /// host rejects the STREAM_DATA_BLOCKED frames that `qs_receive` rejects.
    ///
    /// - data: len bytes; may be NULL if len is 0
    /// - fin: not 0 if the frame has the FIN bit
    /// - payload_len: length of the memory in which the data was received. It is
    ///   counted so that many small frames cannot pin much memory; len counts
    ///   if payload_len is less.
    /// - error: written with `QS_ERR_PROTOCOL` only
    /// - `QS_OK`: the frame was processed
    /// - `QS_ERR_PROTOCOL`: close the connection with *error. If the reassembly
    ///   limit is exceeded (INTERNAL_ERROR), the data stays buffered.
    /// - `QS_ERR_NOMEM`: out of memory. The data may be buffered, but raised no
    ///   event: pass the frame in again, or treat the packet as not received
    pub fn qs_on_stream(
        conn: *mut qs_conn,
        id: u64,
        offset: u64,
        data: *const u8,
        len: usize,
        fin: u32,
        payload_len: usize,
        error: *mut qs_error,
    ) -> i32;
    /// Processes a RESET_STREAM frame (RFC 9000 section 19.4).
    ///
    /// - error: written with `QS_ERR_PROTOCOL` only
    /// - `QS_OK`: the frame was processed
    /// - `QS_ERR_PROTOCOL`: close the connection with *error
    /// - `QS_ERR_NOMEM`: out of memory; the frame was not processed
    pub fn qs_on_reset_stream(
        conn: *mut qs_conn,
        id: u64,
        app_code: u64,
        final_size: u64,
        error: *mut qs_error,
    ) -> i32;
    /// Processes a STOP_SENDING frame (RFC 9000 section 19.5), and rejects it where
    /// `qs_receive` does.
    /// Parameters and return values are those of `qs_on_reset_stream`.
    pub fn qs_on_stop_sending(
        conn: *mut qs_conn,
        id: u64,
        app_code: u64,
        error: *mut qs_error,
    ) -> i32;
    /// Processes a MAX_DATA frame (RFC 9000 section 19.9).
    /// Parameters and return values are those of `qs_on_reset_stream`.
    pub fn qs_on_max_data(conn: *mut qs_conn, limit: u64, error: *mut qs_error) -> i32;
    /// Processes a MAX_STREAM_DATA frame (RFC 9000 section 19.10).
    /// Parameters and return values are those of `qs_on_reset_stream`.
    pub fn qs_on_max_stream_data(
        conn: *mut qs_conn,
        id: u64,
        limit: u64,
        error: *mut qs_error,
    ) -> i32;
    /// Processes a MAX_STREAMS frame (RFC 9000 section 19.11).
    ///
    /// - dir: `QS_BIDI` or `QS_UNI`
    /// - count: how many streams may be opened; above 2^60 the result is
    ///   `QS_ERR_PROTOCOL` with FRAME_ENCODING_ERROR
    ///
    /// Parameters and return values are those of `qs_on_reset_stream`.
    pub fn qs_on_max_streams(conn: *mut qs_conn, dir: u32, count: u64, error: *mut qs_error)
        -> i32;
    /// Processes a DATAGRAM frame (RFC 9221 section 4).
    ///
    /// - data: len bytes; may be NULL if len is 0
    ///
    /// Parameters and return values are those of `qs_on_reset_stream`.
    pub fn qs_on_datagram(
        conn: *mut qs_conn,
        data: *const u8,
        len: usize,
        error: *mut qs_error,
    ) -> i32;
    /// What `qs_emit` calls.
    pub fn qs_emit_words(
        conn: *mut qs_conn,
        parts: u32,
        fair: u32,
        data: *mut u8,
        cap: usize,
        words: *mut u64,
        count: usize,
    ) -> i32;
    /// What `qs_emit_lent` calls.
    pub fn qs_emit_lent_words(
        conn: *mut qs_conn,
        parts: u32,
        fair: u32,
        cap: usize,
        data: *mut *const u8,
        words: *mut u64,
        count: usize,
    ) -> i32;
    /// What `qs_emit_buffer` calls.
    pub fn qs_emit_buffer_words(
        conn: *mut qs_conn,
        parts: u32,
        fair: u32,
        cap: usize,
        buffer: *mut qs_buffer,
        words: *mut u64,
        count: usize,
    ) -> i32;
    /// What `qs_get_due` calls.
    pub fn qs_get_due_words(conn: *const qs_conn, words: *mut u64, count: usize) -> i32;
    /// Reports that the packet of a payload was acknowledged (RFC 9000 section
    /// 13.3). Report each payload once, as acknowledged or as lost.
    ///
    /// - `QS_OK`: the token is unknown from now on
    /// - `QS_ERR_TOKEN`: it was reported, or never given. A late acknowledgement
    ///   of a payload that was reported lost needs no call, and returns this.
    /// - `QS_ERR_NOMEM`: a part was reported and stays so, and the token names
    ///   the rest: call again
    pub fn qs_acked(conn: *mut qs_conn, token: u64) -> i32;
    /// Reports that the packet of a payload is declared lost: its frames become
    /// pending again, if they are still of use. A PTO probe (RFC 9002 section 6.2.4)
    /// that is to carry the data of a payload again reports it lost first.
    ///
    /// - `QS_OK`: the token is unknown from now on
    /// - `QS_ERR_TOKEN`: it was reported, or never given
    /// - `QS_ERR_NOMEM`: a part was reported and stays so, and the token names
    ///   the rest: call again
    pub fn qs_lost(conn: *mut qs_conn, token: u64) -> i32;
    /// Queues a datagram, and copies it.
    ///
    /// - data: len bytes; may be NULL if len is 0
    /// - drop_oldest: not 0: the oldest pending datagrams are dropped until it
    ///   fits
    /// - `QS_OK`: the datagram is pending
    /// - `QS_ERR_BLOCKED`: others leave no room, and drop_oldest is 0;
    ///   `QS_EVENT_DATAGRAM_ROOM` follows
    /// - `QS_ERR_TOO_LARGE`: it is longer than the path, the peer or
    ///   datagram_send allows
    /// - `QS_ERR_DATAGRAMS_OFF`: the peer accepts none, or datagram_receive is
    ///   `QS_NONE`
    /// - `QS_ERR_NOMEM`: out of memory
    pub fn qs_datagram_send(
        conn: *mut qs_conn,
        data: *const u8,
        len: usize,
        drop_oldest: u32,
    ) -> i32;
    /// Removes the oldest received datagram and returns it.
    ///
    /// - data: at least cap bytes; the first *count are written with `QS_OK`
    ///   only
    /// - count: its length, with `QS_OK` and `QS_ERR_TOO_SMALL`
    /// - `QS_OK`: the datagram is in data
    /// - `QS_DONE`: none was received
    /// - `QS_ERR_TOO_SMALL`: it is longer than cap and stays the oldest. It still
    ///   counts against datagram_receive, and further ones may drop it
    pub fn qs_datagram_recv(
        conn: *mut qs_conn,
        data: *mut u8,
        cap: usize,
        count: *mut usize,
    ) -> i32;
    /// The length of the longest datagram that the path and the peer accept, as it
    /// was set. It is returned also if datagram_receive is `QS_NONE`.
    ///
    /// - size: written with `QS_OK` only
    /// - `QS_OK`: *size is set
    /// - `QS_ERR_DATAGRAMS_OFF`: the peer accepts none
    pub fn qs_datagram_max_size(conn: *const qs_conn, size: *mut usize) -> i32;
    /// The free room among the pending datagrams: the length of the longest that
    /// datagram_send can still take without dropping another. The limit of the path
    /// and the peer may be lower; see `qs_datagram_max_size`.
    ///
    /// - size: written with `QS_OK` only
    /// - `QS_OK`: *size is set
    pub fn qs_datagram_send_space(conn: *const qs_conn, size: *mut usize) -> i32;
    /// Sets the length of the longest datagram that the path and the peer accept,
    /// and drops longer ones that are pending.
    ///
    /// - size: any number; `QS_NONE`: the peer accepts none
    /// - `QS_OK`: done
    pub fn qs_datagram_set_max_size(conn: *mut qs_conn, size: u64) -> i32;
}

/// Opens a session in a closed handle.
///
/// - conn: a closed handle; left unchanged by an error
/// - config: read; not needed after the call
/// - `QS_OK`: the handle is open
/// - `QS_ERR_IN_USE`: the handle was open already
/// - `QS_ERR_ARGUMENT`: a number is above its bound, or unknown and not 0
/// - `QS_ERR_NOMEM`: out of memory
///
/// # Safety
///
/// Pointers are valid, as the header says.
#[inline]
pub unsafe fn qs_conn_open(conn: *mut qs_conn, config: *const qs_config) -> i32 {
    qs_conn_open_words(conn, config.cast(), size_of::<qs_config>() / 8)
}

/// Sets the peer's limits. Before, no stream can be opened and nothing can be
/// written. For 0-RTT, call it first with the remembered limits. Each open
/// stream of this endpoint gets its new limit, and `QS_EVENT_WRITABLE` is raised
/// if it was blocked.
///
/// - limits: read; not needed after the call
/// - `QS_OK`: the limits are set
/// - `QS_ERR_ARGUMENT`: a stream limit is above 2^60, or another is 2^62 or
///   more: close the connection with TRANSPORT_PARAMETER_ERROR; or a
///   number is unknown and not 0
/// - `QS_ERR_NOMEM`: out of memory; never if no stream was opened here
///
/// # Safety
///
/// Pointers are valid, as the header says.
#[inline]
pub unsafe fn qs_set_peer_limits(conn: *mut qs_conn, limits: *const qs_peer_limits) -> i32 {
    qs_set_peer_limits_words(conn, limits.cast(), size_of::<qs_peer_limits>() / 8)
}

/// Removes and returns the next event.
///
/// - event: written with `QS_OK` only
/// - `QS_OK`: *event is set
/// - `QS_DONE`: there is none
///
/// # Safety
///
/// Pointers are valid, as the header says.
#[inline]
pub unsafe fn qs_poll(conn: *mut qs_conn, event: *mut qs_event) -> i32 {
    qs_poll_words(conn, event.cast(), size_of::<qs_event>() / 8)
}

/// Reads the state of the session.
///
/// - info: written with `QS_OK` only
/// - `QS_OK`: *info is set
///
/// # Safety
///
/// Pointers are valid, as the header says.
#[inline]
pub unsafe fn qs_get_info(conn: *const qs_conn, info: *mut qs_info) -> i32 {
    qs_get_info_words(conn, info.cast(), size_of::<qs_info>() / 8)
}

/// Reads the counters of the session.
///
/// - stats: written with `QS_OK` only
/// - `QS_OK`: *stats is set
///
/// # Safety
///
/// Pointers are valid, as the header says.
#[inline]
pub unsafe fn qs_get_stats(conn: *const qs_conn, stats: *mut qs_stats) -> i32 {
    qs_get_stats_words(conn, stats.cast(), size_of::<qs_stats>() / 8)
}

/// Writes pending frames, at most cap bytes, of the named parts. A host that
/// lays out its packets itself calls it for single parts: each call makes a
/// payload of its own, and a packet may have several.
///
/// - parts: `QS_CONTROL`, `QS_DATAGRAMS` and `QS_STREAMS`, or'ed
/// - fair: not 0: streams of one priority take turns; 0: one goes on until
///   it has nothing left
/// - data: at least cap bytes; the first payload->len are written
/// - cap: at least `QS_MIN_ROOM`, or pending frames may not fit
/// - payload: written with `QS_OK` only
/// - `QS_OK`: *payload is set. More may be pending: call again for the next
///   packet, or for the rest of this one. If memory runs out after some
///   frames, these are the payload.
/// - `QS_DONE`: no pending frame of these parts fits into cap bytes
/// - `QS_ERR_NOMEM`: out of memory; nothing was written
///
/// # Safety
///
/// Pointers are valid, as the header says.
#[inline]
pub unsafe fn qs_emit(
    conn: *mut qs_conn,
    parts: u32,
    fair: u32,
    data: *mut u8,
    cap: usize,
    payload: *mut qs_payload,
) -> i32 {
    qs_emit_words(
        conn,
        parts,
        fair,
        data,
        cap,
        payload.cast(),
        size_of::<qs_payload>() / 8,
    )
}

/// Writes pending frames as `qs_emit` does, into memory of the session, where
/// they are valid until the next call on the handle. *data is set to where they
/// begin, with `QS_OK` only.
/// Parameters and return values are those of `qs_emit`.
///
/// # Safety
///
/// Pointers are valid, as the header says.
#[inline]
pub unsafe fn qs_emit_lent(
    conn: *mut qs_conn,
    parts: u32,
    fair: u32,
    cap: usize,
    data: *mut *const u8,
    payload: *mut qs_payload,
) -> i32 {
    qs_emit_lent_words(
        conn,
        parts,
        fair,
        cap,
        data,
        payload.cast(),
        size_of::<qs_payload>() / 8,
    )
}

/// Writes pending frames as `qs_emit` does, into an open buffer; a closed one is
/// `QS_ERR_CLOSED`.
///
/// - parts: as with `qs_emit`
/// - fair: as with `qs_emit`
/// - cap: at least `QS_MIN_ROOM`, or pending frames may not fit
/// - buffer: with `QS_OK` it has the payload alone, and its len is
///   payload->len; else its bytes stay
/// - payload: written with `QS_OK` only
/// - `QS_OK`: *payload is set
/// - `QS_DONE`: no pending frame of these parts fits into cap bytes
/// - `QS_ERR_NOMEM`: out of memory; nothing was written
///
/// # Safety
///
/// Pointers are valid, as the header says.
#[inline]
pub unsafe fn qs_emit_buffer(
    conn: *mut qs_conn,
    parts: u32,
    fair: u32,
    cap: usize,
    buffer: *mut qs_buffer,
    payload: *mut qs_payload,
) -> i32 {
    qs_emit_buffer_words(
        conn,
        parts,
        fair,
        cap,
        buffer,
        payload.cast(),
        size_of::<qs_payload>() / 8,
    )
}

/// Asks what is pending.
///
/// - due: written with `QS_OK` only
/// - `QS_OK`: *due is set
///
/// # Safety
///
/// Pointers are valid, as the header says.
#[inline]
pub unsafe fn qs_get_due(conn: *const qs_conn, due: *mut qs_due) -> i32 {
    qs_get_due_words(conn, due.cast(), size_of::<qs_due>() / 8)
}

#[cfg(test)]
mod tests {
    use super::*;
    use std::mem::MaybeUninit;
    use std::ptr::addr_of;

    // Where a field stands in its struct.
    macro_rules! offset {
        ($name:ident, $field:ident) => {{
            let place = MaybeUninit::<$name>::uninit();
            // SAFETY: the address of a field is taken, and nothing is read.
            let field = unsafe { addr_of!((*place.as_ptr()).$field) };
            field as usize - place.as_ptr() as usize
        }};
    }

    #[test]
    fn each_field_stands_at_its_offset() {
        assert_eq!(offset!(qs_conn, live), 0);
        assert_eq!(offset!(qs_conn, at), 8);
        assert_eq!(offset!(qs_config, side), 0);
        assert_eq!(offset!(qs_config, max_remote_uni), 8);
        assert_eq!(offset!(qs_config, max_remote_bidi), 16);
        assert_eq!(offset!(qs_config, send_window), 24);
        assert_eq!(offset!(qs_config, receive_window), 32);
        assert_eq!(offset!(qs_config, stream_window), 40);
        assert_eq!(offset!(qs_config, datagram_receive), 48);
        assert_eq!(offset!(qs_config, datagram_send), 56);
        assert_eq!(offset!(qs_config, track_streams), 64);
        assert_eq!(offset!(qs_peer_limits, initial_max_data), 0);
        assert_eq!(offset!(qs_peer_limits, initial_max_streams_bidi), 8);
        assert_eq!(offset!(qs_peer_limits, initial_max_streams_uni), 16);
        assert_eq!(offset!(qs_peer_limits, initial_max_stream_data_uni), 24);
        assert_eq!(
            offset!(qs_peer_limits, initial_max_stream_data_bidi_local),
            32
        );
        assert_eq!(
            offset!(qs_peer_limits, initial_max_stream_data_bidi_remote),
            40
        );
        assert_eq!(offset!(qs_peer_limits, max_datagram), 48);
        assert_eq!(offset!(qs_slice, memory), 0);
        assert_eq!(offset!(qs_slice, start), 8);
        assert_eq!(offset!(qs_slice, len), 16);
        assert_eq!(offset!(qs_event, kind), 0);
        assert_eq!(offset!(qs_event, dir), 8);
        assert_eq!(offset!(qs_event, id), 16);
        assert_eq!(offset!(qs_event, app_code), 24);
        assert_eq!(offset!(qs_event, user), 32);
        assert_eq!(offset!(qs_info, max_concurrent_bidi), 0);
        assert_eq!(offset!(qs_info, max_concurrent_uni), 8);
        assert_eq!(offset!(qs_info, max_remote_bidi), 16);
        assert_eq!(offset!(qs_info, max_remote_uni), 24);
        assert_eq!(offset!(qs_info, next_remote_bidi), 32);
        assert_eq!(offset!(qs_info, next_remote_uni), 40);
        assert_eq!(offset!(qs_info, remote_open_bidi), 48);
        assert_eq!(offset!(qs_info, remote_open_uni), 56);
        assert_eq!(offset!(qs_info, local_max_data), 64);
        assert_eq!(offset!(qs_info, data_received), 72);
        assert_eq!(offset!(qs_info, write_limit), 80);
        assert_eq!(offset!(qs_info, send_streams), 88);
        assert_eq!(offset!(qs_info, payloads), 96);
        assert_eq!(offset!(qs_info, can_send_stream_data), 104);
        assert_eq!(offset!(qs_info, has_pending), 112);
        assert_eq!(offset!(qs_stats, sent_stream), 0);
        assert_eq!(offset!(qs_stats, sent_reset_stream), 8);
        assert_eq!(offset!(qs_stats, sent_stop_sending), 16);
        assert_eq!(offset!(qs_stats, sent_max_data), 24);
        assert_eq!(offset!(qs_stats, sent_max_stream_data), 32);
        assert_eq!(offset!(qs_stats, sent_max_streams_bidi), 40);
        assert_eq!(offset!(qs_stats, sent_max_streams_uni), 48);
        assert_eq!(offset!(qs_stats, sent_data_blocked), 56);
        assert_eq!(offset!(qs_stats, sent_stream_data_blocked), 64);
        assert_eq!(offset!(qs_stats, sent_datagram), 72);
        assert_eq!(offset!(qs_stats, received_stream), 80);
        assert_eq!(offset!(qs_stats, received_reset_stream), 88);
        assert_eq!(offset!(qs_stats, received_stop_sending), 96);
        assert_eq!(offset!(qs_stats, received_max_data), 104);
        assert_eq!(offset!(qs_stats, received_max_stream_data), 112);
        assert_eq!(offset!(qs_stats, received_max_streams_bidi), 120);
        assert_eq!(offset!(qs_stats, received_max_streams_uni), 128);
        assert_eq!(offset!(qs_stats, received_data_blocked), 136);
        assert_eq!(offset!(qs_stats, received_stream_data_blocked), 144);
        assert_eq!(offset!(qs_stats, received_datagram), 152);
        assert_eq!(offset!(qs_stats, lost_bytes), 160);
        assert_eq!(offset!(qs_buffer, live), 0);
        assert_eq!(offset!(qs_buffer, at), 8);
        assert_eq!(offset!(qs_buffer, data), 16);
        assert_eq!(offset!(qs_buffer, len), 24);
        assert_eq!(offset!(qs_error, code), 0);
        assert_eq!(offset!(qs_error, reason_len), 8);
        assert_eq!(offset!(qs_error, reason), 16);
        assert_eq!(offset!(qs_payload, len), 0);
        assert_eq!(offset!(qs_payload, token), 8);
        assert_eq!(offset!(qs_payload, ends), 16);
        assert_eq!(offset!(qs_due, control), 0);
        assert_eq!(offset!(qs_due, datagrams), 8);
        assert_eq!(offset!(qs_due, streams), 16);
    }
}
