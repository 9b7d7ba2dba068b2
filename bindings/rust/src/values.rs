use crate::errors::unexpected;
use crate::id::{Dir, StreamId};
use crate::varint::VarInt;
use quic_streams_sys as sys;
use std::ops::BitOr;

/// An event for the application.
#[derive(Clone, Copy, Debug, PartialEq, Eq)]
#[non_exhaustive]
pub enum Event {
    /// The peer opened streams of a direction: accept and read them. Their first data raises no [`Event::Readable`].
    Opened {
        /// The direction.
        dir: Dir,
    },
    /// A stream may have bytes, FIN or a reset to read. One that is not yet accepted is read after that.
    Readable {
        /// The stream.
        id: StreamId,
    },
    /// More streams of a direction may be opened.
    Available {
        /// The direction.
        dir: Dir,
    },
    /// All data of a stream and its FIN are acknowledged.
    Finished {
        /// The stream.
        id: StreamId,
    },
    /// A stream that was blocked may accept bytes now.
    Writable {
        /// The stream.
        id: StreamId,
    },
    /// The peer sent STOP_SENDING for a stream: reset it.
    Stopped {
        /// The application error code.
        error_code: VarInt,
        /// The stream.
        id: StreamId,
    },
    /// A stream that was opened or accepted is over: neither side of it is left. This is its last event, and the stream has no
    /// word any more ([`StreamsState::set_user`]). Raised only if [`Config::track_streams`] is set.
    ///
    /// [`StreamsState::set_user`]: crate::StreamsState::set_user
    /// [`Config::track_streams`]: crate::Config::track_streams
    Closed {
        /// The stream.
        id: StreamId,
        /// The word that was set for it last, 0 if none was.
        user: u64,
    },
    /// A datagram can be read, and none could before.
    DatagramReceived,
    /// A datagram that was blocked may be queued now.
    DatagramsUnblocked,
}

impl Event {
    pub(crate) fn of(event: &sys::qs_event) -> Self {
        let [kind, dir] =
            [event.kind, event.dir].map(|word| u32::try_from(word).unwrap_or(u32::MAX));
        let (dir, id) = (Dir::of(dir), StreamId::returned(event.id));
        match kind {
            sys::QS_EVENT_OPENED => Self::Opened { dir },
            sys::QS_EVENT_READABLE => Self::Readable { id },
            sys::QS_EVENT_WRITABLE => Self::Writable { id },
            sys::QS_EVENT_FINISHED => Self::Finished { id },
            sys::QS_EVENT_STOPPED => Self::Stopped {
                id,
                error_code: VarInt::returned(event.app_code),
            },
            sys::QS_EVENT_AVAILABLE => Self::Available { dir },
            sys::QS_EVENT_CLOSED => Self::Closed {
                id,
                user: event.user,
            },
            sys::QS_EVENT_DATAGRAM => Self::DatagramReceived,
            sys::QS_EVENT_DATAGRAM_ROOM => Self::DatagramsUnblocked,
            kind => unexpected(kind),
        }
    }
}

/// Which frames a payload may have, and how streams share it.
///
/// ```
/// use quic_streams::Emit;
///
/// let what = Emit::CONTROL | Emit::STREAMS;
/// assert!(what.control && !what.datagrams && what.streams && what.fair);
/// ```
#[allow(clippy::struct_excessive_bools)] // each names a part
#[derive(Clone, Copy, Debug, PartialEq, Eq)]
#[non_exhaustive]
pub struct Emit {
    /// Control frames: RESET_STREAM, STOP_SENDING, MAX_* and *_BLOCKED.
    pub control: bool,
    /// DATAGRAM frames.
    pub datagrams: bool,
    /// STREAM frames.
    pub streams: bool,
    /// Whether streams of one priority take turns; else one goes on until it has nothing left.
    pub fair: bool,
}

impl Emit {
    /// All frames.
    pub const ALL: Self = Self::parts(true, true, true);
    /// Control frames alone.
    pub const CONTROL: Self = Self::parts(true, false, false);
    /// DATAGRAM frames alone.
    pub const DATAGRAMS: Self = Self::parts(false, true, false);
    /// STREAM frames alone.
    pub const STREAMS: Self = Self::parts(false, false, true);

    const fn parts(control: bool, datagrams: bool, streams: bool) -> Self {
        Self {
            control,
            datagrams,
            streams,
            fair: true,
        }
    }

    /// The number of the parts; `None` without any.
    pub(crate) fn raw(self) -> Option<u32> {
        let part = |is_asked: bool, number: u32| if is_asked { number } else { 0 };
        let parts = part(self.control, sys::QS_CONTROL)
            | part(self.datagrams, sys::QS_DATAGRAMS)
            | part(self.streams, sys::QS_STREAMS);
        (parts != 0).then_some(parts)
    }
}

impl Default for Emit {
    /// All frames, with streams in turns.
    fn default() -> Self {
        Self::ALL
    }
}

/// The frames of both, with streams in turns if both say so.
impl BitOr for Emit {
    type Output = Self;

    fn bitor(self, other: Self) -> Self {
        Self {
            control: self.control || other.control,
            datagrams: self.datagrams || other.datagrams,
            streams: self.streams || other.streams,
            fair: self.fair && other.fair,
        }
    }
}

/// The name of a payload until it is reported, as acknowledged or lost.
#[derive(Clone, Copy, Debug, PartialEq, Eq, PartialOrd, Ord, Hash)]
pub struct Token(u64);

impl Token {
    /// The number of a token. The library counts them from 1.
    #[must_use]
    pub const fn into_inner(self) -> u64 {
        self.0
    }

    /// The token of a number, for a host that stores numbers.
    #[must_use]
    pub const fn from_inner(number: u64) -> Self {
        Self(number)
    }
}

/// A payload that was written.
#[derive(Clone, Copy, Debug, PartialEq, Eq)]
#[non_exhaustive]
pub struct Payload {
    /// How many bytes it has.
    pub len: usize,
    /// Names it until it is reported.
    pub token: Token,
    /// Whether nothing may follow in its packet, not even padding: its last frame may have no length.
    pub ends: bool,
}

impl Payload {
    // A length of the library fits: its targets have 64 bits.
    #[allow(clippy::cast_possible_truncation)]
    pub(crate) fn of(payload: &sys::qs_payload) -> Self {
        Self {
            len: payload.len as usize,
            token: Token(payload.token),
            ends: payload.ends != 0,
        }
    }
}

/// A payload in memory of the library.
#[derive(Clone, Copy, Debug, PartialEq, Eq)]
#[non_exhaustive]
pub struct Lent<'a> {
    /// Its bytes.
    pub bytes: &'a [u8],
    /// Names it until it is reported.
    pub token: Token,
    /// Whether nothing may follow in its packet, not even padding: its last frame may have no length.
    pub ends: bool,
}

impl<'a> Lent<'a> {
    pub(crate) fn new(bytes: &'a [u8], payload: Payload) -> Self {
        let Payload { token, ends, .. } = payload;
        Self { bytes, token, ends }
    }
}

/// How far a payload was processed.
#[derive(Clone, Copy, Debug, PartialEq, Eq)]
#[must_use = "the host processes the frames that are not the library's"]
pub enum Received {
    /// All of it.
    All,
    /// Up to a frame that the host processes. Go on behind it with [`StreamsState::receive_from`].
    ///
    /// [`StreamsState::receive_from`]: crate::StreamsState::receive_from
    OtherFrame {
        /// Where it begins in the payload.
        at: usize,
    },
}

/// What is pending.
#[derive(Clone, Copy, Debug, PartialEq, Eq)]
#[non_exhaustive]
pub struct Due {
    /// Control frames.
    pub control: bool,
    /// Datagrams.
    pub datagrams: bool,
    /// Stream data.
    pub streams: bool,
}

impl Due {
    pub(crate) fn of(due: &sys::qs_due) -> Self {
        Self {
            control: due.control != 0,
            datagrams: due.datagrams != 0,
            streams: due.streams != 0,
        }
    }
}

/// The state of an endpoint.
#[derive(Clone, Copy, Debug, PartialEq, Eq)]
#[non_exhaustive]
pub struct Info {
    /// How many bidirectional streams the peer may use at a time, as it was set.
    pub max_concurrent_bi: u64,
    /// How many unidirectional streams the peer may use at a time, as it was set.
    pub max_concurrent_uni: u64,
    /// The peer may open the bidirectional streams of a lower index.
    pub max_remote_bi: u64,
    /// The peer may open the unidirectional streams of a lower index.
    pub max_remote_uni: u64,
    /// The index of the bidirectional stream that the peer opens next.
    pub next_remote_bi: u64,
    /// The index of the unidirectional stream that the peer opens next.
    pub next_remote_uni: u64,
    /// How many bidirectional streams the peer has open.
    pub remote_open_bi: u64,
    /// How many unidirectional streams the peer has open.
    pub remote_open_uni: u64,
    /// How many bytes the peer may send in all.
    pub local_max_data: u64,
    /// How many bytes it sent.
    pub data_received: u64,
    /// How many bytes may be written now, on all streams together.
    pub write_limit: u64,
    /// How many streams have an open send side.
    pub send_streams: u64,
    /// How many payloads were not reported yet.
    pub payloads: u64,
    /// Whether stream data is pending.
    pub can_send_stream_data: bool,
    /// Whether control frames are pending.
    pub has_pending: bool,
}

impl Info {
    pub(crate) fn of(info: &sys::qs_info) -> Self {
        Self {
            max_concurrent_bi: info.max_concurrent_bidi,
            max_concurrent_uni: info.max_concurrent_uni,
            max_remote_bi: info.max_remote_bidi,
            max_remote_uni: info.max_remote_uni,
            next_remote_bi: info.next_remote_bidi,
            next_remote_uni: info.next_remote_uni,
            remote_open_bi: info.remote_open_bidi,
            remote_open_uni: info.remote_open_uni,
            local_max_data: info.local_max_data,
            data_received: info.data_received,
            write_limit: info.write_limit,
            send_streams: info.send_streams,
            payloads: info.payloads,
            can_send_stream_data: info.can_send_stream_data != 0,
            has_pending: info.has_pending != 0,
        }
    }
}

/// How many frames there were of each type. Each number stops at 2^64 - 1.
#[derive(Clone, Copy, Debug, Default, PartialEq, Eq)]
#[non_exhaustive]
pub struct FrameStats {
    /// STREAM frames.
    pub stream: u64,
    /// RESET_STREAM frames.
    pub reset_stream: u64,
    /// STOP_SENDING frames.
    pub stop_sending: u64,
    /// MAX_DATA frames.
    pub max_data: u64,
    /// MAX_STREAM_DATA frames.
    pub max_stream_data: u64,
    /// MAX_STREAMS of bidirectional streams frames.
    pub max_streams_bidi: u64,
    /// MAX_STREAMS of unidirectional streams frames.
    pub max_streams_uni: u64,
    /// DATA_BLOCKED frames.
    pub data_blocked: u64,
    /// STREAM_DATA_BLOCKED frames.
    pub stream_data_blocked: u64,
    /// DATAGRAM frames.
    pub datagram: u64,
}

/// How many frames an endpoint sent and received, from its start, and how many bytes were declared lost.
#[derive(Clone, Copy, Debug, Default, PartialEq, Eq)]
#[non_exhaustive]
pub struct Stats {
    /// The frames that were written into payloads. One that is sent again after a loss counts again.
    pub sent: FrameStats,
    /// The frames of the peer, also those that were rejected. One that is processed again after memory ran out counts again.
    pub received: FrameStats,
    /// The stream data of the payloads that were reported lost, in bytes.
    pub lost_bytes: u64,
}

impl Stats {
    pub(crate) fn of(stats: &sys::qs_stats) -> Self {
        Self {
            sent: FrameStats {
                stream: stats.sent_stream,
                reset_stream: stats.sent_reset_stream,
                stop_sending: stats.sent_stop_sending,
                max_data: stats.sent_max_data,
                max_stream_data: stats.sent_max_stream_data,
                max_streams_bidi: stats.sent_max_streams_bidi,
                max_streams_uni: stats.sent_max_streams_uni,
                data_blocked: stats.sent_data_blocked,
                stream_data_blocked: stats.sent_stream_data_blocked,
                datagram: stats.sent_datagram,
            },
            received: FrameStats {
                stream: stats.received_stream,
                reset_stream: stats.received_reset_stream,
                stop_sending: stats.received_stop_sending,
                max_data: stats.received_max_data,
                max_stream_data: stats.received_max_stream_data,
                max_streams_bidi: stats.received_max_streams_bidi,
                max_streams_uni: stats.received_max_streams_uni,
                data_blocked: stats.received_data_blocked,
                stream_data_blocked: stats.received_stream_data_blocked,
                datagram: stats.received_datagram,
            },
            lost_bytes: stats.lost_bytes,
        }
    }
}
