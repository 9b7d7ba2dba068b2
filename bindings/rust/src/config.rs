use crate::varint::VarInt;
use quic_streams_sys as sys;

/// The configuration of an endpoint. The host advertises the same numbers in its transport parameters.
///
/// ```
/// use quic_streams::{Config, VarInt};
///
/// let mut config = Config::default();
/// config.stream_window = VarInt::from_u32(1 << 16);
/// ```
#[derive(Clone, Copy, Debug, PartialEq, Eq)]
#[non_exhaustive]
pub struct Config {
    /// How many unidirectional streams the peer may open at first, at most 2^60. Memory is allocated for all at once.
    pub max_remote_uni: VarInt,
    /// The same for bidirectional streams.
    pub max_remote_bi: VarInt,
    /// At most this many written bytes are buffered until they are acknowledged.
    pub send_window: u64,
    /// At most this many bytes of all streams may be received and not read.
    pub receive_window: VarInt,
    /// At most this many bytes of one stream may be received and not read.
    ///
    /// A stream that has more than 1,024 disjoint segments buffered fails with INTERNAL_ERROR, and each lost packet leaves
    /// a gap until it is retransmitted. Keep the window at or below [`Config::window_for`], so that an honest peer cannot
    /// exceed that limit.
    pub stream_window: VarInt,
    /// At most this many bytes of datagrams may be received and not read; each counts 32 bytes more than its length.
    /// Older datagrams are dropped for newer ones. `None`: the peer may send none, and this endpoint sends none either.
    pub datagram_receive: Option<usize>,
    /// At most this many bytes of datagrams may wait to be sent, counted in the same way.
    pub datagram_send: usize,
    /// Whether the session keeps a word of the host for each stream ([`StreamsState::set_user`]) and raises
    /// [`Event::Closed`]. Each stream then takes some memory and time more until that event is polled.
    ///
    /// [`StreamsState::set_user`]: crate::StreamsState::set_user
    /// [`Event::Closed`]: crate::Event::Closed
    pub track_streams: bool,
}

impl Config {
    /// The largest stream window with which an honest peer cannot exceed the reassembly limit while `percent` of the
    /// packets of a flight are lost and each packet carries `packet` bytes.
    ///
    /// ```
    /// # use quic_streams::{Config, VarInt};
    /// assert_eq!(Config::window_for(1200, 10), VarInt::from_u32(12_288_000));
    /// ```
    ///
    /// # Panics
    ///
    /// If `percent` is 0.
    #[must_use]
    pub const fn window_for(packet: u16, percent: u8) -> VarInt {
        match VarInt::from_u64(102_400 * packet as u64 / percent as u64) {
            Ok(window) => window,
            Err(_) => VarInt::MAX,
        }
    }

    pub(crate) fn raw(&self, side: u32) -> sys::qs_config {
        sys::qs_config {
            side: u64::from(side),
            max_remote_uni: self.max_remote_uni.into_inner(),
            max_remote_bidi: self.max_remote_bi.into_inner(),
            send_window: self.send_window,
            receive_window: self.receive_window.into_inner(),
            stream_window: self.stream_window.into_inner(),
            datagram_receive: number(self.datagram_receive),
            datagram_send: self.datagram_send as u64,
            track_streams: u64::from(self.track_streams),
        }
    }
}

impl Default for Config {
    /// A hundred streams of each direction; a megabyte for each stream, ten for all together, and one for datagrams. Streams
    /// are not tracked.
    fn default() -> Self {
        Self {
            max_remote_uni: VarInt::from_u32(100),
            max_remote_bi: VarInt::from_u32(100),
            send_window: 10_000_000,
            receive_window: VarInt::from_u32(10_000_000),
            stream_window: VarInt::from_u32(1_000_000),
            datagram_receive: Some(1_000_000),
            datagram_send: 1_000_000,
            track_streams: false,
        }
    }
}

/// The limits in the peer's transport parameters (RFC 9000 section 18.2), by their names there. The default is that of absent
/// parameters: nothing is allowed.
#[derive(Clone, Copy, Debug, Default, PartialEq, Eq)]
#[non_exhaustive]
pub struct Limits {
    /// Bytes on all streams.
    pub initial_max_data: VarInt,
    /// Bidirectional streams that this endpoint may open.
    pub initial_max_streams_bidi: VarInt,
    /// Unidirectional streams that this endpoint may open.
    pub initial_max_streams_uni: VarInt,
    /// Bytes on each unidirectional stream.
    pub initial_max_stream_data_uni: VarInt,
    /// Bytes on each bidirectional stream that the peer opened.
    pub initial_max_stream_data_bidi_local: VarInt,
    /// Bytes on each bidirectional stream that this endpoint opened.
    pub initial_max_stream_data_bidi_remote: VarInt,
    /// The length of the longest datagram that the path and the peer accept. `None`: the peer accepts none.
    pub max_datagram: Option<usize>,
}

impl Limits {
    /// The limits that an endpoint of this configuration advertises to its peer, with datagrams of at most 1200 bytes.
    #[must_use]
    pub fn of(config: &Config) -> Self {
        Self {
            initial_max_data: config.receive_window,
            initial_max_streams_bidi: config.max_remote_bi,
            initial_max_streams_uni: config.max_remote_uni,
            initial_max_stream_data_uni: config.stream_window,
            initial_max_stream_data_bidi_local: config.stream_window,
            initial_max_stream_data_bidi_remote: config.stream_window,
            max_datagram: config.datagram_receive.map(|_| 1200),
        }
    }

    pub(crate) fn raw(&self) -> sys::qs_peer_limits {
        sys::qs_peer_limits {
            initial_max_data: self.initial_max_data.into_inner(),
            initial_max_streams_bidi: self.initial_max_streams_bidi.into_inner(),
            initial_max_streams_uni: self.initial_max_streams_uni.into_inner(),
            initial_max_stream_data_uni: self.initial_max_stream_data_uni.into_inner(),
            initial_max_stream_data_bidi_local: self
                .initial_max_stream_data_bidi_local
                .into_inner(),
            initial_max_stream_data_bidi_remote: self
                .initial_max_stream_data_bidi_remote
                .into_inner(),
            max_datagram: number(self.max_datagram),
        }
    }
}

/// A length, or `QS_NONE`.
pub(crate) fn number(length: Option<usize>) -> u64 {
    length.map_or(sys::QS_NONE, |length| length as u64)
}
