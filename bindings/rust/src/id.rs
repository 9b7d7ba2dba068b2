use crate::varint::VarInt;
use quic_streams_sys as sys;
use std::fmt;
use std::ops::Not;

/// One of the two sides of a connection.
#[derive(Clone, Copy, Debug, PartialEq, Eq, Hash)]
pub enum Side {
    /// The side that opens the connection.
    Client = 0,
    /// The other side.
    Server = 1,
}

impl Side {
    /// Whether this is the client.
    #[must_use]
    pub const fn is_client(self) -> bool {
        matches!(self, Self::Client)
    }

    /// Whether this is the server.
    #[must_use]
    pub const fn is_server(self) -> bool {
        matches!(self, Self::Server)
    }

    pub(crate) const fn number(self) -> u32 {
        match self {
            Self::Client => sys::QS_CLIENT,
            Self::Server => sys::QS_SERVER,
        }
    }
}

/// The other side.
impl Not for Side {
    type Output = Self;

    fn not(self) -> Self {
        match self {
            Self::Client => Self::Server,
            Self::Server => Self::Client,
        }
    }
}

/// The direction of a stream.
#[derive(Clone, Copy, Debug, PartialEq, Eq, Hash)]
pub enum Dir {
    /// Bidirectional: both sides send data.
    Bi = 0,
    /// Unidirectional: only the initiator sends data.
    Uni = 1,
}

impl Dir {
    /// Both directions.
    pub fn iter() -> impl Iterator<Item = Self> {
        [Self::Bi, Self::Uni].iter().copied()
    }

    pub(crate) const fn number(self) -> u32 {
        match self {
            Self::Bi => sys::QS_BIDI,
            Self::Uni => sys::QS_UNI,
        }
    }

    pub(crate) const fn of(number: u32) -> Self {
        if number == sys::QS_BIDI {
            Self::Bi
        } else {
            Self::Uni
        }
    }
}

impl fmt::Display for Dir {
    fn fmt(&self, f: &mut fmt::Formatter<'_>) -> fmt::Result {
        f.pad(match self {
            Self::Bi => "bidirectional",
            Self::Uni => "unidirectional",
        })
    }
}

/// The id of a stream, below 2^62 (RFC 9000 section 2.1).
///
/// ```
/// use quic_streams::{Dir, Side, StreamId};
///
/// let id = StreamId::new(Side::Server, Dir::Uni, 5);
/// assert_eq!(u64::from(id), 23);
/// assert_eq!((id.initiator(), id.dir(), id.index()), (Side::Server, Dir::Uni, 5));
/// ```
#[derive(Clone, Copy, Debug, PartialEq, Eq, PartialOrd, Ord, Hash)]
pub struct StreamId(u64);

impl StreamId {
    /// The id of a stream that has `index` streams of its initiator and direction before it.
    ///
    /// # Panics
    ///
    /// If `index` is 2^60 or more.
    #[must_use]
    pub const fn new(initiator: Side, dir: Dir, index: u64) -> Self {
        assert!(index < 1 << 60, "the index of a stream is below 2^60");
        Self(index << 2 | (dir as u64) << 1 | initiator as u64)
    }

    /// The side that opens the stream.
    #[must_use]
    pub const fn initiator(self) -> Side {
        if self.0 & 1 == 0 {
            Side::Client
        } else {
            Side::Server
        }
    }

    /// The direction of the stream.
    #[must_use]
    pub const fn dir(self) -> Dir {
        if self.0 & 2 == 0 {
            Dir::Bi
        } else {
            Dir::Uni
        }
    }

    /// How many streams of its initiator and direction have a lower id.
    #[must_use]
    pub const fn index(self) -> u64 {
        self.0 >> 2
    }

    /// An id that the library returns.
    pub(crate) fn returned(number: u64) -> Self {
        Self(VarInt::returned(number).into_inner())
    }
}

impl From<VarInt> for StreamId {
    fn from(number: VarInt) -> Self {
        Self(number.into_inner())
    }
}

impl From<StreamId> for VarInt {
    fn from(id: StreamId) -> Self {
        Self::returned(id.0)
    }
}

impl From<StreamId> for u64 {
    fn from(id: StreamId) -> Self {
        id.0
    }
}

impl fmt::Display for StreamId {
    fn fmt(&self, f: &mut fmt::Formatter<'_>) -> fmt::Result {
        let initiator = match self.initiator() {
            Side::Client => "client",
            Side::Server => "server",
        };
        write!(f, "{} {} stream {}", initiator, self.dir(), self.index())
    }
}
