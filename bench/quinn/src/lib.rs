//! The stream layer of quinn-proto, built from its own files, and what they import from the rest of that crate.
//!
//! This file and the modules `connection`, `connection::endpoint` and `connection::parts` belong to this repository. The other
//! files are quinn-proto's, and are put beside them when the benchmark is built.

#![allow(dead_code)]

use std::fmt;
use std::ops::Not;

// 0.9 imports these from std
#[allow(unused_imports)]
pub(crate) use std::net::SocketAddr;
#[allow(unused_imports)]
pub(crate) use std::time::{Duration, Instant};

// quinn-proto's spaces.rs imports two traits of the crate `rand`; nothing that is measured draws a random number.
extern crate self as rand;

#[allow(warnings)]
mod coding;
mod connection;
#[allow(warnings)]
mod frame;
#[allow(warnings)]
mod range_set;
#[allow(warnings)]
mod transport_error;
#[allow(warnings)]
mod varint;

pub use connection::endpoint::Quinn;
pub use connection::parts::{Part, PARTS};
pub(crate) use transport_error::{Code as TransportErrorCode, Error as TransportError};
pub(crate) use varint::VarInt;

/// Whether the payloads are those of quinn-proto 0.11, which this repository's payloads equal.
pub const SAME_PAYLOADS: bool = cfg!(not(feature = "quinn_0_9"));

/// Stream limits are at most this (RFC 9000, section 4.6).
const MAX_STREAM_COUNT: u64 = 1 << 60;
const MAX_CID_SIZE: usize = 20;
const RESET_TOKEN_SIZE: usize = 16;

/// In place of the traits of the crate `rand`.
pub trait Rng {
    fn random_range(&mut self, range: std::ops::Range<u64>) -> u64;
}

/// In place of the traits of the crate `rand`.
pub trait RngExt {}

#[derive(Clone, Copy, Debug, PartialEq, Eq, Hash, PartialOrd, Ord)]
pub(crate) enum Side {
    Client = 0,
    Server = 1,
}

impl Not for Side {
    type Output = Side;

    fn not(self) -> Side {
        match self {
            Side::Client => Side::Server,
            Side::Server => Side::Client,
        }
    }
}

#[derive(Clone, Copy, Debug, PartialEq, Eq, Hash, PartialOrd, Ord)]
pub(crate) enum Dir {
    Bi = 0,
    Uni = 1,
}

impl Dir {
    fn iter() -> std::array::IntoIter<Dir, 2> {
        [Dir::Bi, Dir::Uni].into_iter()
    }
}

/// A stream id (RFC 9000, section 2.1): bit 0 is the initiator, bit 1 the direction.
#[derive(Clone, Copy, Debug, PartialEq, Eq, Hash, PartialOrd, Ord)]
pub(crate) struct StreamId(pub(crate) u64);

impl StreamId {
    pub(crate) fn new(initiator: Side, dir: Dir, index: u64) -> Self {
        StreamId(index * 4 + dir as u64 * 2 + initiator as u64)
    }

    pub(crate) fn initiator(self) -> Side {
        if self.0 & 1 == 0 {
            Side::Client
        } else {
            Side::Server
        }
    }

    pub(crate) fn dir(self) -> Dir {
        if self.0 & 2 == 0 {
            Dir::Bi
        } else {
            Dir::Uni
        }
    }

    pub(crate) fn index(self) -> u64 {
        self.0 >> 2
    }
}

impl fmt::Display for StreamId {
    fn fmt(&self, out: &mut fmt::Formatter<'_>) -> fmt::Result {
        write!(out, "{}", self.0)
    }
}

impl From<StreamId> for VarInt {
    #[inline]
    fn from(id: StreamId) -> VarInt {
        VarInt(id.0)
    }
}

impl From<VarInt> for StreamId {
    #[inline]
    fn from(id: VarInt) -> StreamId {
        StreamId(id.0)
    }
}

impl coding::Codec for StreamId {
    fn decode<B: bytes::Buf>(buf: &mut B) -> coding::Result<Self> {
        Ok(VarInt::decode(buf)?.into())
    }

    fn encode<B: bytes::BufMut>(&self, buf: &mut B) {
        VarInt::from(*self).encode(buf);
    }
}

#[derive(Clone, Copy, Debug, PartialEq, Eq)]
pub(crate) struct ResetToken([u8; RESET_TOKEN_SIZE]);

impl From<[u8; RESET_TOKEN_SIZE]> for ResetToken {
    fn from(bytes: [u8; RESET_TOKEN_SIZE]) -> Self {
        ResetToken(bytes)
    }
}

impl std::ops::Deref for ResetToken {
    type Target = [u8];

    fn deref(&self) -> &[u8] {
        &self.0
    }
}

mod shared {
    use super::{ResetToken, MAX_CID_SIZE};

    #[derive(Clone, Copy, Debug, PartialEq, Eq)]
    pub(crate) struct ConnectionId {
        length: usize,
        bytes: [u8; MAX_CID_SIZE],
    }

    impl ConnectionId {
        pub(crate) fn new(id: &[u8]) -> Self {
            let mut bytes = [0; MAX_CID_SIZE];
            bytes[..id.len()].copy_from_slice(id);
            ConnectionId {
                length: id.len(),
                bytes,
            }
        }
    }

    impl std::ops::Deref for ConnectionId {
        type Target = [u8];

        fn deref(&self) -> &[u8] {
            &self.bytes[..self.length]
        }
    }

    /// The ECN field of an IP header (RFC 3168, section 5).
    #[derive(Clone, Copy, Debug, PartialEq, Eq)]
    pub(crate) enum EcnCodepoint {
        Ect1 = 1,
        Ect0 = 2,
        Ce = 3,
    }

    #[derive(Clone, Copy, Debug)]
    pub(crate) struct IssuedCid {
        pub(crate) sequence: u64,
        pub(crate) id: ConnectionId,
        pub(crate) reset_token: ResetToken,
    }
}

mod cid_queue {
    pub(crate) struct CidQueue;

    impl CidQueue {
        pub(crate) const LEN: usize = 5;
    }
}

mod crypto {
    pub(crate) struct PacketKey;

    impl PacketKey {
        /// The length of the tag of all ciphers of TLS 1.3 that QUIC uses.
        pub(crate) fn tag_len(&self) -> usize {
            16
        }
    }

    pub(crate) struct KeyPair {
        pub(crate) local: PacketKey,
    }

    pub(crate) struct Keys {
        pub(crate) packet: KeyPair,
    }
}

mod packet {
    #[derive(Clone, Copy, Debug, PartialEq, Eq)]
    pub(crate) enum SpaceId {
        Initial = 0,
        Handshake = 1,
        Data = 2,
    }
}

mod transport_parameters {
    use super::VarInt;

    #[derive(Clone, Copy, Debug, Default)]
    pub(crate) struct TransportParameters {
        pub(crate) initial_max_data: VarInt,
        pub(crate) initial_max_streams_bidi: VarInt,
        pub(crate) initial_max_streams_uni: VarInt,
        pub(crate) initial_max_stream_data_bidi_local: VarInt,
        pub(crate) initial_max_stream_data_bidi_remote: VarInt,
        pub(crate) initial_max_stream_data_uni: VarInt,
        pub(crate) max_datagram_frame_size: Option<VarInt>,
    }
}
