//! In place of quinn-proto's `connection` module: what its stream layer reads of a connection.

#[allow(warnings)]
mod assembler;
#[allow(warnings)]
mod datagrams;
pub mod endpoint;
pub mod parts;
#[allow(warnings)]
mod send_buffer;
#[allow(warnings)]
mod spaces;
#[allow(warnings)]
mod stats;
#[allow(warnings)]
mod streams;

use std::collections::VecDeque;
use std::ops::Index;

use crate::crypto::{Keys, PacketKey};
use crate::packet::SpaceId;
use crate::transport_parameters::TransportParameters;
use crate::VarInt;
use datagrams::DatagramState;
use streams::StreamsState;

/// The state of an open or closed connection.
#[derive(PartialEq, Eq)]
pub(crate) enum State {
    Established,
    Closed,
}

impl State {
    pub(crate) fn is_closed(&self) -> bool {
        *self == State::Closed
    }
}

pub(crate) enum Event {
    DatagramsUnblocked,
}

struct Config {
    datagram_receive_buffer_size: Option<usize>,
    datagram_send_buffer_size: usize,
}

struct Path {
    max_udp_payload_size: u16,
}

impl Path {
    fn current_mtu(&self) -> u16 {
        self.max_udp_payload_size
    }
}

struct ActiveCid;

impl ActiveCid {
    fn active(&self) -> [u8; 8] {
        [0; 8]
    }
}

struct Space {
    crypto: Option<Keys>,
}

struct Spaces(Space);

impl Index<SpaceId> for Spaces {
    type Output = Space;

    fn index(&self, _: SpaceId) -> &Space {
        &self.0
    }
}

struct EarlyKeys {
    packet: PacketKey,
}

/// The datagrams of a connection, with what their code reads of it.
struct Connection {
    config: Config,
    path: Path,
    rem_cids: ActiveCid,
    spaces: Spaces,
    zero_rtt_crypto: Option<EarlyKeys>,
    peer_params: TransportParameters,
    datagrams: DatagramState,
    events: VecDeque<Event>,
}

impl Connection {
    /// A connection whose datagram buffers hold `size` bytes.
    fn with_datagrams(size: usize) -> Self {
        Connection {
            config: Config {
                datagram_receive_buffer_size: Some(size),
                datagram_send_buffer_size: size,
            },
            path: Path {
                max_udp_payload_size: 1500,
            },
            rem_cids: ActiveCid,
            spaces: Spaces(Space { crypto: None }),
            zero_rtt_crypto: Some(EarlyKeys { packet: PacketKey }),
            peer_params: TransportParameters {
                max_datagram_frame_size: Some(VarInt::from_u32(65_535)),
                ..TransportParameters::default()
            },
            datagrams: DatagramState::default(),
            events: VecDeque::new(),
        }
    }

    /// The bytes of a packet around its frames: type, connection id, packet number, tag.
    fn predict_1rtt_overhead(&self, _packet: Option<u64>) -> usize {
        1 + 8 + 4 + 16
    }
}
