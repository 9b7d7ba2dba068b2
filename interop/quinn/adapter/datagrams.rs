//! Datagrams (RFC 9221).

use bytes::Bytes;
use quic_streams as layer;
use thiserror::Error;

use crate::connection::{Connection, SpaceId};
use crate::frame::{Datagram, FrameStruct};

/// Control over the datagrams of a connection
pub struct Datagrams<'a> {
    pub(in crate::connection) conn: &'a mut Connection,
}

impl Datagrams<'_> {
    /// Queues a datagram. The oldest waiting datagrams are dropped until it fits.
    pub fn send(&mut self, data: Bytes) -> Result<(), SendDatagramError> {
        if self.conn.config.datagram_receive_buffer_size.is_none() {
            return Err(SendDatagramError::Disabled);
        }
        let longest = self
            .max_size()
            .ok_or(SendDatagramError::UnsupportedByPeer)?;
        let endpoint = self.conn.streams.endpoint();
        // The path may have become narrower.
        endpoint.set_max_datagram_size(Some(longest));
        match endpoint.send_datagram(&data, true) {
            Ok(()) => Ok(()),
            Err(layer::SendDatagramError::Disabled) => Err(SendDatagramError::UnsupportedByPeer),
            Err(layer::SendDatagramError::OutOfMemory) => {
                self.conn.streams.ran_out_of_memory();
                Ok(()) // as if the network had lost it
            }
            Err(_) => Err(SendDatagramError::TooLarge),
        }
    }

    /// The length of the longest datagram that may be sent, or `None` if the peer accepts none
    pub fn max_size(&self) -> Option<usize> {
        let path = &self.conn.path;
        let peer_limit = self.conn.peer_params.max_datagram_frame_size?.into_inner();
        let tag_length = match &self.conn.spaces[SpaceId::Data].crypto {
            Some(keys) => keys.packet.local.tag_len(),
            None => self.conn.zero_rtt_crypto.as_ref()?.packet.tag_len(),
        };
        // The first byte, the connection ID and the longest packet number.
        let header = 1 + self.conn.rem_cids.active().len() + 4;
        let packet = usize::from(path.max_udp_payload_size).saturating_sub(header + tag_length);
        let frame = packet.min(usize::try_from(peer_limit).unwrap_or(usize::MAX));
        Some(frame.saturating_sub(Datagram::SIZE_BOUND))
    }

    /// Takes the oldest received datagram
    pub fn recv(&mut self) -> Option<Bytes> {
        let received = self.conn.streams.endpoint().recv_datagram();
        received.map(Bytes::from)
    }

    /// The length of the longest datagram that can be queued without dropping another
    pub fn send_buffer_space(&self) -> usize {
        self.conn.streams.endpoint.datagram_send_buffer_space()
    }
}

/// Why a datagram was not queued
#[derive(Clone, Debug, Error, Hash, PartialEq, Eq, PartialOrd, Ord)]
pub enum SendDatagramError {
    /// The datagram is longer than the path or the peer allows
    #[error("datagram too large")]
    TooLarge,
    /// The peer accepts no datagrams
    #[error("datagrams not supported by peer")]
    UnsupportedByPeer,
    /// Datagrams are disabled here
    #[error("datagram support disabled")]
    Disabled,
}
