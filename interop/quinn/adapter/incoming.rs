//! Frames of the peer.

use super::names::{layer_dir, layer_id, layer_int, transport_error};
use super::{payloads, StreamsState};
use crate::connection::stats::FrameStats;
use crate::frame::{Datagram, ResetStream, StopSending, Stream};
use crate::{Dir, StreamId, TransportError, VarInt};
use quic_streams as layer;

type Received = Result<(), TransportError>;

impl StreamsState {
    /// Has the library take a payload that has frames of streams and datagrams alone; false if it has others too.
    pub(crate) fn received_payload(
        &mut self,
        payload: &[u8],
        counters: &mut FrameStats,
    ) -> Result<bool, TransportError> {
        if payload.is_empty() || !payloads::count(payload, counters) {
            return Ok(false);
        }
        self.due.set(None);
        let received = self.endpoint.receive(payload);
        // Its frames were counted: none is another one.
        Ok(received.map_err(transport_error)? == layer::Received::All)
    }

    pub(crate) fn received(&mut self, frame: Stream) -> Received {
        let (id, data) = (layer_id(frame.id), &frame.data);
        self.endpoint()
            .on_stream(id, frame.offset, data, frame.fin, data.len())
            .map_err(transport_error)
    }

    pub(crate) fn received_reset(&mut self, frame: ResetStream) -> Received {
        let (code, size) = (layer_int(frame.error_code), layer_int(frame.final_offset));
        self.endpoint()
            .on_reset_stream(layer_id(frame.id), code, size)
            .map_err(transport_error)
    }

    pub(crate) fn received_stop_sending(&mut self, frame: StopSending) -> Received {
        self.endpoint()
            .on_stop_sending(layer_id(frame.id), layer_int(frame.error_code))
            .map_err(transport_error)
    }

    pub(crate) fn received_max_data(&mut self, limit: VarInt) -> Received {
        self.endpoint()
            .on_max_data(layer_int(limit))
            .map_err(transport_error)
    }

    pub(crate) fn received_max_stream_data(&mut self, id: StreamId, limit: u64) -> Received {
        self.endpoint()
            .on_max_stream_data(layer_id(id), limit)
            .map_err(transport_error)
    }

    pub(crate) fn received_max_streams(&mut self, dir: Dir, count: u64) -> Received {
        self.endpoint()
            .on_max_streams(layer_dir(dir), count)
            .map_err(transport_error)
    }

    pub(crate) fn received_datagram(&mut self, frame: Datagram) -> Received {
        self.endpoint()
            .on_datagram(&frame.data)
            .map_err(transport_error)
    }
}
