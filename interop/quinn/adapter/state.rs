//! The state of the streams, and its limits.

use std::cell::Cell;
use std::collections::VecDeque;
use std::time::Instant;

use bytes::BytesMut;
use quic_streams as layer;
use rustc_hash::FxHashMap;

use super::names::{event_of, layer_dir, layer_int};
use super::reading::Readable;
use crate::connection::{Connection, ConnectionError, Event};
use crate::frame::{Close, Datagram, FrameStruct};
use crate::transport_parameters::TransportParameters;
use crate::{Dir, Side, StreamId, TransportConfig, TransportError, VarInt, MAX_STREAM_COUNT};

/// What the library counts for each datagram above its length. Two datagrams that fill quinn-proto's window fit together.
const DATAGRAM_OVERHEAD: usize = 2 * 32;

/// The streams of a connection
pub struct StreamsState {
    pub(super) side: Side,
    /// The library's endpoint.
    pub(super) endpoint: layer::StreamsState,
    /// What is due, if the library was asked since the last change.
    pub(super) due: Cell<Option<layer::Due>>,
    /// Whether the library ran out of memory: then the connection is closed before its next packet.
    out_of_memory: Cell<bool>,
    /// At least so many bytes were written and not sent yet, on streams that were not reset.
    pub(super) unsent: u64,
    /// The number of streams that were opened here, by direction.
    pub(super) opened: [u64; 2],
    /// The number of the peer's streams that were accepted from the library, by direction.
    pub(super) given: [u64; 2],
    /// Those of them that the application has not accepted.
    pub(super) ahead: [VecDeque<StreamId>; 2],
    /// The streams that the application may read.
    pub(super) readable: FxHashMap<StreamId, Readable>,
    /// Memory of which each received chunk is a part. It is used again once no chunk of it is left.
    pub(super) room: BytesMut,
}

impl StreamsState {
    pub(crate) fn new(side: Side, config: &TransportConfig) -> Self {
        let (endpoint, out_of_memory) = endpoint(side, config);
        Self {
            side,
            endpoint,
            due: Cell::new(None),
            out_of_memory: Cell::new(out_of_memory),
            unsent: 0,
            opened: [0; 2],
            given: [0; 2],
            ahead: Default::default(),
            readable: FxHashMap::default(),
            room: BytesMut::new(),
        }
    }

    /// The endpoint, for a call that may change what is due.
    pub(super) fn endpoint(&mut self) -> &mut layer::StreamsState {
        self.due.set(None);
        &mut self.endpoint
    }

    /// The value of a call that can only fail for want of memory.
    pub(super) fn value<T, E>(&self, result: Result<T, E>) -> Option<T> {
        if result.is_err() {
            self.ran_out_of_memory();
        }
        result.ok()
    }

    pub(super) fn ran_out_of_memory(&self) {
        self.out_of_memory.set(true);
    }

    pub fn set_params(&mut self, params: &TransportParameters) {
        let longest = |size: VarInt| {
            let length = usize::try_from(u64::from(size)).unwrap_or(usize::MAX);
            length.saturating_sub(Datagram::SIZE_BOUND)
        };
        let mut limits = layer::Limits::default();
        limits.initial_max_data = layer_int(params.initial_max_data);
        limits.initial_max_streams_bidi = layer_int(params.initial_max_streams_bidi);
        limits.initial_max_streams_uni = layer_int(params.initial_max_streams_uni);
        limits.initial_max_stream_data_uni = layer_int(params.initial_max_stream_data_uni);
        limits.initial_max_stream_data_bidi_local =
            layer_int(params.initial_max_stream_data_bidi_local);
        limits.initial_max_stream_data_bidi_remote =
            layer_int(params.initial_max_stream_data_bidi_remote);
        limits.max_datagram = params.max_datagram_frame_size.map(longest);
        let set = self.endpoint().set_params(&limits);
        self.value(set);
    }

    pub fn zero_rtt_rejected(&mut self) {
        self.endpoint().zero_rtt_rejected();
        self.unsent = 0;
        self.opened = [0; 2];
        let side = self.side;
        self.readable.retain(|id, _| id.initiator() != side);
    }

    pub fn retransmit_all_for_0rtt(&mut self) {
        let queued = self.endpoint().retransmit_all_for_0rtt();
        self.value(queued);
    }

    pub fn set_max_concurrent(&mut self, dir: Dir, count: VarInt) {
        let set = self
            .endpoint()
            .set_max_concurrent(layer_dir(dir), layer_int(count));
        self.value(set);
    }

    pub fn set_receive_window(&mut self, window: VarInt) {
        self.endpoint().set_receive_window(layer_int(window));
    }

    /// Whether a stream of this endpoint was never opened
    pub fn is_local_unopened(&self, id: StreamId) -> bool {
        id.index() >= self.opened[id.dir() as usize]
    }

    /// The next event for the application
    pub(crate) fn poll(&mut self) -> Option<Event> {
        std::iter::from_fn(|| self.endpoint.poll()).find_map(event_of)
    }

    /// What is due. The library is asked only if something changed.
    pub(super) fn due(&self) -> layer::Due {
        let due = self.due.get().unwrap_or_else(|| self.endpoint.due());
        self.due.set(Some(due));
        due
    }
}

/// The library's endpoint for a configuration. Without memory for it, one that has no streams, and true.
fn endpoint(side: Side, config: &TransportConfig) -> (layer::StreamsState, bool) {
    let side = match side {
        Side::Client => layer::Side::Client,
        Side::Server => layer::Side::Server,
    };
    let most = layer::VarInt::from_u64(MAX_STREAM_COUNT).unwrap_or(layer::VarInt::MAX);
    let streams = |count: VarInt| layer_int(count).min(most);
    let window = |size: usize| size.saturating_add(DATAGRAM_OVERHEAD);
    let mut wanted = layer::Config::default();
    wanted.max_remote_uni = streams(config.max_concurrent_uni_streams);
    wanted.max_remote_bi = streams(config.max_concurrent_bidi_streams);
    wanted.send_window = config.send_window;
    wanted.receive_window = layer_int(config.receive_window);
    wanted.stream_window = layer_int(config.stream_receive_window);
    wanted.datagram_receive = config.datagram_receive_buffer_size.map(window);
    wanted.datagram_send = window(config.datagram_send_buffer_size);
    if let Ok(endpoint) = layer::StreamsState::new(side, &wanted) {
        return (endpoint, false);
    }
    let mut least = wanted;
    least.max_remote_uni = layer::VarInt::from_u32(0);
    least.max_remote_bi = layer::VarInt::from_u32(0);
    // As of Rust's own collections, the end of the process: there is no memory for a connection at all.
    let made = layer::StreamsState::new(side, &least);
    (made.expect("memory for a connection"), true)
}

impl Connection {
    /// Closes the connection if the library ran out of memory, as for any internal error.
    pub(in crate::connection) fn close_if_out_of_memory(&mut self, now: Instant) {
        if self.streams.out_of_memory.get() && !self.state.is_closed() {
            let error = TransportError::INTERNAL_ERROR("no memory for streams");
            self.error = Some(ConnectionError::TransportError(error.clone()));
            self.close_inner(now, Close::from(error));
        }
    }
}
