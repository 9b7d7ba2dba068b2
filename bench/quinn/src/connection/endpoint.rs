//! The trait of the workloads over quinn-proto's stream layer.

use bytes::Bytes;
use workloads::{Direction, Endpoint, Event, Limits, Reading};

use super::datagrams::Datagrams;
use super::spaces::{Retransmits, ThinRetransmits};
use super::stats::FrameStats;
use super::streams::{
    ReadError, ReadableError, RecvStream, SendStream, StreamEvent, Streams, StreamsState,
    WriteError,
};
use super::{Connection, State};
use crate::frame::{Frame, FrameStruct, Iter, StopSending, StreamMetaVec};
use crate::transport_parameters::TransportParameters;
use crate::{Dir, Side, StreamId, VarInt};

const OPEN: State = State::Established;
/// The application error code of every reset and stop.
const CODE: VarInt = VarInt::from_u32(7);
const DATAGRAM_BUFFER: usize = 1 << 20;

/// The streams and datagrams of one endpoint.
pub struct Quinn {
    state: StreamsState,
    pending: Retransmits,
    stats: FrameStats,
    datagrams: Option<Box<Connection>>,
}

/// What a payload carried.
pub struct Sent {
    streams: StreamMetaVec,
    control: ThinRetransmits,
}

fn number(value: u64) -> VarInt {
    VarInt::from_u64(value).unwrap()
}

fn dir(direction: Direction) -> Dir {
    match direction {
        Direction::Bidirectional => Dir::Bi,
        Direction::Unidirectional => Dir::Uni,
    }
}

fn direction(dir: Dir) -> Direction {
    match dir {
        Dir::Bi => Direction::Bidirectional,
        Dir::Uni => Direction::Unidirectional,
    }
}

impl Quinn {
    fn streams(&mut self) -> Streams<'_> {
        Streams {
            state: &mut self.state,
            conn_state: &OPEN,
        }
    }

    fn send_stream(&mut self, id: u64) -> SendStream<'_> {
        SendStream {
            id: StreamId(id),
            state: &mut self.state,
            pending: &mut self.pending,
            conn_state: &OPEN,
        }
    }

    fn recv_stream(&mut self, id: u64) -> RecvStream<'_> {
        RecvStream {
            id: StreamId(id),
            state: &mut self.state,
            pending: &mut self.pending,
        }
    }

    fn connection(&mut self) -> &mut Connection {
        self.datagrams.as_mut().expect("datagrams are on")
    }

    #[cfg(not(feature = "quinn_0_9"))]
    fn write_stream_frames(&mut self, buf: &mut Vec<u8>, capacity: usize) -> StreamMetaVec {
        self.state.write_stream_frames(buf, capacity, true)
    }

    #[cfg(feature = "quinn_0_9")]
    fn write_stream_frames(&mut self, buf: &mut Vec<u8>, capacity: usize) -> StreamMetaVec {
        self.state.write_stream_frames(buf, capacity)
    }

    #[cfg(not(feature = "quinn_0_9"))]
    fn queue_stream_limits(&mut self) {
        self.state.queue_max_stream_id(&mut self.pending);
    }

    #[cfg(feature = "quinn_0_9")]
    fn queue_stream_limits(&mut self) {
        for dir in Dir::iter() {
            if self.state.take_max_streams_dirty(dir) {
                self.pending.max_stream_id[dir as usize] = true;
            }
        }
    }

    /// Processes one frame. Panics if the peer broke a rule, or if no stream layer sends such a frame.
    fn process(&mut self, frame: Frame, length: usize) {
        let state = &mut self.state;
        match frame {
            Frame::Stream(frame) => {
                let update = state.received(frame, length).unwrap();
                self.pending.max_data |= update.should_transmit();
            }
            Frame::ResetStream(frame) => {
                let update = state.received_reset(frame).unwrap();
                self.pending.max_data |= update.should_transmit();
            }
            Frame::StopSending(StopSending { id, error_code }) => {
                state.received_stop_sending(id, error_code);
            }
            Frame::MaxData(limit) => state.received_max_data(limit),
            Frame::MaxStreamData { id, offset } => {
                state.received_max_stream_data(id, offset).unwrap();
            }
            Frame::MaxStreams { dir, count } => state.received_max_streams(dir, count).unwrap(),
            Frame::DataBlocked { .. } | Frame::StreamDataBlocked { .. } => {}
            Frame::Datagram(datagram) => {
                let datagrams = &mut self.connection().datagrams;
                datagrams
                    .received(datagram, &Some(DATAGRAM_BUFFER))
                    .unwrap();
            }
            frame => panic!("unexpected frame {frame:?}"),
        }
    }
}

impl Endpoint for Quinn {
    type Payload = Vec<u8>;
    type Token = Sent;

    fn new(side: workloads::Side, limits: &Limits) -> Self {
        let side = match side {
            workloads::Side::Client => Side::Client,
            workloads::Side::Server => Side::Server,
        };
        let state = StreamsState::new(
            side,
            number(limits.unidirectional),
            number(limits.bidirectional),
            limits.window,
            number(limits.window),
            number(limits.stream_window),
        );
        let with_datagrams = || Box::new(Connection::with_datagrams(DATAGRAM_BUFFER));
        Quinn {
            state,
            pending: Retransmits::default(),
            stats: FrameStats::default(),
            datagrams: limits.datagrams.then(with_datagrams),
        }
    }

    fn set_peer_limits(&mut self, limits: &Limits) {
        let stream_window = number(limits.stream_window);
        self.state.set_params(&TransportParameters {
            initial_max_data: number(limits.window),
            initial_max_streams_bidi: number(limits.bidirectional),
            initial_max_streams_uni: number(limits.unidirectional),
            initial_max_stream_data_bidi_local: stream_window,
            initial_max_stream_data_bidi_remote: stream_window,
            initial_max_stream_data_uni: stream_window,
            max_datagram_frame_size: None,
        });
    }

    fn reject_early_data(&mut self) {
        self.state.zero_rtt_rejected();
        self.pending = Retransmits::default();
    }

    fn open(&mut self, direction: Direction) -> Option<u64> {
        self.streams().open(dir(direction)).map(|id| id.0)
    }

    fn accept(&mut self, direction: Direction) -> Option<u64> {
        self.streams().accept(dir(direction)).map(|id| id.0)
    }

    fn write(&mut self, id: u64, data: &[u8]) -> Option<usize> {
        match self.send_stream(id).write(data) {
            Ok(written) => Some(written),
            Err(WriteError::Blocked) => None,
            Err(error) => panic!("{error}"),
        }
    }

    fn finish(&mut self, id: u64) {
        self.send_stream(id).finish().unwrap();
    }

    fn reset(&mut self, id: u64) {
        self.send_stream(id).reset(CODE).unwrap();
    }

    fn stop(&mut self, id: u64) {
        self.recv_stream(id).stop(CODE).unwrap();
    }

    fn set_priority(&mut self, id: u64, priority: i32) {
        self.send_stream(id).set_priority(priority).unwrap();
    }

    fn read(&mut self, id: u64, see: impl FnMut(u64, &[u8])) -> Reading {
        self.read_at_most(id, usize::MAX, true, see)
    }

    fn read_at_most(
        &mut self,
        id: u64,
        capacity: usize,
        ordered: bool,
        mut see: impl FnMut(u64, &[u8]),
    ) -> Reading {
        let mut stream = self.recv_stream(id);
        let mut chunks = match stream.read(ordered) {
            Ok(chunks) => chunks,
            Err(ReadableError::IllegalOrderedRead) => panic!("ordered after unordered read"),
            Err(_) => return Reading::Closed,
        };
        let reading = loop {
            match chunks.next(capacity) {
                Ok(Some(chunk)) => see(chunk.offset, &chunk.bytes),
                Ok(None) => break Reading::Finished,
                Err(ReadError::Blocked) => break Reading::Blocked,
                Err(_) => break Reading::Closed,
            }
        };
        // what is to be sent is pending already
        let _ = chunks.finalize();
        reading
    }

    fn poll(&mut self) -> Option<Event> {
        Some(match self.state.poll()? {
            StreamEvent::Opened { dir } => Event::Opened(direction(dir)),
            StreamEvent::Readable { id } => Event::Readable(id.0),
            StreamEvent::Writable { id } => Event::Writable(id.0),
            StreamEvent::Finished { id } => Event::Finished(id.0),
            _ => Event::Other,
        })
    }

    fn can_send_stream_data(&mut self) -> bool {
        self.state.can_send_stream_data()
    }

    fn payload() -> Vec<u8> {
        Vec::new()
    }

    fn bytes(payload: &Vec<u8>) -> &[u8] {
        payload
    }

    fn emit(&mut self, capacity: usize, payload: &mut Vec<u8>) -> Option<Sent> {
        let mut buf = Vec::with_capacity(capacity);
        let mut control = ThinRetransmits::default();
        self.state.write_control_frames(
            &mut buf,
            &mut self.pending,
            &mut control,
            &mut self.stats,
            capacity,
        );
        if let Some(connection) = &mut self.datagrams {
            while buf.len() + crate::frame::Datagram::SIZE_BOUND < capacity
                && connection.datagrams.write(&mut buf, capacity)
            {}
        }
        let streams = self.write_stream_frames(&mut buf, capacity);
        let any = !buf.is_empty();
        *payload = buf;
        any.then_some(Sent { streams, control })
    }

    fn deliver(&mut self, payload: &mut Vec<u8>) {
        let payload = Bytes::from(std::mem::take(payload));
        let length = payload.len();
        for frame in Iter::new(payload) {
            self.process(frame, length);
        }
        self.queue_stream_limits();
    }

    fn acknowledged(&mut self, sent: Sent) {
        if let Some(control) = sent.control.get() {
            for &(id, _) in &control.reset_stream {
                self.state.reset_acked(id);
            }
        }
        for frame in sent.streams {
            self.state.received_ack_of(frame);
        }
    }

    fn lost(&mut self, sent: Sent) {
        self.pending |= sent.control;
        for frame in sent.streams {
            self.state.retransmit(frame);
        }
    }

    fn reports_done(&mut self) {
        self.queue_stream_limits();
    }

    #[cfg(not(feature = "quinn_0_9"))]
    fn send_datagram(&mut self, data: &[u8]) -> bool {
        let conn = self.connection();
        let data = Bytes::copy_from_slice(data);
        Datagrams { conn }.send(data, false).is_ok()
    }

    #[cfg(feature = "quinn_0_9")]
    fn send_datagram(&mut self, data: &[u8]) -> bool {
        let conn = self.connection();
        Datagrams { conn }
            .send(Bytes::copy_from_slice(data))
            .is_ok()
    }

    fn receive_datagram(&mut self, mut see: impl FnMut(&[u8])) -> bool {
        let conn = self.connection();
        let datagram = Datagrams { conn }.recv();
        datagram.as_deref().map(&mut see).is_some()
    }
}
