//! Eleven tests for quinn-proto 0.11.19: each states what RFC 9000, or the documentation of the call,
//! asks for, and fails there (`docs/findings.md`). Save the file as `connection/stream_findings.rs`,
//! add `#[cfg(test)] mod stream_findings;` to `connection/mod.rs`, and run `cargo test stream_findings`.

use bytes::Bytes;

use super::spaces::{Retransmits, ThinRetransmits};
use super::stats::FrameStats;
use super::streams::{RecvStream, SendStream, StreamEvent, Streams, StreamsState, WriteError};
use super::State;
use crate::frame::{self, StreamMetaVec};
use crate::transport_parameters::TransportParameters;
use crate::{Dir, Side, StreamId, TransportErrorCode, VarInt};

/// One endpoint's streams with the control frames that wait to be sent.
struct Peer {
    streams: StreamsState,
    pending: Retransmits,
}

fn limits(connection: u32, stream: u32) -> TransportParameters {
    TransportParameters {
        initial_max_data: connection.into(),
        initial_max_streams_bidi: 4u32.into(),
        initial_max_streams_uni: 4u32.into(),
        initial_max_stream_data_uni: stream.into(),
        initial_max_stream_data_bidi_local: stream.into(),
        initial_max_stream_data_bidi_remote: stream.into(),
        ..TransportParameters::default()
    }
}

impl Peer {
    fn new(side: Side, connection_window: u32, stream_window: u32) -> Self {
        let (uni, bidi) = (4u32.into(), 4u32.into());
        let windows = (connection_window.into(), stream_window.into());
        let mut streams = StreamsState::new(side, uni, bidi, 1000, windows.0, windows.1);
        streams.set_params(&limits(1000, 1000));
        Self {
            streams,
            pending: Retransmits::default(),
        }
    }

    fn open(&mut self) -> StreamId {
        let mut streams = Streams {
            state: &mut self.streams,
            conn_state: &State::Established,
        };
        streams.open(Dir::Uni).unwrap()
    }

    fn send(&mut self, id: StreamId) -> SendStream<'_> {
        let (state, pending) = (&mut self.streams, &mut self.pending);
        SendStream {
            id,
            state,
            pending,
            conn_state: &State::Established,
        }
    }

    fn recv(&mut self, id: StreamId) -> RecvStream<'_> {
        RecvStream {
            id,
            state: &mut self.streams,
            pending: &mut self.pending,
        }
    }

    fn payload(&mut self) -> StreamMetaVec {
        self.streams
            .write_stream_frames(&mut Vec::new(), 1200, true)
    }

    fn receive(
        &mut self,
        offset: u64,
        data: &'static [u8],
        fin: bool,
    ) -> Result<(), TransportErrorCode> {
        let frame = frame::Stream {
            id: first(),
            offset,
            fin,
            data: Bytes::from_static(data),
        };
        self.streams
            .received(frame, data.len())
            .map(|_| ())
            .map_err(|error| error.code)
    }

    fn receive_reset(&mut self, final_offset: u32) -> Result<(), TransportErrorCode> {
        let frame = frame::ResetStream {
            id: first(),
            error_code: 0u32.into(),
            final_offset: final_offset.into(),
        };
        self.streams
            .received_reset(frame)
            .map(|_| ())
            .map_err(|error| error.code)
    }

    /// The MAX_DATA frame that would be sent now.
    fn max_data(&mut self) -> Vec<u8> {
        self.pending.max_data = true;
        let (mut buf, mut sent) = (Vec::new(), ThinRetransmits::default());
        let mut stats = FrameStats::default();
        self.streams
            .write_control_frames(&mut buf, &mut self.pending, &mut sent, &mut stats, 1200);
        buf
    }
}

/// The client's first unidirectional stream.
fn first() -> StreamId {
    StreamId::new(Side::Client, Dir::Uni, 0)
}

/// RFC 9000 section 2.2: each byte is delivered once, whichever mode reads it.
#[test]
fn a_byte_read_in_order_is_not_read_again_unordered() {
    let mut server = Peer::new(Side::Server, 1000, 1000);
    server.receive(0, b"abc", false).unwrap();
    server.receive(0, b"abc", false).unwrap();
    let mut stream = server.recv(first());
    let mut chunks = stream.read(true).unwrap();
    assert_eq!(&chunks.next(2).unwrap().unwrap().bytes[..], b"ab");
    drop(chunks);
    let mut chunks = stream.read(false).unwrap();
    assert_eq!(chunks.next(100).unwrap().unwrap().offset, 2);
}

/// The same change of mode after the whole stream was read: the next frame must not panic.
#[test]
fn a_repeated_frame_after_a_change_of_mode_does_not_panic() {
    let mut server = Peer::new(Side::Server, 1000, 1000);
    server.receive(0, b"a", false).unwrap();
    server.receive(0, b"a", false).unwrap();
    let mut stream = server.recv(first());
    stream.read(true).unwrap().next(1).unwrap();
    let _ = stream.read(false).unwrap().next(1);
    server.receive(0, b"a", false).unwrap();
}

/// `RecvStream::read`: an ordered read after an unordered one is an error, and no more than that.
#[test]
fn a_rejected_ordered_read_keeps_the_stream() {
    let mut server = Peer::new(Side::Server, 1000, 1000);
    server.receive(0, b"abc", false).unwrap();
    let mut stream = server.recv(first());
    stream.read(false).unwrap().next(1).unwrap();
    assert!(stream.read(true).is_err());
    assert!(stream.read(false).is_ok());
}

/// RFC 9000 section 13.3: data that was acknowledged is not sent again.
#[test]
fn a_loss_after_an_acknowledgement_sends_nothing() {
    let mut client = Peer::new(Side::Client, 1000, 1000);
    let id = client.open();
    client.send(id).write(b"abc").unwrap();
    let sent = client.payload().pop().unwrap();
    client.streams.received_ack_of(sent.clone());
    client.streams.retransmit(sent);
    // a second thread, since the call does not return
    let (done, wait) = std::sync::mpsc::channel();
    std::thread::spawn(move || done.send(client.payload().len()));
    assert_eq!(wait.recv_timeout(std::time::Duration::from_secs(5)), Ok(0));
}

/// RFC 9000 sections 4.1 and 7.4.1: once 0-RTT is rejected, the server's own limits count.
#[test]
fn a_rejection_of_0rtt_drops_the_remembered_limit() {
    let mut client = Peer::new(Side::Client, 1000, 1000);
    client.streams.set_params(&limits(500, 500));
    client.streams.zero_rtt_rejected();
    client.streams.set_params(&limits(20, 1000));
    let id = client.open();
    assert_eq!(client.send(id).write(&[0; 31]), Ok(20));
}

/// RFC 9000 section 7.4.1: the server may raise limits when it accepts 0-RTT; a blocked writer goes on.
#[test]
fn accepted_0rtt_wakes_a_blocked_stream() {
    let mut client = Peer::new(Side::Client, 1000, 1000);
    let mut streams = StreamsState::new(
        Side::Client,
        4u32.into(),
        4u32.into(),
        1000,
        1000u32.into(),
        1000u32.into(),
    );
    streams.set_params(&limits(500, 2));
    client.streams = streams;
    let id = client.open();
    assert_eq!(client.send(id).write(b"aaaa"), Ok(2));
    assert_eq!(client.send(id).write(b"aa"), Err(WriteError::Blocked));
    client.streams.set_params(&limits(1000, 1000));
    assert_eq!(client.streams.poll(), Some(StreamEvent::Writable { id }));
    assert_eq!(client.send(id).write(b"aa"), Ok(2));
}

/// RFC 9000 section 13.3, with 17.2.5: after a Retry all data is sent again, once.
#[test]
fn a_loss_before_a_retry_does_not_send_data_twice() {
    let mut client = Peer::new(Side::Client, 1000, 1000);
    let id = client.open();
    client.send(id).write(b"abcdef").unwrap();
    let sent = client.payload().pop().unwrap();
    client.streams.retransmit(sent);
    client.streams.retransmit_all_for_0rtt();
    let bytes: u64 = client
        .payload()
        .iter()
        .map(|it| it.offsets.end - it.offsets.start)
        .sum();
    assert_eq!(bytes, 6);
}

/// RFC 9000 section 4.5: data beyond the final size is a FINAL_SIZE_ERROR, also if the data comes first.
#[test]
fn a_fin_below_received_data_is_an_error() {
    let mut server = Peer::new(Side::Server, 1000, 1000);
    server.receive(0, b"abcd", false).unwrap();
    assert_eq!(
        server.receive(0, b"ab", true),
        Err(TransportErrorCode::FINAL_SIZE_ERROR)
    );
}

/// RFC 9000 section 4.5: a reset consumes credit up to its final size, once.
#[test]
fn a_stop_after_a_reset_gives_no_credit_twice() {
    let mut server = Peer::new(Side::Server, 10_000, 10_000);
    server.receive(0, &[0; 2048], false).unwrap();
    server.receive_reset(4096).unwrap();
    server.recv(first()).stop(0u32.into()).unwrap();
    assert_eq!(server.max_data(), [0x10, 0x77, 0x10]); // 10,000 + 4,096
}

/// RFC 9000 section 4.5: a second RESET_STREAM with the same final size is no error.
#[test]
fn a_repeated_reset_after_a_smaller_window_is_accepted() {
    let mut server = Peer::new(Side::Server, 1000, 1000);
    server.streams.set_receive_window(VarInt::from_u32(100));
    server.receive_reset(1000).unwrap();
    assert_eq!(server.receive_reset(1000), Ok(()));
}

/// RFC 9000 section 3.5: a stopped sender learns of it, also while the connection's window is used up.
#[test]
fn a_stopped_stream_is_stopped_before_it_is_blocked() {
    let mut client = Peer::new(Side::Client, 1000, 1000);
    let id = client.open();
    client.send(id).write(&[0; 1000]).unwrap();
    client.streams.received_stop_sending(id, 7u32.into());
    assert_eq!(
        client.send(id).write(b"a"),
        Err(WriteError::Stopped(7u32.into()))
    );
}
