//! Two sessions with small limits, whose payloads are handed over as each test says.

#![cfg(not(miri))] // it calls the library

mod common;

use common::{config, events, frames, stream_id, varint, Result};
use quic_streams::{
    Dir, Emit, Event, Limits, Next, Received, SettleError, Side, StreamError, StreamId,
    StreamsState, Token,
};
use quic_streams_sys as sys;

/// The first unidirectional stream of a client (RFC 9000 section 2.1).
const FIRST: StreamId = stream_id(2);

const UNKNOWN: Result<(), SettleError> = Err(SettleError::UnknownToken);

/// A session that permits four streams of each direction and 1000 bytes, and is permitted as much.
fn session(side: Side) -> Result<StreamsState> {
    let mut config = config(4, 1000, 1000);
    config.send_window = 1000;
    config.datagram_receive = Some(1000);
    config.datagram_send = 1000;
    let mut made = StreamsState::new(side, &config)?;
    let mut limits = Limits::of(&config);
    limits.max_datagram = Some(200);
    made.set_params(&limits)?;
    Ok(made)
}

/// A server by the calls of the header, which tell how many frames were taken, and how long a datagram is.
struct RawServer(sys::qs_conn);

impl RawServer {
    fn new() -> Self {
        let config = sys::qs_config {
            side: u64::from(sys::QS_SERVER),
            max_remote_uni: 4,
            max_remote_bidi: 4,
            send_window: 1000,
            receive_window: 1000,
            stream_window: 1000,
            datagram_receive: 1000,
            datagram_send: 1000,
            track_streams: 0,
        };
        let mut server = RawServer(sys::qs_conn::ZERO);
        let answer = unsafe { sys::qs_conn_open(&mut server.0, &config) };
        assert_eq!(answer, sys::QS_OK);
        server
    }

    /// Takes a whole payload. The answer is the offset of the first byte that was not taken.
    fn receive(&mut self, payload: &[u8]) -> usize {
        let (mut next, mut error) = (0, sys::qs_error::ZERO);
        let (at, len) = (payload.as_ptr(), payload.len());
        let answer = unsafe { sys::qs_receive(&mut self.0, at, len, &mut next, &mut error) };
        assert_eq!(answer, sys::QS_OK);
        next
    }

    /// Takes the oldest datagram into a buffer. The answer is what the call returns, and the length.
    fn datagram(&mut self, out: &mut [u8]) -> (i32, usize) {
        let mut count = 0;
        let (at, cap) = (out.as_mut_ptr(), out.len());
        let answer = unsafe { sys::qs_datagram_recv(&mut self.0, at, cap, &mut count) };
        (answer, count)
    }
}

impl Drop for RawServer {
    fn drop(&mut self) {
        unsafe { sys::qs_conn_free(&mut self.0) }
    }
}

#[test]
fn bytes_come_and_are_settled_once() -> Result<()> {
    let (mut a, mut b) = (session(Side::Client)?, session(Side::Server)?);
    assert_eq!(a.open(Dir::Uni)?, Some(FIRST));
    assert_eq!(a.send_stream(FIRST).write(b"hello")?, 5);
    a.send_stream(FIRST).finish()?;
    let mut out = [0; 100];
    let sent = a.emit(&mut out, Emit::default())?.unwrap();
    assert_eq!(a.emit(&mut [0; 100], Emit::default())?, None);
    assert_eq!(b.receive(&out[..sent.len])?, Received::All);
    assert_eq!(RawServer::new().receive(&out[..sent.len]), sent.len);
    assert_eq!(b.poll(), Some(Event::Opened { dir: Dir::Uni }));
    assert_eq!(b.accept(Dir::Uni), Ok(Some(FIRST)));
    let chunk = b.recv_stream(FIRST).chunks(true).next(100)?.unwrap();
    assert_eq!((chunk.offset, chunk.bytes.as_slice()), (0, &b"hello"[..]));
    assert_eq!(b.recv_stream(FIRST).chunks(true).next(100)?, None);
    assert_eq!(a.info().payloads, 1);
    a.acked(sent.token)?;
    assert_eq!(a.info().payloads, 0);
    assert_eq!(a.acked(sent.token), UNKNOWN);
    assert_eq!(a.lost(sent.token), UNKNOWN);
    assert_eq!(a.poll(), Some(Event::Finished { id: FIRST }));
    Ok(())
}

#[test]
fn one_read_gives_the_bytes_and_the_end() -> Result<()> {
    let (mut a, mut b) = (session(Side::Client)?, session(Side::Server)?);
    assert_eq!(a.open(Dir::Uni)?, Some(FIRST));
    a.send_stream(FIRST).write(b"hello")?;
    a.send_stream(FIRST).finish()?;
    assert_eq!(b.receive(&frames(&mut a, Emit::default())?)?, Received::All);
    assert_eq!(b.accept(Dir::Uni), Ok(Some(FIRST)));
    // Room for two pieces: the bytes come as one, and the end is told by the second read.
    let mut buffer = [0; 2 * 2048];
    let read = b.recv_stream(FIRST).read_many(&mut buffer)?;
    assert_eq!(&buffer[..read.count], b"hello");
    assert_eq!((read.offset, read.next), (0, Next::Finished));
    Ok(())
}

#[test]
fn what_was_lost_is_sent_again() -> Result<()> {
    let mut a = session(Side::Client)?;
    assert_eq!(a.open(Dir::Uni)?, Some(FIRST));
    assert_eq!(a.send_stream(FIRST).write(b"hello")?, 5);
    let (mut first, mut again) = ([0; 100], [0; 100]);
    let sent = a.emit(&mut first, Emit::default())?.unwrap();
    a.lost(sent.token)?;
    let resent = a.emit(&mut again, Emit::default())?.unwrap();
    assert_eq!(first, again);
    assert_eq!(resent.token.into_inner(), 2);
    Ok(())
}

#[test]
fn frames_and_lost_bytes_are_counted() -> Result<()> {
    let (mut a, mut b) = (session(Side::Client)?, session(Side::Server)?);
    assert_eq!(a.stats(), b.stats());
    assert_eq!(a.open(Dir::Uni)?, Some(FIRST));
    assert_eq!(a.send_stream(FIRST).write(b"hello")?, 5);
    a.send_datagram(b"news", false)?;
    a.send_datagram(b"more", false)?;
    let mut out = [0; 100];
    let sent = a.emit(&mut out, Emit::default())?.unwrap();
    assert_eq!((a.stats().sent.stream, a.stats().sent.datagram), (1, 2));
    assert_eq!(a.stats().lost_bytes, 0);
    a.lost(sent.token)?;
    assert_eq!(a.stats().lost_bytes, 5);
    let len = a.emit(&mut out, Emit::default())?.unwrap().len;
    assert_eq!((a.stats().sent.stream, a.stats().sent.datagram), (2, 2));
    assert_eq!(b.receive(&out[..len])?, Received::All);
    assert_eq!(b.stats().received.stream, 1);
    assert_eq!(b.stats().received.datagram, 0);
    // MAX_DATA of a client, then a stream that the client may not open: the frame is rejected, and counts.
    assert!(b.receive(b"\x10\x3f\x0a\x20\x00").is_err());
    assert_eq!(b.stats().received.max_data, 1);
    assert_eq!(b.stats().received.stream, 2);
    assert_eq!(b.stats().sent, a.stats().received);
    Ok(())
}

#[test]
fn payloads_are_settled_in_any_order() -> Result<()> {
    let mut a = session(Side::Client)?;
    assert_eq!(a.open(Dir::Uni)?, Some(FIRST));
    for number in 1..6 {
        assert_eq!(a.send_stream(FIRST).write(b"some")?, 4);
        let sent = a.emit_lent(100, Emit::default())?.unwrap();
        assert_eq!(sent.token.into_inner(), number);
    }
    for token in [3, 1, 5, 2, 4].map(Token::from_inner) {
        a.acked(token)?;
        assert_eq!(a.acked(token), UNKNOWN);
    }
    assert_eq!(a.info().payloads, 0);
    assert_eq!(a.emit_lent(100, Emit::default())?, None);
    assert_eq!(a.send_stream(FIRST).write(b"more")?, 4);
    let sent = a.emit_lent(100, Emit::default())?.unwrap();
    assert_eq!(sent.token.into_inner(), 6);
    assert_eq!(a.info().payloads, 1);
    assert_eq!(a.lost(Token::from_inner(7)), UNKNOWN);
    Ok(())
}

#[test]
fn datagrams_stand_before_data() -> Result<()> {
    let (mut a, mut b) = (session(Side::Client)?, session(Side::Server)?);
    assert_eq!(a.open(Dir::Uni)?, Some(FIRST));
    assert_eq!(a.send_stream(FIRST).write(b"hi")?, 2);
    a.send_datagram(b"news", false)?;
    assert!(a.due().datagrams);
    let mut out = [0; 100];
    let sent = a.emit(&mut out, Emit::default())?.unwrap();
    // DATAGRAM with a length (RFC 9221 section 4).
    assert_eq!(out[0], 0x31);
    assert_eq!(b.receive(&out[..sent.len])?, Received::All);
    let told = [Event::DatagramReceived, Event::Opened { dir: Dir::Uni }];
    assert_eq!(events(&mut b), told);
    assert_eq!(b.recv_datagram().as_deref(), Some(&b"news"[..]));
    assert_eq!(b.recv_datagram(), None);

    let (mut raw, mut news) = (RawServer::new(), [0; 4]);
    assert_eq!(raw.receive(&out[..sent.len]), sent.len);
    assert_eq!(raw.datagram(&mut []), (sys::QS_ERR_TOO_SMALL, 4));
    assert_eq!(raw.datagram(&mut news), (sys::QS_OK, 4));
    assert_eq!(&news, b"news");
    assert_eq!(raw.datagram(&mut news), (sys::QS_DONE, 0));
    Ok(())
}

#[test]
fn a_stream_that_was_not_given_is_closed() -> Result<()> {
    let mut a = session(Side::Client)?;
    let unknown = stream_id(1);
    let closed = Err(StreamError::ClosedStream);
    assert_eq!(a.send_stream(unknown).reset(varint(7)), closed);
    assert_eq!(a.recv_stream(unknown).stop(varint(7)), closed);
    a.close();
    assert_eq!(a.open(Dir::Bi)?, None);
    Ok(())
}
