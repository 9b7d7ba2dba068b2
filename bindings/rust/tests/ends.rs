//! Two ends, whose payloads are handed over as each test says.

#![cfg(not(miri))] // it calls the library

mod common;

use common::{stream_id, varint, Result};
use quic_streams::{
    Config, ConfigError, Dir, Emit, Event, Limits, ReadError, ReceiveError, Received,
    SendDatagramError, SettleError, Side, StreamError, StreamId, StreamsState, TransportErrorCode,
    VarInt, VarIntBoundsExceeded, WriteError,
};

fn ends() -> Result<(StreamsState, StreamsState)> {
    let config = Config::default();
    let mut made = [Side::Client, Side::Server].map(|side| StreamsState::new(side, &config));
    for end in made.iter_mut().flatten() {
        end.set_params(&Limits::of(&config))?;
    }
    let [a, b] = made;
    Ok((a?, b?))
}

/// Hands all that is due over, and acknowledges it. The answer is how many payloads there were.
fn exchange(from: &mut StreamsState, to: &mut StreamsState) -> Result<usize> {
    let mut count = 0;
    let mut packet = [0; 1200];
    while let Some(payload) = from.emit(&mut packet, Emit::default())? {
        assert_eq!(to.receive(&packet[..payload.len])?, Received::All);
        from.acked(payload.token)?;
        count += 1;
    }
    Ok(count)
}

#[test]
fn an_end_may_move_to_another_thread() -> Result<()> {
    let (mut a, _) = ends()?;
    let id = a.open(Dir::Bi)?.unwrap();
    let written = std::thread::spawn(move || a.send_stream(id).write(b"hello")).join();
    assert_eq!(written.unwrap(), Ok(5));
    Ok(())
}

#[test]
fn a_payload_is_settled_once() -> Result<()> {
    let (mut a, _) = ends()?;
    let id = a.open(Dir::Uni)?.unwrap();
    a.send_stream(id).write(b"hello")?;
    let mut packet = [0; 100];
    let payload = a.emit(&mut packet, Emit::default())?.unwrap();
    assert_eq!(&packet[..payload.len], b"\x0a\x02\x05hello");
    assert!(!payload.ends);
    a.lost(payload.token)?;
    assert_eq!(a.acked(payload.token), Err(SettleError::UnknownToken));
    let again = a.emit(&mut packet, Emit::default())?.unwrap();
    assert_ne!(again.token, payload.token);
    assert_eq!(&packet[..again.len], b"\x0a\x02\x05hello");
    Ok(())
}

#[test]
fn much_goes_through() -> Result<()> {
    let (mut a, mut b) = ends()?;
    let id = a.open(Dir::Uni)?.unwrap();
    let text: Vec<u8> = (0..3_000_000u32).map(|at| (at % 251) as u8).collect();
    let (mut left, mut read) = (text.as_slice(), Vec::new());
    let mut buffer = [0; 5000];
    loop {
        match a.send_stream(id).write(left) {
            Ok(count) => left = &left[count..],
            Err(WriteError::Blocked) => {}
            Err(error) => return Err(error.into()),
        }
        if left.is_empty() {
            a.send_stream(id).finish()?;
        }
        exchange(&mut a, &mut b)?;
        b.accept(Dir::Uni)?;
        let end = loop {
            match b.recv_stream(id).read(&mut buffer) {
                Ok(Some(count)) => read.extend_from_slice(&buffer[..count]),
                Ok(None) => break true,
                Err(ReadError::Blocked) => break false,
                Err(error) => return Err(error.into()),
            }
        };
        if end {
            break;
        }
        exchange(&mut b, &mut a)?;
    }
    assert!(read == text);
    Ok(())
}

#[test]
fn streams_end_early() -> Result<()> {
    let (mut a, mut b) = ends()?;
    let id = a.open(Dir::Bi)?.unwrap();
    a.send_stream(id).write(b"hello")?;
    exchange(&mut a, &mut b)?;
    assert_eq!(b.poll(), Some(Event::Opened { dir: Dir::Bi }));
    assert_eq!(b.accept(Dir::Bi), Ok(Some(id)));
    b.recv_stream(id).stop(varint(7))?;
    exchange(&mut b, &mut a)?;
    let stopped = Event::Stopped {
        id,
        error_code: varint(7),
    };
    assert_eq!(a.poll(), Some(stopped));
    assert_eq!(a.send_stream(id).stopped()?, Some(varint(7)));
    assert_eq!(
        a.send_stream(id).write(b"more"),
        Err(WriteError::Stopped(varint(7)))
    );
    b.send_stream(id).reset(varint(9))?;
    exchange(&mut b, &mut a)?;
    assert_eq!(a.recv_stream(id).received_reset()?, Some(varint(9)));
    assert_eq!(
        a.recv_stream(id).received_reset(),
        Err(StreamError::ClosedStream)
    );
    Ok(())
}

#[test]
fn a_stop_is_reported_while_no_limit_leaves_room() -> Result<()> {
    let mut limits = Limits::of(&Config::default());
    limits.initial_max_data = varint(5);
    let mut a = StreamsState::new(Side::Client, &Config::default())?;
    a.set_params(&limits)?;
    let id = a.open(Dir::Uni)?.unwrap();
    assert_eq!(a.send_stream(id).write(b"hello world"), Ok(5));
    assert_eq!(a.send_stream(id).write(b" "), Err(WriteError::Blocked));
    a.on_stop_sending(id, varint(7))?;
    let stopped = Err(WriteError::Stopped(varint(7)));
    assert_eq!(a.send_stream(id).write(b" "), stopped);
    a.close();
    assert_eq!(a.send_stream(id).write(b" "), stopped);
    assert_eq!(a.send_stream(id).reset(varint(7)), Ok(()));
    Ok(())
}

#[test]
fn the_peers_stream_limits_are_at_most_2_60() -> Result<()> {
    let mut limits = Limits::of(&Config::default());
    let mut a = StreamsState::new(Side::Client, &Config::default())?;
    limits.initial_max_streams_uni = varint((1 << 60) + 1);
    assert_eq!(a.set_params(&limits), Err(ConfigError::OutOfRange));
    assert_eq!(a.open(Dir::Uni)?, None);
    limits.initial_max_streams_uni = varint(1 << 60);
    assert_eq!(a.set_params(&limits), Ok(()));
    assert_eq!(a.open(Dir::Uni)?, Some(stream_id(2)));
    Ok(())
}

#[test]
fn datagrams() -> Result<()> {
    let (mut a, mut b) = ends()?;
    a.send_datagram(b"news", false)?;
    a.send_datagram(b"", false)?;
    let long = [0; 1201];
    assert_eq!(
        a.send_datagram(&long, false),
        Err(SendDatagramError::TooLarge)
    );
    exchange(&mut a, &mut b)?;
    assert_eq!(b.poll(), Some(Event::DatagramReceived));
    assert_eq!(b.recv_datagram().as_deref(), Some(&b"news"[..]));
    assert_eq!(b.recv_datagram().as_deref(), Some(&b""[..]));
    assert_eq!(b.recv_datagram(), None);
    Ok(())
}

#[test]
fn a_peer_that_breaks_the_protocol_is_told_so() -> Result<()> {
    let (_, mut b) = ends()?;
    let error = match b.receive(b"\x0a\x03\x01x") {
        Err(ReceiveError::Transport(error)) => error,
        other => panic!("a stream that only this end may write: {other:?}"),
    };
    assert_eq!(error.code, TransportErrorCode::STREAM_STATE_ERROR);
    assert!(!error.reason.is_empty());
    assert!(error.to_string().contains(&error.reason));
    Ok(())
}

#[test]
fn numbers_above_their_bounds_are_refused() -> Result<()> {
    assert_eq!(VarInt::from_u64(1 << 62), Err(VarIntBoundsExceeded));
    let mut config = Config::default();
    config.max_remote_uni = varint((1 << 60) + 1);
    let refused = StreamsState::new(Side::Client, &config).err();
    assert_eq!(refused, Some(ConfigError::OutOfRange));
    let (mut a, _) = ends()?;
    let id = a.open(Dir::Uni)?.unwrap();
    assert_eq!(a.send_stream(id).reset(VarInt::MAX), Ok(()));
    let unknown = StreamId::from(VarInt::MAX);
    assert_eq!(
        a.send_stream(unknown).write(b"x"),
        Err(WriteError::ClosedStream)
    );
    a.close();
    assert_eq!(a.open(Dir::Uni)?, None);
    Ok(())
}

#[test]
fn frames_are_taken_one_by_one() -> Result<()> {
    let (_, mut b) = ends()?;
    let id = stream_id(2);
    b.on_stream(id, 3, b"lo", true, 1200)?;
    b.on_stream(id, 0, b"hel", false, 1200)?;
    b.on_datagram(b"news")?;
    assert_eq!(b.recv_datagram().as_deref(), Some(&b"news"[..]));
    assert_eq!(b.accept(Dir::Uni), Ok(Some(id)));
    let mut text = [0; 3];
    let mut stream = b.recv_stream(id);
    assert_eq!(stream.read_into(&mut text, false)?, Some((3, 0)));
    assert_eq!(&text, b"hel");
    assert_eq!(
        stream.read_into(&mut text, true),
        Err(ReadError::IllegalOrderedRead)
    );
    assert_eq!(stream.read_into(&mut text, false)?, Some((2, 3)));
    assert_eq!(stream.read_into(&mut text, false)?, None);
    let next = stream_id(6);
    b.on_reset_stream(next, varint(9), varint(0))?;
    assert_eq!(b.accept(Dir::Uni), Ok(Some(next)));
    assert_eq!(b.recv_stream(next).received_reset()?, Some(varint(9)));
    Ok(())
}

#[test]
fn frames_of_limits_and_stops_reach_the_send_half() -> Result<()> {
    let mut a = StreamsState::new(Side::Client, &Config::default())?;
    let mut limits = Limits::default();
    limits.initial_max_data = varint(4);
    a.set_params(&limits)?;
    assert_eq!(a.open(Dir::Uni)?, None);
    a.on_max_streams(Dir::Uni, 1)?;
    assert_eq!(a.poll(), Some(Event::Available { dir: Dir::Uni }));
    let id = a.open(Dir::Uni)?.unwrap();
    let blocked = Err(WriteError::Blocked);
    assert_eq!(a.send_stream(id).write(b"hello"), blocked);
    a.on_max_stream_data(id, 5)?;
    assert_eq!(a.poll(), Some(Event::Writable { id }));
    assert_eq!(a.send_stream(id).write(b"hello")?, 4);
    assert_eq!(a.send_stream(id).write(b"o"), blocked);
    a.on_max_data(varint(6))?;
    assert_eq!(a.poll(), Some(Event::Writable { id }));
    assert_eq!(a.send_stream(id).write(b"o!")?, 1);
    a.on_stop_sending(id, varint(8))?;
    assert_eq!(
        a.poll(),
        Some(Event::Stopped {
            id,
            error_code: varint(8)
        })
    );
    Ok(())
}

#[test]
fn a_frame_that_breaks_the_protocol_is_refused() -> Result<()> {
    let (_, mut b) = ends()?;
    let codes = [
        // STREAM_STATE_ERROR: a stream that only this end may write.
        (b.on_stream(stream_id(3), 0, b"x", false, 1), 5),
        // FRAME_ENCODING_ERROR: no variable-length integer is as large.
        // FLOW_CONTROL_ERROR: far above what was permitted.
        (b.on_stream(stream_id(2), 1 << 61, b"x", false, 1), 3),
    ];
    for (answer, code) in codes {
        assert!(
            matches!(answer, Err(ReceiveError::Transport(error)) if u64::from(error.code) == code)
        );
    }
    Ok(())
}
