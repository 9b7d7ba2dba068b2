//! What becomes of whole payloads that were acknowledged or lost.

#![cfg(not(miri))] // it calls the library

mod one_end;

use one_end::*;
use quic_streams::{Dir, Emit, Event, Side, StreamError, StreamsState, Token};

const TEXT: &[u8; 10] = b"abcdefghij";

// Control frames, and all data of a stream before those of the next.
fn one_by_one() -> Emit {
    let mut what = CONTROL | STREAMS;
    what.fair = false;
    what
}

// A client and two of its payloads in flight.
struct Sent {
    end: StreamsState,
    // Ten bytes of a stream, and all of a second.
    whole: Token,
    // Every second byte of the first stream, all of the second, and the reset of a third.
    mixed: Token,
}

// The next payload has these bytes.
fn sends(end: &mut StreamsState, what: Emit, bytes: &[u8]) -> Result<Token> {
    let (sent, token) = emit(end, 100, what)?.expect("something is due");
    assert_eq!(sent, bytes);
    Ok(token)
}

// Sends ten bytes of stream 2, each in a payload of its own.
fn send_bytes(end: &mut StreamsState) -> Result<Vec<Token>> {
    let mut tokens = Vec::new();
    for (offset, byte) in (0u8..).zip(TEXT) {
        assert_eq!(end.send_stream(stream_id(2)).write(&[*byte]), Ok(1));
        let frame = match offset {
            0 => vec![0x0a, 2, 1, *byte],
            _ => vec![0x0e, 2, offset, 1, *byte],
        };
        tokens.push(sends(end, STREAMS, &frame)?);
    }
    Ok(tokens)
}

// A client that sent ten bytes of a stream, all of a second, and that gave a third up after one byte. The data are sent
// alone first, then whole as after a Retry (RFC 9000 section 17.2.5), and what of the first is lost is sent once more.
fn client_that_sent() -> Result<Sent> {
    let mut end = client(4, WINDOW, WINDOW)?;
    permit(&mut end, 4, 100, 50)?;
    for number in [2, 6, 10] {
        assert_eq!(end.open(Dir::Uni)?, Some(stream_id(number)));
    }
    let bytes = send_bytes(&mut end)?;
    assert_eq!(end.send_stream(stream_id(6)).write(b"kl"), Ok(2));
    end.send_stream(stream_id(6)).finish()?;
    let second = sends(&mut end, STREAMS, b"\x0b\x06\x02kl")?;
    end.retransmit_all_for_0rtt()?;
    let all = b"\x0a\x02\x0aabcdefghij\x0b\x06\x02kl";
    let whole = sends(&mut end, STREAMS, all)?;
    assert_eq!(end.send_stream(stream_id(10)).write(b"m"), Ok(1));
    end.send_stream(stream_id(10)).reset(varint(7))?;
    for token in bytes.into_iter().step_by(2).chain([second]) {
        end.lost(token)?;
    }
    let part = b"\x04\x0a\x07\x01\
        \x0a\x02\x01a\x0e\x02\x02\x01c\x0e\x02\x04\x01e\x0e\x02\x06\x01g\x0e\x02\x08\x01i\
        \x0b\x06\x02kl";
    let mixed = sends(&mut end, one_by_one(), part)?;
    assert_eq!(end.poll(), None);
    Ok(Sent { end, whole, mixed })
}

#[test]
fn all_of_a_lost_payload_is_sent_again() -> Result<()> {
    let Sent { mut end, mixed, .. } = client_that_sent()?;
    assert!(!end.due().control && !end.due().streams);
    end.lost(mixed)?;
    sends(&mut end, CONTROL, &[4, 10, 7, 1])?;
    assert!(!end.due().control);
    let again = b"\x0a\x02\x01a\x0b\x06\x02kl\
        \x0e\x02\x02\x01c\x0e\x02\x04\x01e\x0e\x02\x06\x01g\x0e\x02\x08\x01i";
    sends(&mut end, STREAMS, again)?;
    assert!(!end.due().streams);
    Ok(())
}

#[test]
fn all_of_an_acknowledged_payload_is_kept_no_more() -> Result<()> {
    let Sent {
        mut end,
        whole,
        mixed,
    } = client_that_sent()?;
    end.acked(mixed)?;
    let id = stream_id(6);
    assert_eq!(end.poll(), Some(Event::Finished { id }));
    assert_eq!(end.poll(), None);
    for id in [id, stream_id(10)] {
        let priority = end.send_stream(id).priority();
        assert_eq!(priority, Err(StreamError::ClosedStream));
    }
    // What was not in it is still there to be sent again.
    end.lost(whole)?;
    let again =
        b"\x0e\x02\x01\x01b\x0e\x02\x03\x01d\x0e\x02\x05\x01f\x0e\x02\x07\x01h\x0e\x02\x09\x01j";
    sends(&mut end, STREAMS, again)?;
    assert!(!end.due().streams);
    Ok(())
}

// A server that gave up its sides of four streams of the client.
fn server_that_gave_up() -> Result<(StreamsState, Token)> {
    let mut config = config(16, WINDOW, WINDOW);
    config.send_window = 1000;
    let mut end = StreamsState::new(Side::Server, &config)?;
    permit(&mut end, 4, 100, 50)?;
    for number in [0, 4, 8, 12] {
        let id = stream_id(number);
        end.on_stream(id, 0, b"", false, 0)?;
        assert_eq!(end.accept(Dir::Bi), Ok(Some(id)));
        end.send_stream(id).reset(varint(7))?;
        end.recv_stream(id).stop(varint(9))?;
    }
    let (payload, token) = emit(&mut end, 100, CONTROL)?.expect("resets are due");
    let frames = control_frames(&payload);
    let resets = frames.iter().filter(|it| it[0] == RESET_STREAM);
    assert_eq!(resets.count(), 4);
    Ok((end, token))
}

#[test]
fn acknowledged_resets_free_their_streams() -> Result<()> {
    let (mut end, token) = server_that_gave_up()?;
    assert_eq!(end.info().send_streams, 4);
    end.acked(token)?;
    assert_eq!(end.info().send_streams, 0);
    Ok(())
}
