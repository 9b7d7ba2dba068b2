//! Datagrams (RFC 9221) of one end: which are taken, queued, dropped and written.

#![cfg(not(miri))] // it calls the library

mod one_end;

use one_end::{emit, emit_all, events, joined, put_number, Result};
use quic_streams::{
    Config, Emit, Event, Limits, ReceiveError, Received, SendDatagramError, Side, StreamsState,
    TransportErrorCode,
};

/// PROTOCOL_VIOLATION (RFC 9000 section 20.1).
const PROTOCOL_VIOLATION: TransportErrorCode = TransportErrorCode::PROTOCOL_VIOLATION;

const BLOCKED: std::result::Result<(), SendDatagramError> = Err(SendDatagramError::Blocked);

/// DATAGRAM frames alone.
const DATAGRAMS: Emit = Emit::DATAGRAMS;

/// How much may wait, and what the peer takes.
#[derive(Clone, Copy)]
struct Permits {
    receive: Option<usize>,
    send: usize,
    max: Option<usize>,
}

const LIMITS: Permits = Permits {
    receive: Some(100),
    send: 64,
    max: Some(40),
};

/// More than is ever wanted here.
const AMPLE: Permits = Permits {
    receive: Some(1 << 40),
    send: 1 << 40,
    max: Some(1 << 40),
};

fn end(permits: Permits) -> Result<StreamsState> {
    let mut config = Config::default();
    config.datagram_receive = permits.receive;
    config.datagram_send = permits.send;
    let mut made = StreamsState::new(Side::Client, &config)?;
    let mut limits = Limits::default();
    limits.max_datagram = permits.max;
    made.set_params(&limits)?;
    Ok(made)
}

/// An end in which received datagrams may count so much together.
fn receiver(window: usize) -> Result<StreamsState> {
    end(Permits {
        receive: Some(window),
        ..LIMITS
    })
}

/// An end in which datagrams that wait to be sent may count so much together.
fn sender(send: usize) -> Result<StreamsState> {
    end(Permits { send, ..LIMITS })
}

/// The next payload of at most so many bytes; empty where nothing is due that fits.
fn sends(end: &mut StreamsState, max_size: usize) -> Result<Vec<u8>> {
    let payload = emit(end, max_size, DATAGRAMS)?;
    Ok(payload.map(|(bytes, _)| bytes).unwrap_or_default())
}

/// A frame that is taken. It is told where no datagram waited before.
fn is_received(end: &mut StreamsState, content: &[u8], was_empty: bool) {
    assert_eq!(end.on_datagram(content), Ok(()));
    assert_eq!(end.poll(), was_empty.then_some(Event::DatagramReceived));
    assert_eq!(end.poll(), None);
}

fn is_violation(end: &mut StreamsState, content: &[u8]) {
    match end.on_datagram(content) {
        Err(ReceiveError::Transport(error)) => assert_eq!(error.code, PROTOCOL_VIOLATION),
        other => panic!("a datagram of {} bytes: {other:?}", content.len()),
    }
    assert_eq!(end.poll(), None);
}

/// These were received, the oldest first, and no others.
fn shows_received(end: &mut StreamsState, wanted: &[&[u8]]) {
    for content in wanted {
        assert_eq!(end.recv_datagram().as_deref(), Some(*content));
    }
    assert_eq!(end.recv_datagram(), None);
}

#[test]
fn oldest_received_go_first() -> Result<()> {
    let mut end = receiver(64)?;
    is_violation(&mut end, &[1; 33]);
    is_received(&mut end, &[2; 10], true);
    is_received(&mut end, &[3; 10], false);
    shows_received(&mut end, &[&[3; 10]]);
    Ok(())
}

// An empty datagram counts 32.
#[test]
fn received_at_the_edge_of_the_window() -> Result<()> {
    for receive in [Some(31), None] {
        let mut end = end(Permits { receive, ..LIMITS })?;
        is_violation(&mut end, b"");
        shows_received(&mut end, &[]);
    }
    let mut end = receiver(32)?;
    is_received(&mut end, b"", true);
    is_received(&mut end, b"", false);
    shows_received(&mut end, &[b""]);
    Ok(())
}

// The datagram of 10 bytes counts 42, once a longer one went for it: a window of 74 has room for an empty one too.
#[test]
fn what_was_received_counts_32_more_than_its_length() -> Result<()> {
    for (window, wanted) in [(74, &[&[3; 10][..], b""][..]), (73, &[b""])] {
        let mut end = receiver(window)?;
        is_received(&mut end, &[2; 11], true);
        is_received(&mut end, &[3; 10], false);
        is_received(&mut end, b"", false);
        shows_received(&mut end, wanted);
    }
    Ok(())
}

#[test]
fn send_under_limits() -> Result<()> {
    let mut end = end(LIMITS)?;
    assert_eq!(end.max_datagram_size(), Some(40));
    assert_eq!(end.datagram_send_buffer_space(), 32);
    let too_large = Err(SendDatagramError::TooLarge);
    assert_eq!(end.send_datagram(&[1; 33], false), too_large);
    end.send_datagram(&[2; 32], false)?;
    assert_eq!(end.datagram_send_buffer_space(), 0);
    assert_eq!(end.send_datagram(&[3], false), BLOCKED);
    end.send_datagram(&[4], true)?;
    assert_eq!(end.poll(), None);
    assert_eq!(sends(&mut end, 100)?, [0x31, 1, 4]);
    assert_eq!(events(&mut end), [Event::DatagramsUnblocked]);
    assert_eq!(sends(&mut end, 100)?, []);
    assert_eq!(end.datagram_send_buffer_space(), 32);
    Ok(())
}

// The one byte counts 33, once a longer datagram went for it: a buffer of 65 has room for an empty one too.
#[test]
fn what_is_to_be_sent_counts_32_more_than_its_length() -> Result<()> {
    for (send, beside) in [(65, Ok(())), (64, BLOCKED)] {
        let mut end = sender(send)?;
        end.send_datagram(&[2; 32], false)?;
        end.send_datagram(&[4], true)?;
        assert_eq!(end.send_datagram(b"", false), beside);
    }
    Ok(())
}

// What keeps every datagram out, of no bytes too.
#[test]
fn limits_that_refuse_all() -> Result<()> {
    let off_there = Permits {
        max: None,
        ..LIMITS
    };
    let off = Permits {
        receive: None,
        ..off_there
    };
    let short = Permits { send: 31, ..LIMITS };
    for (permits, max_size, refused) in [
        (off, None, SendDatagramError::Disabled),
        (off_there, None, SendDatagramError::Disabled),
        (short, Some(40), SendDatagramError::TooLarge),
    ] {
        let mut end = end(permits)?;
        assert_eq!(end.max_datagram_size(), max_size);
        assert_eq!(end.send_datagram(b"", true), Err(refused));
        assert!(!end.due().datagrams);
    }
    Ok(())
}

#[test]
fn send_at_the_edge_of_the_buffer() -> Result<()> {
    for (is_refused, told) in [(false, None), (true, Some(Event::DatagramsUnblocked))] {
        let mut end = sender(32)?;
        end.send_datagram(b"", false)?;
        assert_eq!(end.datagram_send_buffer_space(), 0);
        if is_refused {
            assert_eq!(end.send_datagram(b"", false), BLOCKED);
        }
        assert_eq!(sends(&mut end, 100)?, [0x31, 0]);
        assert_eq!(end.poll(), told);
        assert_eq!(end.poll(), None);
    }
    Ok(())
}

#[test]
fn make_space_for_accounts_for_new_datagram() -> Result<()> {
    let mut end = sender(74)?;
    end.send_datagram(&[1; 7], false)?;
    assert_eq!(end.datagram_send_buffer_space(), 74 - 39 - 32);
    end.send_datagram(&[2; 2], false)?;
    end.send_datagram(&[3; 4], true)?;
    // A second frame does not begin: no more than the 9 bytes of the longest head are left.
    assert_eq!(sends(&mut end, 10)?, [0x31, 2, 2, 2]);
    assert_eq!(end.datagram_send_buffer_space(), 74 - 36 - 32);
    assert_eq!(sends(&mut end, 100)?, [0x31, 4, 3, 3, 3, 3]);
    assert_eq!(end.datagram_send_buffer_space(), 74 - 32);
    Ok(())
}

// 73 wait: a buffer of as much takes both datagrams, and one of 72 does not.
#[test]
fn a_buffer_is_filled_to_its_end() -> Result<()> {
    for (send, second) in [(73, Ok(())), (72, BLOCKED)] {
        let mut end = sender(send)?;
        end.send_datagram(&[1; 7], false)?;
        assert_eq!(end.send_datagram(&[2; 2], false), second);
    }
    Ok(())
}

#[test]
fn make_space_for_accounts_for_empty_datagram_metadata() -> Result<()> {
    let mut end = end(LIMITS)?;
    end.send_datagram(b"", false)?;
    end.send_datagram(b"", false)?;
    assert_eq!(end.send_datagram(b"", false), BLOCKED);
    end.send_datagram(b"", true)?;
    assert_eq!(end.send_datagram(b"", false), BLOCKED);
    assert_eq!(sends(&mut end, 100)?, [0x31, 0, 0x31, 0]);
    assert_eq!(events(&mut end), [Event::DatagramsUnblocked]);
    Ok(())
}

#[test]
fn drop_oversized_keeps_datagrams_at_limit() -> Result<()> {
    for (is_refused, told) in [(false, None), (true, Some(Event::DatagramsUnblocked))] {
        let mut end = sender(85)?;
        end.send_datagram(&[1; 10], false)?;
        end.send_datagram(&[2; 11], false)?;
        assert_eq!(end.datagram_send_buffer_space(), 0);
        if is_refused {
            assert_eq!(end.send_datagram(b"", false), BLOCKED);
        }
        // The first call drops the longer one, and the others none.
        for (max, told) in [(10, told), (10, None), (40, None)] {
            end.set_max_datagram_size(Some(max));
            assert_eq!(end.datagram_send_buffer_space(), 85 - 42 - 32);
            assert_eq!(end.poll(), told);
        }
        let kept = [&[0x31, 10][..], &[1; 10]].concat();
        assert_eq!(sends(&mut end, 100)?, kept);
        assert_eq!(end.poll(), None);
    }
    Ok(())
}

#[test]
fn write_needs_the_room() -> Result<()> {
    let mut end = end(LIMITS)?;
    assert!(!end.due().datagrams);
    assert_eq!(sends(&mut end, 100)?, []);
    // A frame begins only where more bytes are left than the longest head has, which are 9.
    for (content, too_small, enough) in [(&b"hi"[..], 9, 10), (&[7; 20], 21, 22)] {
        end.send_datagram(content, false)?;
        assert_eq!(sends(&mut end, too_small)?, []);
        assert!(end.due().datagrams);
        let sent = sends(&mut end, enough)?;
        assert_eq!(sent, [&[0x31, content.len() as u8], content].concat());
        assert!(!end.due().datagrams);
        assert_eq!(sends(&mut end, 100)?, []);
        assert_eq!(end.receive(&sent)?, Received::All);
        shows_received(&mut end, &[content]);
    }
    Ok(())
}

/// So many bytes that a seed gives.
fn seeded(len: usize) -> Vec<u8> {
    let mut seed = 0x9e37_79b9_7f4a_7c15_u64;
    let next = || {
        seed = seed
            .wrapping_mul(0x5851_f42d_4c95_7f2d)
            .wrapping_add(0x1405_7b7e_f767_814f);
        (seed >> 56) as u8
    };
    std::iter::repeat_with(next).take(len).collect()
}

/// A DATAGRAM frame with a length (RFC 9221 section 4).
fn frame(content: &[u8]) -> Vec<u8> {
    let mut bytes = vec![0x31];
    put_number(&mut bytes, content.len() as u64);
    bytes.extend_from_slice(content);
    bytes
}

#[test]
fn no_size_up_to_65537_is_refused() -> Result<()> {
    let mut end = end(AMPLE)?;
    for size in (0..17).flat_map(|power| [(1 << power) - 1, 1 << power, (1 << power) + 1]) {
        let content = seeded(size);
        end.send_datagram(&content, false)?;
        let sent = sends(&mut end, 1 << 20)?;
        assert!(sent == frame(&content), "{size} bytes");
        end.on_datagram(&content)?;
        assert_eq!(end.receive(&sent)?, Received::All);
        for _ in 0..2 {
            assert!(
                end.recv_datagram().as_ref() == Some(&content),
                "{size} bytes"
            );
        }
        assert_eq!(end.recv_datagram(), None);
    }
    Ok(())
}

/// How many datagrams there are where many are tried. Each has 8 bytes, and counts 40.
const MANY: u64 = 65_537;
const ALL: usize = 40 * MANY as usize;

#[test]
fn no_number_up_to_65537_is_refused() -> Result<()> {
    let mut end = end(AMPLE)?;
    for number in 0..MANY {
        let content = number.to_be_bytes();
        end.send_datagram(&content, false)?;
        is_received(&mut end, &content, number == 0);
    }
    let space = end.datagram_send_buffer_space();
    assert_eq!(space, AMPLE.send - ALL - 32);
    let sent = joined(&emit_all(&mut end, 1200, DATAGRAMS)?);
    let frames = (0..MANY).flat_map(|number| frame(&number.to_be_bytes()));
    assert!(sent.into_iter().eq(frames));
    for number in 0..MANY {
        assert_eq!(end.recv_datagram(), Some(number.to_be_bytes().to_vec()));
    }
    assert_eq!(end.recv_datagram(), None);
    Ok(())
}

// A window for so many takes them all. One more takes the place of the oldest.
#[test]
fn a_window_is_filled_to_its_end() -> Result<()> {
    for more in [0, 1] {
        let mut end = receiver(ALL)?;
        for number in 0..MANY + more {
            is_received(&mut end, &number.to_be_bytes(), number == 0);
        }
        for number in more..MANY + more {
            assert_eq!(end.recv_datagram(), Some(number.to_be_bytes().to_vec()));
        }
        assert_eq!(end.recv_datagram(), None);
    }
    Ok(())
}
