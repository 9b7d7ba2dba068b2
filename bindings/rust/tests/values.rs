//! Numbers, ids, codes and errors, which need no library.

use quic_streams::*;
use std::collections::HashSet;
use std::convert::TryFrom;
use std::error::Error;
use std::io;

#[test]
fn a_varint_is_below_2_to_the_62() {
    assert_eq!(VarInt::MAX.into_inner(), 0x3fff_ffff_ffff_ffff);
    assert_eq!(VarInt::from_u64(VarInt::MAX.into()), Ok(VarInt::MAX));
    assert_eq!(VarInt::try_from(1u64 << 62), Err(VarIntBoundsExceeded));
    assert_eq!(VarInt::try_from(7usize), Ok(VarInt::from_u32(7)));
    assert_eq!(VarInt::try_from(1usize << 62), Err(VarIntBoundsExceeded));
    assert_eq!(VarInt::try_from(7u128), Ok(VarInt::from_u32(7)));
    for number in [1u128 << 62, 1 << 64, u128::MAX] {
        assert_eq!(VarInt::try_from(number), Err(VarIntBoundsExceeded));
    }
    assert_eq!(VarInt::from(7u8), VarInt::from(7u16));
    assert_eq!(VarInt::from(7u32), VarInt::from_u32(7));
    assert_eq!(format!("{0} {0:?}", VarInt::from_u32(7)), "7 7");
    assert!(!VarIntBoundsExceeded.to_string().is_empty());
}

// The four kinds of streams (RFC 9000 section 2.1, table 1).
#[test]
fn the_least_bits_of_an_id_are_its_initiator_and_direction() {
    for (number, initiator, dir, text) in [
        (0, Side::Client, Dir::Bi, "client bidirectional stream 3"),
        (1, Side::Server, Dir::Bi, "server bidirectional stream 3"),
        (2, Side::Client, Dir::Uni, "client unidirectional stream 3"),
        (3, Side::Server, Dir::Uni, "server unidirectional stream 3"),
    ] {
        let id = StreamId::new(initiator, dir, 3);
        assert_eq!(u64::from(id), 12 + number);
        assert_eq!(StreamId::from(VarInt::from(id)), id);
        let parts = (id.initiator(), id.dir(), id.index());
        assert_eq!(parts, (initiator, dir, 3));
        assert_eq!(id.to_string(), text);
    }
    let last = StreamId::new(Side::Server, Dir::Uni, (1 << 60) - 1);
    assert_eq!(VarInt::from(last), VarInt::MAX);
}

#[test]
#[should_panic(expected = "below 2^60")]
fn an_index_is_below_2_to_the_60() {
    let _ = StreamId::new(Side::Client, Dir::Bi, 1 << 60);
}

#[test]
fn sides_and_directions() {
    assert_eq!((!Side::Client, !Side::Server), (Side::Server, Side::Client));
    assert!(Side::Client.is_client() && !Side::Client.is_server());
    assert!(Side::Server.is_server() && !Side::Server.is_client());
    assert!(Dir::iter().eq([Dir::Bi, Dir::Uni]));
}

// RFC 9000 section 20.1.
#[test]
fn codes_have_their_numbers_and_names() {
    let codes = [
        (TransportErrorCode::NO_ERROR, 0x0, "NO_ERROR"),
        (TransportErrorCode::INTERNAL_ERROR, 0x1, "INTERNAL_ERROR"),
        (
            TransportErrorCode::CONNECTION_REFUSED,
            0x2,
            "CONNECTION_REFUSED",
        ),
        (
            TransportErrorCode::FLOW_CONTROL_ERROR,
            0x3,
            "FLOW_CONTROL_ERROR",
        ),
        (
            TransportErrorCode::STREAM_LIMIT_ERROR,
            0x4,
            "STREAM_LIMIT_ERROR",
        ),
        (
            TransportErrorCode::STREAM_STATE_ERROR,
            0x5,
            "STREAM_STATE_ERROR",
        ),
        (
            TransportErrorCode::FINAL_SIZE_ERROR,
            0x6,
            "FINAL_SIZE_ERROR",
        ),
        (
            TransportErrorCode::FRAME_ENCODING_ERROR,
            0x7,
            "FRAME_ENCODING_ERROR",
        ),
        (
            TransportErrorCode::TRANSPORT_PARAMETER_ERROR,
            0x8,
            "TRANSPORT_PARAMETER_ERROR",
        ),
        (
            TransportErrorCode::CONNECTION_ID_LIMIT_ERROR,
            0x9,
            "CONNECTION_ID_LIMIT_ERROR",
        ),
        (
            TransportErrorCode::PROTOCOL_VIOLATION,
            0xa,
            "PROTOCOL_VIOLATION",
        ),
        (TransportErrorCode::INVALID_TOKEN, 0xb, "INVALID_TOKEN"),
        (
            TransportErrorCode::APPLICATION_ERROR,
            0xc,
            "APPLICATION_ERROR",
        ),
        (
            TransportErrorCode::CRYPTO_BUFFER_EXCEEDED,
            0xd,
            "CRYPTO_BUFFER_EXCEEDED",
        ),
        (
            TransportErrorCode::KEY_UPDATE_ERROR,
            0xe,
            "KEY_UPDATE_ERROR",
        ),
        (
            TransportErrorCode::AEAD_LIMIT_REACHED,
            0xf,
            "AEAD_LIMIT_REACHED",
        ),
        (TransportErrorCode::NO_VIABLE_PATH, 0x10, "NO_VIABLE_PATH"),
    ];
    for (code, number, name) in codes {
        assert_eq!(u64::from(code), number);
        assert_eq!(
            (code.to_string(), format!("{code:?}")),
            (name.into(), name.into())
        );
    }
    // handshake_failure, alert 40 (RFC 9001 section 4.8, RFC 8446 section 6)
    let alert = TransportErrorCode::crypto(40);
    assert_eq!(u64::from(alert), 0x128);
    assert_eq!(alert.to_string(), "error code 0x128");
}

/// The kinds of io::Error that errors become.
#[test]
fn errors_become_io_errors() {
    use io::ErrorKind::*;
    let code = VarInt::from_u32(5);
    let errors: Vec<(io::Error, io::ErrorKind)> = vec![
        (WriteError::Blocked.into(), WouldBlock),
        (WriteError::Stopped(code).into(), ConnectionReset),
        (WriteError::ClosedStream.into(), NotConnected),
        (WriteError::OutOfMemory.into(), io::ErrorKind::OutOfMemory),
        (FinishError::Stopped(code).into(), ConnectionReset),
        (FinishError::ClosedStream.into(), NotConnected),
        (StreamError::ClosedStream.into(), NotConnected),
        (ReadError::Blocked.into(), WouldBlock),
        (ReadError::Reset(code).into(), ConnectionReset),
        (ReadError::ClosedStream.into(), NotConnected),
        (ReadError::IllegalOrderedRead.into(), InvalidInput),
        (
            ReceiveError::OutOfMemory(3).into(),
            io::ErrorKind::OutOfMemory,
        ),
        (SettleError::UnknownToken.into(), NotFound),
        (SendDatagramError::Disabled.into(), Unsupported),
        (SendDatagramError::TooLarge.into(), InvalidInput),
        (SendDatagramError::Blocked.into(), WouldBlock),
        (ConfigError::OutOfRange.into(), InvalidInput),
        (quic_streams::OutOfMemory.into(), io::ErrorKind::OutOfMemory),
    ];
    let mut texts = HashSet::new();
    for (error, kind) in errors {
        assert_eq!(error.kind(), kind, "{error}");
        texts.insert(error.to_string());
    }
    assert!(texts.contains("stream reset by peer: error 5"));
    assert!(texts.contains("sending stopped by peer: error 5"));
    assert!(texts.contains("out of memory at byte 3 of the payload"));
}

#[test]
fn an_error_of_a_payload_has_a_source() {
    let error = ReceiveError::OutOfMemory(3);
    assert_eq!(error.source().unwrap().to_string(), "out of memory");
}

#[test]
fn a_window_bears_a_loss() {
    // 1,024 gaps, each of a packet, are a tenth of the packets in flight.
    assert_eq!(Config::window_for(1000, 10), VarInt::from_u32(10_240_000));
    assert_eq!(Config::window_for(1000, 100), VarInt::from_u32(1_024_000));
    assert!(Config::window_for(u16::MAX, 1).into_inner() > 1 << 32);
}
