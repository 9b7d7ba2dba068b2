//! Each public call, over a stand-in for the library: which call it makes, with which arguments, and where each number and
//! each byte goes that it gets back. All numbers of a test differ.

mod stand_in;

use quic_streams::*;
use quic_streams_sys as sys;
use stand_in::{calls, open, will, will_be, will_write};
use std::error::Error;
use std::io;

const ID: StreamId = StreamId::new(Side::Server, Dir::Uni, 5); // 23

fn code(number: u32) -> VarInt {
    VarInt::from_u32(number)
}

/// An endpoint, whose making is not looked at.
fn endpoint() -> StreamsState {
    let made = StreamsState::new(Side::Client, &Config::default()).expect("a stand-in is made");
    calls();
    made
}

/// Each return value leads to this result.
fn results<T: PartialEq + std::fmt::Debug>(
    expected: &[(i32, T)],
    numbers: &[u64],
    call: impl Fn(&mut StreamsState) -> T,
) {
    let mut state = endpoint();
    for (result, wanted) in expected {
        will(*result, numbers);
        assert_eq!(call(&mut state), *wanted, "of {result}");
        calls();
    }
}

#[test]
fn an_endpoint_is_opened_with_its_configuration_and_freed_once() {
    let mut config = Config::default();
    config.max_remote_uni = code(1);
    config.max_remote_bi = code(2);
    config.send_window = 3;
    config.receive_window = code(4);
    config.stream_window = code(5);
    config.datagram_receive = Some(6);
    config.datagram_send = 7;
    config.track_streams = true;
    let fields = "max_remote_uni: 1, max_remote_bidi: 2, send_window: 3, receive_window: 4, stream_window: 5";
    for (side, number) in [(Side::Client, 0), (Side::Server, 1)] {
        let made = StreamsState::new(side, &config).unwrap();
        let wanted = format!(
            "conn_open qs_config {{ side: {number}, {fields}, datagram_receive: 6, datagram_send: 7, track_streams: 1 }}"
        );
        assert_eq!(calls(), [wanted]);
        assert_eq!(open(), (1, 0));
        drop(made);
        assert_eq!(open(), (0, 0));
    }
    config.datagram_receive = None;
    config.track_streams = false;
    drop(StreamsState::new(Side::Client, &config));
    let made = &calls()[0];
    assert!(made.contains("datagram_receive: 18446744073709551615,"));
    assert!(made.ends_with("track_streams: 0 }"));
    for (result, error) in [
        (sys::QS_ERR_ARGUMENT, ConfigError::OutOfRange),
        (sys::QS_ERR_NOMEM, ConfigError::OutOfMemory),
    ] {
        will(result, &[]);
        assert_eq!(StreamsState::new(Side::Client, &config).err(), Some(error));
    }
    assert_eq!(open(), (0, 0));
    calls();
}

#[test]
fn the_peers_limits_are_passed() {
    let mut state = endpoint();
    let mut limits = Limits::default();
    limits.initial_max_data = code(1);
    limits.initial_max_streams_bidi = code(2);
    limits.initial_max_streams_uni = code(3);
    limits.initial_max_stream_data_uni = code(4);
    limits.initial_max_stream_data_bidi_local = code(5);
    limits.initial_max_stream_data_bidi_remote = code(6);
    limits.max_datagram = Some(7);
    assert_eq!(state.set_params(&limits), Ok(()));
    let wanted = "set_peer_limits qs_peer_limits { initial_max_data: 1, initial_max_streams_bidi: 2, \
        initial_max_streams_uni: 3, initial_max_stream_data_uni: 4, initial_max_stream_data_bidi_local: 5, \
        initial_max_stream_data_bidi_remote: 6, max_datagram: 7 }";
    assert_eq!(calls(), [wanted]);
    limits.max_datagram = None;
    for (result, error) in [
        (sys::QS_ERR_ARGUMENT, ConfigError::OutOfRange),
        (sys::QS_ERR_NOMEM, ConfigError::OutOfMemory),
    ] {
        will(result, &[]);
        assert_eq!(state.set_params(&limits), Err(error));
    }
    assert!(calls()[0].ends_with("max_datagram: 18446744073709551615 }"));
}

#[test]
fn the_limits_of_a_configuration_are_those_that_it_advertises() {
    let mut config = Config::default();
    config.max_remote_uni = code(1);
    config.max_remote_bi = code(2);
    config.receive_window = code(3);
    config.stream_window = code(4);
    let limits = Limits::of(&config);
    assert_eq!(limits.initial_max_streams_uni, code(1));
    assert_eq!(limits.initial_max_streams_bidi, code(2));
    assert_eq!(limits.initial_max_data, code(3));
    assert_eq!(limits.initial_max_stream_data_uni, code(4));
    assert_eq!(limits.initial_max_stream_data_bidi_local, code(4));
    assert_eq!(limits.initial_max_stream_data_bidi_remote, code(4));
    assert_eq!(limits.max_datagram, Some(1200));
    config.datagram_receive = None;
    assert_eq!(Limits::of(&config).max_datagram, None);
}

#[test]
fn calls_without_an_answer_pass_their_numbers() {
    let mut state = endpoint();
    state.close();
    state.zero_rtt_rejected();
    state.set_send_window(u64::MAX);
    state.set_receive_window(VarInt::MAX);
    assert_eq!(state.set_max_concurrent(Dir::Uni, code(8)), Ok(()));
    assert_eq!(state.set_max_concurrent(Dir::Bi, code(9)), Ok(()));
    assert_eq!(state.retransmit_all_for_0rtt(), Ok(()));
    assert_eq!(state.acked(Token::from_inner(11)), Ok(()));
    assert_eq!(state.lost(Token::from_inner(12)), Ok(()));
    state.set_max_datagram_size(Some(13));
    state.set_max_datagram_size(None);
    let wanted = [
        "conn_close []",
        "zero_rtt_rejected []",
        "set_send_window [18446744073709551615]",
        "set_receive_window [4611686018427387903]",
        "set_max_concurrent [1, 8]",
        "set_max_concurrent [0, 9]",
        "retransmit_all_for_0rtt []",
        "acked [11]",
        "lost [12]",
        "datagram_set_max_size [13]",
        "datagram_set_max_size [18446744073709551615]",
    ];
    assert_eq!(calls(), wanted);
    let memory = [(sys::QS_OK, Ok(())), (sys::QS_ERR_NOMEM, Err(OutOfMemory))];
    results(&memory, &[], StreamsState::retransmit_all_for_0rtt);
    results(&memory, &[], |state| {
        state.set_max_concurrent(Dir::Bi, code(1))
    });
    let reports = [
        (sys::QS_OK, Ok(())),
        (sys::QS_ERR_TOKEN, Err(SettleError::UnknownToken)),
        (sys::QS_ERR_NOMEM, Err(SettleError::OutOfMemory)),
    ];
    results(&reports, &[], |state| state.acked(Token::from_inner(1)));
    results(&reports, &[], |state| state.lost(Token::from_inner(1)));
}

#[test]
fn streams_are_opened_and_accepted() {
    let opened = [
        (sys::QS_OK, Ok(Some(ID))),
        (sys::QS_DONE, Ok(None)),
        (sys::QS_ERR_NOMEM, Err(OutOfMemory)),
    ];
    results(&opened, &[23], |state| state.open(Dir::Uni));
    results(&opened, &[23], |state| state.accept(Dir::Uni));
    let mut state = endpoint();
    for dir in Dir::iter() {
        assert!(state.open(dir).is_ok() && state.accept(dir).is_ok());
    }
    let wanted = [
        "stream_open [0]",
        "stream_accept [0]",
        "stream_open [1]",
        "stream_accept [1]",
    ];
    assert_eq!(calls(), wanted);
}

#[test]
fn a_stream_has_a_word_of_the_host() {
    let set = [
        (sys::QS_OK, Ok(())),
        (sys::QS_ERR_NO_STREAM, Err(StreamError::ClosedStream)),
        (sys::QS_ERR_NOMEM, Err(StreamError::OutOfMemory)),
    ];
    results(&set, &[], |state| state.set_user(ID, 1));
    let told = [(sys::QS_OK, Some(24)), (sys::QS_ERR_NO_STREAM, None)];
    results(&told, &[24], |state| state.user(ID));
    let mut state = endpoint();
    assert_eq!(state.set_user(ID, u64::MAX), Ok(()));
    assert_eq!(state.user(ID), Some(0));
    let wanted = [
        "stream_set_user [23, 18446744073709551615]",
        "stream_user [23]",
    ];
    assert_eq!(calls(), wanted);
}

#[test]
fn each_event_has_its_fields() {
    let mut state = endpoint();
    let (dir, id, error_code) = (Dir::Uni, ID, code(9));
    let events = [
        Event::Opened { dir },
        Event::Readable { id },
        Event::Writable { id },
        Event::Finished { id },
        Event::Stopped { id, error_code },
        Event::Available { dir },
        Event::DatagramReceived,
        Event::DatagramsUnblocked,
        Event::Closed { id, user: 10 },
    ];
    for (kind, event) in (1..).zip(events) {
        will(sys::QS_OK, &[kind, 1, 23, 9, 10]);
        assert_eq!(state.poll(), Some(event));
    }
    will(sys::QS_OK, &[1, 0, 0, 0, 0]);
    assert_eq!(state.poll(), Some(Event::Opened { dir: Dir::Bi }));
    will(sys::QS_DONE, &[1, 1, 1, 1, 1]);
    assert_eq!(state.poll(), None);
    assert_eq!(calls(), ["poll"; 11]);
}

#[test]
fn each_counter_has_its_field() {
    let state = endpoint();
    let numbers: Vec<u64> = (1..=21).collect();
    will(sys::QS_OK, &numbers);
    let stats = state.stats();
    for (frames, first) in [(stats.sent, 1), (stats.received, 11)] {
        assert_eq!((frames.stream, frames.reset_stream), (first, first + 1));
        assert_eq!(
            (frames.stop_sending, frames.max_data),
            (first + 2, first + 3)
        );
        assert_eq!(frames.max_stream_data, first + 4);
        assert_eq!(frames.max_streams_bidi, first + 5);
        assert_eq!(frames.max_streams_uni, first + 6);
        assert_eq!(frames.data_blocked, first + 7);
        assert_eq!(frames.stream_data_blocked, first + 8);
        assert_eq!(frames.datagram, first + 9);
    }
    assert_eq!(stats.lost_bytes, 21);
    assert_eq!(calls(), ["get_stats"]);
}

#[test]
fn each_count_of_the_state_has_its_field() {
    let state = endpoint();
    will(
        sys::QS_OK,
        &[1, 2, 3, 4, 5, 6, 7, 8, 9, 10, 11, 12, 13, 0, 1],
    );
    let info = state.info();
    assert_eq!((info.max_concurrent_bi, info.max_concurrent_uni), (1, 2));
    assert_eq!((info.max_remote_bi, info.max_remote_uni), (3, 4));
    assert_eq!((info.next_remote_bi, info.next_remote_uni), (5, 6));
    assert_eq!((info.remote_open_bi, info.remote_open_uni), (7, 8));
    assert_eq!((info.local_max_data, info.data_received), (9, 10));
    assert_eq!((info.write_limit, info.send_streams), (11, 12));
    assert_eq!(info.payloads, 13);
    assert!(!info.can_send_stream_data && info.has_pending);
    assert_eq!(calls(), ["get_info"]);
    for (at, wanted) in [
        (true, false, false),
        (false, true, false),
        (false, false, true),
    ]
    .into_iter()
    .enumerate()
    {
        let mut words = [0; 3];
        words[at] = 1;
        will(sys::QS_OK, &words);
        let due = state.due();
        assert_eq!((due.control, due.datagrams, due.streams), wanted);
    }
    assert_eq!(calls(), ["get_due"; 3]);
    assert!(format!("{state:?}").contains("payloads: 0"));
    calls();
}

#[test]
fn the_parts_of_a_payload_have_their_numbers() {
    let mut state = endpoint();
    let mut out = [0; 30];
    for (what, number) in [
        (Emit::CONTROL, 1),
        (Emit::DATAGRAMS, 2),
        (Emit::STREAMS, 4),
        (Emit::ALL, 7),
        (Emit::CONTROL | Emit::STREAMS, 5),
    ] {
        for fair in [true, false] {
            let mut what = what;
            what.fair = fair;
            will(sys::QS_DONE, &[]);
            assert_eq!(state.emit(&mut out, what), Ok(None));
            assert_eq!(calls(), [format!("emit {number} {} 30", u32::from(fair))]);
        }
    }
    let mut none = Emit::ALL;
    (none.control, none.datagrams, none.streams) = (false, false, false);
    let mut buffer = Buffer::new();
    assert_eq!(state.emit(&mut out, none), Ok(None));
    assert_eq!(state.emit_lent(9, none), Ok(None));
    assert_eq!(state.emit_buffer(&mut buffer, 9, none), Ok(None));
    assert_eq!(calls(), [""; 0]);
    assert_eq!(Emit::default(), Emit::ALL);
}

#[test]
fn a_payload_is_written() {
    let mut state = endpoint();
    let mut out = [0; 9];
    for ends in [0, 1] {
        will_write(sys::QS_OK, &[4, 5, ends], b"abcd");
        let payload = state.emit(&mut out, Emit::ALL).unwrap().unwrap();
        assert_eq!((payload.len, payload.token.into_inner()), (4, 5));
        assert_eq!((payload.ends, &out), (ends == 1, b"abcd\0\0\0\0\0"));
        assert_eq!(calls(), ["emit 7 1 9"]);
        will_write(sys::QS_OK, &[4, 6, ends], b"efghi");
        let lent = state.emit_lent(10, Emit::STREAMS).unwrap().unwrap();
        assert_eq!((lent.bytes, lent.token.into_inner()), (&b"efgh"[..], 6));
        assert_eq!(lent.ends, ends == 1);
        assert_eq!(calls(), ["emit_lent 4 1 10"]);
    }
    will(sys::QS_ERR_NOMEM, &[]);
    assert_eq!(state.emit(&mut out, Emit::ALL), Err(OutOfMemory));
    will(sys::QS_DONE, &[]);
    assert_eq!(state.emit_lent(10, Emit::ALL), Ok(None));
    will(sys::QS_ERR_NOMEM, &[]);
    assert_eq!(state.emit_lent(10, Emit::ALL), Err(OutOfMemory));
    calls();
}

#[test]
fn a_buffer_is_opened_shown_and_freed() {
    let mut state = endpoint();
    let mut buffer = Buffer::new();
    assert_eq!(buffer[..], b""[..]);
    will(sys::QS_ERR_NOMEM, &[]);
    assert_eq!(buffer.reserve(5), Err(OutOfMemory));
    assert!(buffer.is_empty() && buffer.iter_mut().next().is_none());
    buffer.reserve(3).unwrap();
    buffer[1] = 7;
    assert_eq!((&buffer[..], open()), (&[0, 7, 0][..], (1, 1)));
    assert_eq!(format!("{buffer:?}"), "Buffer([0, 7, 0])");
    assert_eq!(calls(), ["buffer_reserve 5", "buffer_reserve 3"]);
    will_write(sys::QS_OK, &[4, 5, 1], b"abcd");
    let payload = state.emit_buffer(&mut buffer, 8, Emit::DATAGRAMS).unwrap();
    let payload = payload.unwrap();
    assert_eq!((payload.len, payload.token.into_inner()), (4, 5));
    assert_eq!((payload.ends, &buffer[..]), (true, &b"abcd"[..]));
    will(sys::QS_OK, &[0, 1]);
    assert_eq!(state.receive_buffer(&mut buffer, 3), Ok(Received::All));
    assert_eq!(buffer[..], [9, 9, 9]);
    will(sys::QS_OTHER_FRAME, &[0, 2]);
    let other = Ok(Received::OtherFrame { at: 2 });
    assert_eq!(state.receive_buffer_from(&mut buffer, 3, 1), other);
    let wanted = [
        "emit_buffer 2 1 8",
        "receive_buffer [97, 98, 99] 3 0",
        "receive_buffer [9, 9, 9] 3 1",
    ];
    assert_eq!(calls(), wanted);
    drop(buffer);
    assert_eq!(open(), (1, 0));
    drop(state);
    assert_eq!(open(), (0, 0));
}

#[test]
fn a_closed_buffer_is_opened_first() {
    let mut state = endpoint();
    let mut buffer = Buffer::default();
    will(sys::QS_OK, &[]);
    will(sys::QS_DONE, &[]);
    assert_eq!(state.emit_buffer(&mut buffer, 8, Emit::ALL), Ok(None));
    assert_eq!(calls(), ["buffer_reserve 0", "emit_buffer 7 1 8"]);
    let mut buffer = Buffer::new();
    will(sys::QS_ERR_NOMEM, &[]);
    let refused = state.emit_buffer(&mut buffer, 8, Emit::ALL);
    assert_eq!(refused, Err(OutOfMemory));
    will(sys::QS_ERR_NOMEM, &[]);
    let refused = state.receive_buffer(&mut buffer, 0);
    assert_eq!(refused, Err(ReceiveError::OutOfMemory(0)));
    assert_eq!(calls(), ["buffer_reserve 0"; 2]);
}

#[test]
#[should_panic(expected = "longer than its buffer")]
fn a_payload_longer_than_its_buffer_panics() {
    let mut buffer = Buffer::new();
    let _ = endpoint().receive_buffer(&mut buffer, 1);
}

#[test]
#[should_panic(expected = "ends before this byte")]
fn an_offset_behind_a_payload_in_a_buffer_panics() {
    let mut buffer = Buffer::new();
    buffer.reserve(3).unwrap();
    let _ = endpoint().receive_buffer_from(&mut buffer, 2, 3);
}

#[test]
#[should_panic(expected = "ends before this byte")]
fn an_offset_behind_a_payload_panics() {
    let _ = endpoint().receive_from(b"ab", 3);
}

#[test]
fn the_version_is_that_of_the_library() {
    will_be(0x01_02_03);
    assert_eq!(version(), (1, 2, 3));
    will_be(0x00_01_07); // a patch version changes no declaration
    assert_eq!(version(), (0, 1, 7));
    drop(endpoint());
    assert_eq!(open(), (0, 0));
}

#[test]
#[should_panic(expected = "version 0.2")]
fn a_library_of_another_version_panics() {
    will_be(0x00_02_00);
    let _ = StreamsState::new(Side::Client, &Config::default());
}

/// The error of a frame or a payload, without its text.
fn error_of<T>(result: Result<T, ReceiveError>) -> Result<T, (u64, String)> {
    result.map_err(|error| match error {
        ReceiveError::Transport(error) => (error.code.into(), error.reason),
        ReceiveError::OutOfMemory(at) => (1000 + at as u64, String::new()),
        _ => unreachable!("a new error"),
    })
}

#[test]
fn a_payload_is_received() {
    let mut state = endpoint();
    let mut buffer = Buffer::new();
    buffer.reserve(2).unwrap();
    calls();
    assert_eq!(state.receive(b"ab"), Ok(Received::All));
    will(sys::QS_OTHER_FRAME, &[0, 2]);
    let other = Ok(Received::OtherFrame { at: 2 });
    assert_eq!(state.receive_from(b"cde", 1), other);
    assert_eq!(state.receive_from(b"fg", 2), Ok(Received::All));
    let wanted = [
        "receive [97, 98] 0",
        "receive [99, 100, 101] 1",
        "receive [102, 103] 2",
    ];
    assert_eq!(calls(), wanted);
    for result in [sys::QS_ERR_PROTOCOL, sys::QS_ERR_MALFORMED] {
        will_write(result, &[7, 4], b"why");
        assert_eq!(error_of(state.receive(b"")), Err((7, "why".into())));
        will_write(result, &[8, 4], b"not");
        let refused = state.receive_buffer(&mut buffer, 1);
        assert_eq!(error_of(refused), Err((8, "not".into())));
    }
    will(sys::QS_ERR_NOMEM, &[7, 4]);
    assert_eq!(error_of(state.receive(b"")), Err((1004, String::new())));
    will(sys::QS_ERR_NOMEM, &[7, 5]);
    let refused = state.receive_buffer(&mut buffer, 1);
    assert_eq!(error_of(refused), Err((1005, String::new())));
    calls();
}

#[test]
fn a_reason_has_at_most_eighty_bytes() {
    let mut state = endpoint();
    will_write(sys::QS_ERR_PROTOCOL, &[1], &[b'x'; 200]);
    let error = error_of(state.receive(b"")).unwrap_err();
    assert_eq!(error, (1, "x".repeat(80)));
    calls();
}

#[test]
fn an_error_of_the_peer_becomes_an_io_error() {
    let mut state = endpoint();
    will_write(sys::QS_ERR_PROTOCOL, &[4], b"why");
    let error = state.receive(b"").unwrap_err();
    let cause = match &error {
        ReceiveError::Transport(cause) => cause.clone(),
        other => panic!("{other}"),
    };
    assert_eq!(error.source().unwrap().to_string(), cause.to_string());
    for of in [io::Error::from(error), io::Error::from(cause)] {
        assert_eq!(of.kind(), io::ErrorKind::InvalidData);
        assert!(of.to_string().ends_with("STREAM_LIMIT_ERROR: why"));
    }
    calls();
}

#[test]
fn single_frames_pass_their_fields() {
    let mut state = endpoint();
    state.on_stream(ID, 1, b"a", true, 2).unwrap();
    state.on_stream(ID, 3, b"b", false, 4).unwrap();
    state.on_reset_stream(ID, code(5), code(6)).unwrap();
    state.on_stop_sending(ID, code(7)).unwrap();
    state.on_max_data(code(8)).unwrap();
    state.on_max_stream_data(ID, 9).unwrap();
    state.on_max_streams(Dir::Uni, 10).unwrap();
    state.on_max_streams(Dir::Bi, 11).unwrap();
    state.on_datagram(b"c").unwrap();
    let wanted = [
        "on_stream 23 1 [97] 1 2",
        "on_stream 23 3 [98] 0 4",
        "on_reset_stream [23, 5, 6]",
        "on_stop_sending [23, 7]",
        "on_max_data [8]",
        "on_max_stream_data [23, 9]",
        "on_max_streams [1, 10]",
        "on_max_streams [0, 11]",
        "on_datagram [99]",
    ];
    assert_eq!(calls(), wanted);
}

#[test]
fn a_frame_fails_with_its_error() {
    type Frame = fn(&mut StreamsState) -> Result<(), ReceiveError>;
    let frames: [Frame; 7] = [
        |state| state.on_stream(ID, 1, b"a", true, 2),
        |state| state.on_reset_stream(ID, code(5), code(6)),
        |state| state.on_stop_sending(ID, code(7)),
        |state| state.on_max_data(code(8)),
        |state| state.on_max_stream_data(ID, 9),
        |state| state.on_max_streams(Dir::Uni, 10),
        |state| state.on_datagram(b"c"),
    ];
    let mut state = endpoint();
    for frame in frames {
        will_write(sys::QS_ERR_PROTOCOL, &[5], b"state");
        assert_eq!(error_of(frame(&mut state)), Err((5, "state".into())));
        will(sys::QS_ERR_ARGUMENT, &[]);
        assert_eq!(error_of(frame(&mut state)).unwrap_err().0, 7);
        will(sys::QS_ERR_NOMEM, &[5]);
        assert_eq!(error_of(frame(&mut state)), Err((1000, String::new())));
    }
    calls();
}

#[test]
fn a_stream_is_written() {
    let written = [
        (sys::QS_OK, Ok(3)),
        (sys::QS_ERR_BLOCKED, Err(WriteError::Blocked)),
        (sys::QS_ERR_STOPPED, Err(WriteError::Stopped(code(9)))),
        (sys::QS_ERR_NO_STREAM, Err(WriteError::ClosedStream)),
        (sys::QS_ERR_NOMEM, Err(WriteError::OutOfMemory)),
    ];
    results(&written, &[3, 9], |state| {
        state.send_stream(ID).write(b"abcd")
    });
    let finished = [
        (sys::QS_OK, Ok(())),
        (sys::QS_ERR_STOPPED, Err(FinishError::Stopped(code(9)))),
        (sys::QS_ERR_NO_STREAM, Err(FinishError::ClosedStream)),
        (sys::QS_ERR_NOMEM, Err(FinishError::OutOfMemory)),
    ];
    results(&finished, &[9], |state| state.send_stream(ID).finish());
    let mut state = endpoint();
    assert_eq!(state.send_stream(ID).write(b"ab"), Ok(0));
    assert_eq!(state.send_stream(ID).write(b""), Ok(0));
    assert_eq!(state.send_stream(ID).finish(), Ok(()));
    let wanted = [
        "stream_write 23 [97, 98]",
        "stream_write 23 []",
        "stream_finish [23]",
    ];
    assert_eq!(calls(), wanted);
    assert_eq!(state.send_stream(ID).id(), ID);
    assert_eq!(state.recv_stream(ID).id(), ID);
}

#[test]
fn chunks_are_written_until_one_is_not_whole() {
    let mut state = endpoint();
    let mut chunks: [&[u8]; 4] = [b"ab", b"", b"cde", b"f"];
    for taken in [2, 0, 1] {
        will(sys::QS_OK, &[taken]);
    }
    let written = state.send_stream(ID).write_chunks(&mut chunks).unwrap();
    assert_eq!((written.bytes, written.chunks), (3, 2));
    assert_eq!(chunks, [&b""[..], b"", b"de", b"f"]);
    let wanted = [
        "stream_write 23 [97, 98]",
        "stream_write 23 []",
        "stream_write 23 [99, 100, 101]",
    ];
    assert_eq!(calls(), wanted);
    let mut chunks: [&[u8]; 2] = [b"ab", b"c"];
    will(sys::QS_OK, &[2]);
    will(sys::QS_ERR_BLOCKED, &[]);
    let written = state.send_stream(ID).write_chunks(&mut chunks).unwrap();
    assert_eq!((written.bytes, written.chunks), (2, 1));
    will(sys::QS_ERR_STOPPED, &[0, 4]);
    let refused = state.send_stream(ID).write_chunks(&mut chunks[1..]);
    assert_eq!(refused, Err(WriteError::Stopped(code(4))));
    assert_eq!(chunks, [&b""[..], b"c"]);
    calls();
}

#[test]
fn a_stream_is_written_and_finished() {
    let whole = |bytes, finished| {
        let mut written = Written::default();
        assert!(written.add(bytes, bytes));
        written.finished = finished;
        written
    };
    let written = [
        (sys::QS_OK, Ok(whole(4, true))),
        (sys::QS_ERR_NOMEM, Ok(whole(4, false))),
        (sys::QS_ERR_BLOCKED, Err(WriteError::Blocked)),
        (sys::QS_ERR_STOPPED, Err(WriteError::Stopped(code(9)))),
        (sys::QS_ERR_NO_STREAM, Err(WriteError::ClosedStream)),
    ];
    results(&written, &[4, 9], |state| {
        state.send_stream(ID).write_fin(b"abcd")
    });
    let mut state = endpoint();
    will(sys::QS_OK, &[3]);
    let written = state.send_stream(ID).write_fin(b"abcd").unwrap();
    assert_eq!((written.bytes, written.chunks), (3, 0));
    assert!(!written.finished);
    for data in [&b"abcd"[..], b""] {
        will(sys::QS_ERR_NOMEM, &[0]);
        let refused = state.send_stream(ID).write_fin(data);
        assert_eq!(refused, Err(WriteError::OutOfMemory));
    }
    let ended = state.send_stream(ID).write_fin(b"").unwrap();
    assert!(ended.finished && ended.bytes == 0);
    let wanted = [
        "stream_write_fin 23 [97, 98, 99, 100] 1",
        "stream_write_fin 23 [97, 98, 99, 100] 1",
        "stream_write_fin 23 [] 1",
        "stream_write_fin 23 [] 1",
    ];
    assert_eq!(calls(), wanted);
}

#[test]
fn the_last_chunk_finishes_the_stream() {
    let mut state = endpoint();
    let mut chunks: [&[u8]; 3] = [b"ab", b"", b"cde"];
    for taken in [2, 0, 3] {
        will(sys::QS_OK, &[taken]);
    }
    let mut stream = state.send_stream(ID);
    let written = stream.write_chunks_fin(&mut chunks).unwrap();
    assert_eq!((written.bytes, written.chunks), (5, 3));
    assert!(written.finished && chunks == [b""; 3]);
    let wanted = [
        "stream_write 23 [97, 98]",
        "stream_write 23 []",
        "stream_write_fin 23 [99, 100, 101] 1",
    ];
    assert_eq!(calls(), wanted);
    let mut chunks: [&[u8]; 2] = [b"ab", b"cd"];
    will(sys::QS_OK, &[1]);
    let written = stream.write_chunks_fin(&mut chunks).unwrap();
    assert_eq!((written.bytes, written.chunks), (1, 0));
    assert!(!written.finished && chunks == [&b"b"[..], b"cd"]);
    assert_eq!(calls(), ["stream_write 23 [97, 98]"]);
    for (result, taken) in [
        (sys::QS_OK, 1),
        (sys::QS_ERR_NOMEM, 2),
        (sys::QS_ERR_BLOCKED, 0),
    ] {
        let mut chunks: [&[u8]; 2] = [b"ab", b"cd"];
        will(sys::QS_OK, &[2]);
        will(result, &[taken as u64]);
        let written = stream.write_chunks_fin(&mut chunks).unwrap();
        assert_eq!((written.bytes, written.finished), (2 + taken, false));
        assert_eq!(chunks, [b"", &b"cd"[taken..]]);
    }
    calls();
    for chunks in [&mut [&b"ab"[..]][..], &mut [b"cd", b"ef"]] {
        will(sys::QS_ERR_STOPPED, &[0, 4]);
        let refused = stream.write_chunks_fin(chunks);
        assert_eq!(refused, Err(WriteError::Stopped(code(4))));
    }
    let ended = stream.write_chunks_fin(&mut []).unwrap();
    assert_eq!((ended.chunks, ended.finished), (0, true));
    let wanted = [
        "stream_write_fin 23 [97, 98] 1",
        "stream_write 23 [99, 100]",
        "stream_write_fin 23 [] 1",
    ];
    assert_eq!(calls(), wanted);
}

#[test]
fn the_room_of_a_stream_is_asked() {
    let room = [
        (sys::QS_OK, Ok(6)),
        (sys::QS_ERR_NO_STREAM, Err(StreamError::ClosedStream)),
    ];
    results(&room, &[6], |state| state.send_room(ID));
    results(&room, &[6], |state| state.send_stream(ID).send_room());
    let mut state = endpoint();
    state.send_room(ID).unwrap();
    state.send_stream(ID).send_room().unwrap();
    assert_eq!(calls(), ["stream_send_room [23]"; 2]);
}

#[test]
fn other_calls_on_streams_pass_their_numbers() {
    let done = [
        (sys::QS_OK, Ok(())),
        (sys::QS_ERR_NO_STREAM, Err(StreamError::ClosedStream)),
        (sys::QS_ERR_NOMEM, Err(StreamError::OutOfMemory)),
    ];
    results(&done, &[], |state| state.send_stream(ID).reset(code(3)));
    results(&done, &[], |state| state.send_stream(ID).set_priority(4));
    results(&done, &[], |state| state.recv_stream(ID).stop(code(5)));
    let asked = [
        (sys::QS_OK, Ok(Some(code(6)))),
        (sys::QS_DONE, Ok(None)),
        (sys::QS_ERR_NO_STREAM, Err(StreamError::ClosedStream)),
    ];
    results(&asked, &[6], |state| state.send_stream(ID).stopped());
    results(&asked, &[6], |state| state.recv_stream(ID).received_reset());
    let memory = [(sys::QS_ERR_NOMEM, Err(StreamError::OutOfMemory))];
    results(&memory, &[6], |state| {
        state.recv_stream(ID).received_reset()
    });
    let priority = [
        (sys::QS_OK, Ok(7)),
        (sys::QS_ERR_NO_STREAM, Err(StreamError::ClosedStream)),
    ];
    results(&priority, &[7], |state| state.send_stream(ID).priority());
    results(&priority, &[7], |state| state.priority(ID));
    results(&asked, &[6], |state| state.stopped(ID));
    let mut state = endpoint();
    state.send_stream(ID).reset(code(3)).unwrap();
    state.send_stream(ID).set_priority(-4).unwrap();
    state.recv_stream(ID).stop(code(5)).unwrap();
    state.send_stream(ID).stopped().unwrap();
    state.recv_stream(ID).received_reset().unwrap();
    state.send_stream(ID).priority().unwrap();
    let wanted = [
        "stream_reset [23, 3]",
        "stream_set_priority [23, -4]",
        "stream_stop [23, 5]",
        "stream_stopped [23]",
        "stream_received_reset [23]",
        "stream_priority [23]",
    ];
    assert_eq!(calls(), wanted);
}

const READ_ERRORS: [(i32, ReadError); 5] = [
    (sys::QS_ERR_BLOCKED, ReadError::Blocked),
    (sys::QS_ERR_RESET, ReadError::Reset(VarInt::from_u32(9))),
    (sys::QS_ERR_NO_STREAM, ReadError::ClosedStream),
    (sys::QS_ERR_ORDER, ReadError::IllegalOrderedRead),
    (sys::QS_ERR_NOMEM, ReadError::OutOfMemory),
];

#[test]
fn a_stream_is_read() {
    let mut state = endpoint();
    let mut out = [0; 6];
    will_write(sys::QS_OK, &[3, 8, 9], b"abc");
    assert_eq!(state.recv_stream(ID).read(&mut out), Ok(Some(3)));
    assert_eq!(&out, b"abc\0\0\0");
    for (ordered, call) in [(true, "stream_read"), (false, "stream_read_unordered")] {
        calls();
        will_write(sys::QS_OK, &[2, 8, 9], b"de");
        let read = state.recv_stream(ID).read_into(&mut out, ordered);
        assert_eq!(read, Ok(Some((2, 8))));
        assert_eq!(calls(), [format!("{call} 23 6")]);
        will(sys::QS_END, &[1, 8, 9]);
        let read = state.recv_stream(ID).read_into(&mut out[..1], ordered);
        assert_eq!(read, Ok(None));
        assert_eq!(calls(), [format!("{call} 23 1")]);
        for (result, error) in READ_ERRORS {
            will(result, &[1, 8, 9]);
            let read = state.recv_stream(ID).read_into(&mut out, ordered);
            assert_eq!(read, Err(error));
        }
    }
    assert_eq!(&out, b"dec\0\0\0");
    calls();
}

#[test]
fn a_stream_is_read_of_several_frames() {
    let mut state = endpoint();
    let mut out = [0; 6];
    for (result, next) in [
        (sys::QS_OK, Next::More),
        (sys::QS_DONE, Next::Blocked),
        (sys::QS_END, Next::Finished),
    ] {
        will_write(result, &[3, 8, 9], b"abc");
        let read = state.recv_stream(ID).read_many(&mut out).unwrap();
        assert_eq!((read.count, read.offset, read.next), (3, 8, next));
        assert_eq!(&out, b"abc\0\0\0");
        assert_eq!(calls(), ["stream_read_many 23 6"]);
        will_write(result, &[3, 8, 9], b"xyz");
        let mut stream = state.recv_stream(ID);
        let read = stream.read_lent().unwrap();
        let pieces: Vec<&[u8]> = read.pieces().collect();
        assert_eq!(pieces, [b"x", b"y", b"z"]);
        assert_eq!((read.offset, read.next), (8, next));
        assert!(format!("{read:?}").contains("[[120], [121], [122]]"));
        assert_eq!(calls(), ["stream_read_lent 23 64"]);
        will(result, &[0, 8, 9]);
        assert_eq!(stream.read_lent().unwrap().pieces().count(), 0);
        calls();
    }
    for (result, error) in READ_ERRORS {
        will(result, &[0, 8, 9]);
        let read = state.recv_stream(ID).read_many(&mut out);
        assert_eq!(read, Err(error.clone()));
        will(result, &[0, 8, 9]);
        assert_eq!(state.recv_stream(ID).read_lent().err(), Some(error));
    }
    calls();
}

#[test]
fn a_chunk_takes_as_much_memory_as_it_has_bytes() {
    let mut state = endpoint();
    let mut stream = state.recv_stream(ID);
    for (ordered, call) in [(true, "stream_read"), (false, "stream_read_unordered")] {
        for (most, asked) in [(0, 1), (3, 3), (70_000, 65_536), (usize::MAX, 65_536)] {
            will_write(sys::QS_OK, &[1, 8, 9], b"a");
            let chunk = stream.chunks(ordered).next(most).unwrap().unwrap();
            assert_eq!((chunk.offset, &chunk.bytes[..]), (8, &b"a"[..]));
            assert_eq!(chunk.bytes.capacity(), 1);
            assert_eq!(calls(), [format!("{call} 23 {asked}")]);
        }
        will(sys::QS_END, &[1, 8, 9]);
        assert_eq!(stream.chunks(ordered).next(3), Ok(None));
        will(sys::QS_ERR_BLOCKED, &[1, 8, 9]);
        let blocked = stream.chunks(ordered).next(3);
        assert_eq!(blocked, Err(ReadError::Blocked));
        calls();
    }
}

#[test]
#[should_panic(expected = "a read needs room")]
fn a_read_into_nothing_panics() {
    let _ = endpoint().recv_stream(ID).read(&mut []);
}

#[test]
#[should_panic(expected = "a read needs room")]
fn a_read_of_several_frames_into_nothing_panics() {
    let _ = endpoint().recv_stream(ID).read_many(&mut []);
}

#[test]
fn datagrams_are_sent() {
    let sent = [
        (sys::QS_OK, Ok(())),
        (sys::QS_ERR_DATAGRAMS_OFF, Err(SendDatagramError::Disabled)),
        (sys::QS_ERR_TOO_LARGE, Err(SendDatagramError::TooLarge)),
        (sys::QS_ERR_BLOCKED, Err(SendDatagramError::Blocked)),
        (sys::QS_ERR_NOMEM, Err(SendDatagramError::OutOfMemory)),
    ];
    results(&sent, &[], |state| state.send_datagram(b"a", false));
    let mut state = endpoint();
    state.send_datagram(b"ab", false).unwrap();
    state.send_datagram(b"c", true).unwrap();
    assert_eq!(
        calls(),
        ["datagram_send [97, 98] 0", "datagram_send [99] 1"]
    );
    let max = [(sys::QS_OK, Some(8)), (sys::QS_ERR_DATAGRAMS_OFF, None)];
    results(&max, &[8], |state| state.max_datagram_size());
    will(sys::QS_OK, &[9]);
    assert_eq!(state.datagram_send_buffer_space(), 9);
    assert_eq!(calls(), ["datagram_send_space []"]);
}

#[test]
fn datagrams_are_received() {
    let mut state = endpoint();
    will(sys::QS_DONE, &[5]);
    assert_eq!(state.recv_datagram(), None);
    will_write(sys::QS_OK, &[3], b"abc");
    let datagram = state.recv_datagram().unwrap();
    assert_eq!((&datagram[..], datagram.capacity()), (&b"abc"[..], 3));
    assert_eq!(calls(), ["datagram_recv 2048"; 2]);
    let long = [7; 3000];
    will(sys::QS_ERR_TOO_SMALL, &[3000]);
    will_write(sys::QS_OK, &[3000], &long);
    let datagram = state.recv_datagram().unwrap();
    assert_eq!((&datagram[..], datagram.capacity()), (&long[..], 3000));
    assert_eq!(calls(), ["datagram_recv 2048", "datagram_recv 3000"]);
}

#[test]
#[should_panic(expected = "returned -4")]
fn a_return_value_that_no_contract_allows_panics() {
    let state = endpoint();
    will(sys::QS_ERR_IN_USE, &[]);
    let _ = state.due();
}
