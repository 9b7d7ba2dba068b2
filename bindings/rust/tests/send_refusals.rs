//! What lack of memory leaves as it was, and that the same call then succeeds. Each session runs once with ample memory, and
//! once more with each allocation of the library refused.

#![cfg(not(miri))] // it calls the library

// The tests need a newer Rust than the crate.
#![allow(clippy::incompatible_msrv)]
// The allocator stands on the one of glibc.
#![cfg(all(target_os = "linux", target_env = "gnu"))]

mod sending;

use quic_streams::{Dir, Due, Emit, Info, Side, StreamError, Token, WriteError};
use sending::{
    available, finished, readable, stopped, stream_id, varint, writable, End, Result, CONTROL,
    ONE_FRAME, STREAMS, TEXT, WINDOW,
};
use std::fmt::Display;
use std::result;

/// `malloc` and `realloc` of this program, which refuse one request of a thread.
mod memory {
    use std::cell::Cell;
    use std::ffi::c_void;
    use std::ptr::null_mut;
    use std::thread::LocalKey;

    thread_local! {
        // Whether requests are counted now, how many there were, and which one is refused.
        static COUNTS: Cell<bool> = const { Cell::new(false) };
        static ASKED: Cell<u64> = const { Cell::new(0) };
        static REFUSED: Cell<u64> = const { Cell::new(0) };
    }

    extern "C" {
        fn __libc_malloc(size: usize) -> *mut c_void;
        fn __libc_realloc(at: *mut c_void, size: usize) -> *mut c_void;
    }

    fn set<T>(key: &'static LocalKey<Cell<T>>, value: T) {
        key.with(|cell| cell.set(value));
    }

    fn refuses() -> bool {
        if !COUNTS.with(Cell::get) {
            return false;
        }
        set(&ASKED, asked() + 1);
        asked() == REFUSED.with(Cell::get)
    }

    #[no_mangle]
    unsafe extern "C" fn malloc(size: usize) -> *mut c_void {
        if refuses() {
            return null_mut();
        }
        __libc_malloc(size)
    }

    #[no_mangle]
    unsafe extern "C" fn realloc(at: *mut c_void, size: usize) -> *mut c_void {
        if refuses() {
            return null_mut();
        }
        __libc_realloc(at, size)
    }

    /// Counts from 1 on again. The request of this number is refused; 0 is none.
    pub fn begin(refused: u64) {
        set(&ASKED, 0);
        set(&REFUSED, refused);
    }

    /// How many requests were counted.
    pub fn asked() -> u64 {
        ASKED.with(Cell::get)
    }

    /// Counts the requests of a call of the library.
    pub fn counted<T>(call: impl FnOnce() -> T) -> T {
        set(&COUNTS, true);
        let answer = call();
        set(&COUNTS, false);
        answer
    }
}

// What is told of the send side of a stream.
#[derive(Debug, PartialEq)]
struct Half {
    priority: result::Result<i32, StreamError>,
    stop_code: result::Result<Option<u64>, StreamError>,
}

// What is told of an end, and of its streams 0, 2, 6, 10 and 14.
#[derive(Debug, PartialEq)]
struct Told {
    info: Info,
    due: Due,
    halves: [Half; 5],
}

fn told_of(end: &mut End) -> Told {
    Told {
        info: end.info(),
        due: end.0.due(),
        halves: [0, 2, 6, 10, 14].map(|id| Half {
            priority: end.priority(id),
            stop_code: end.stop_code(id),
        }),
    }
}

// Makes a call, and once more where its memory was refused: then all is as it was.
fn make<T, E: Display>(
    end: &mut End,
    mut call: impl FnMut(&mut End) -> result::Result<T, E>,
) -> result::Result<T, E> {
    let before = told_of(end);
    let answer = memory::counted(|| call(end));
    match answer {
        Err(error) if error.to_string().starts_with("out of memory") => {
            assert_eq!(told_of(end), before);
            memory::counted(|| call(end))
        }
        answer => answer,
    }
}

// Has payloads written until nothing is left.
fn emit_all(end: &mut End, what: Emit, max_size: usize) -> Vec<(Vec<u8>, Token)> {
    let (mut payloads, mut buffer) = (Vec::new(), [0; 100]);
    loop {
        let before = told_of(end);
        match memory::counted(|| end.0.emit(&mut buffer[..max_size], what)) {
            Ok(None) => return payloads,
            Ok(Some(payload)) => payloads.push((buffer[..payload.len].to_vec(), payload.token)),
            Err(_) => assert_eq!(told_of(end), before),
        }
    }
}

// The same. The payloads have these frames, and each ends where a frame does.
fn send(end: &mut End, what: Emit, max_size: usize, frames: &[&[u8]]) -> Vec<Token> {
    let ends: Vec<usize> = frames
        .iter()
        .scan(0, |end, frame| {
            *end += frame.len();
            Some(*end)
        })
        .collect();
    let (mut bytes, mut tokens) = (Vec::new(), Vec::new());
    for (payload, token) in emit_all(end, what, max_size) {
        bytes.extend(payload);
        tokens.push(token);
        assert!(ends.contains(&bytes.len()));
    }
    assert_eq!(bytes, frames.concat());
    tokens
}

// Runs a session with ample memory, and once more with each of its allocations refused.
fn with_each_refused(session: fn() -> Result<()>) -> Result<()> {
    memory::begin(0);
    session()?;
    let asked = memory::asked();
    assert!(asked > 0);
    for number in 1..=asked {
        println!("allocation {number} is refused");
        memory::begin(number);
        session()?;
    }
    Ok(())
}

fn opens(end: &mut End, streams: &[(Dir, u64)]) -> Result<()> {
    for (dir, stream) in streams {
        assert_eq!(make(end, |end| end.open(*dir))?, Some(*stream));
    }
    Ok(())
}

// A client that opened five streams, and wrote on one up to its limit.
fn client_that_opened() -> Result<End> {
    let mut end = End::new(Side::Client, 0, WINDOW, 8)?;
    make(&mut end, |end| end.permit(1, 10, 4))?;
    make(&mut end, |end| end.0.on_max_streams(Dir::Uni, 4))?;
    assert_eq!(end.poll(), available(Dir::Uni));
    opens(&mut end, &[(Dir::Uni, 2), (Dir::Bi, 0)])?;
    opens(&mut end, &[(Dir::Uni, 6), (Dir::Uni, 10), (Dir::Uni, 14)])?;
    assert_eq!(make(&mut end, |end| end.open(Dir::Uni))?, None);
    assert!(!end.is_unopened(14));
    assert!(end.is_unopened(18));
    // Halves that nothing touched yet.
    make(&mut end, |end| end.0.on_max_stream_data(stream_id(0), 4))?;
    make(&mut end, |end| {
        end.0.on_stop_sending(stream_id(10), varint(1))
    })?;
    assert_eq!(end.poll(), stopped(10, 1));
    assert_eq!(end.poll(), None);
    make(&mut end, |end| end.set_priority(6, 5))?;
    assert_eq!(end.priority(6), Ok(5));
    assert_eq!(make(&mut end, |end| end.write(2, 6)), Ok(4));
    assert_eq!(end.write_limit(), 6);
    let blocked = make(&mut end, |end| end.write(2, 1));
    assert_eq!(blocked, Err(WriteError::Blocked));
    assert_eq!(end.due()?, [0x15, 2, 4]); // STREAM_DATA_BLOCKED
    assert_eq!(end.accept(Dir::Bi), None);
    Ok(end)
}

// The client writes on two more streams, up to the limit of the connection, and all limits are raised.
fn write_up_to_the_limit(end: &mut End) -> Result<()> {
    assert_eq!(make(end, |end| end.put(6, b"abcdef")), Ok(4));
    assert_eq!(end.write_limit(), 2);
    assert_eq!(make(end, |end| end.write(0, 9)), Ok(2));
    let blocked = make(end, |end| end.write(0, 1));
    assert_eq!(blocked, Err(WriteError::Blocked));
    assert_eq!(end.due()?, [0x14, 10, 0x15, 2, 4]); // DATA_BLOCKED too
    make(end, |end| end.0.on_max_data(varint(20)))?;
    assert_eq!(end.due()?, [0x15, 2, 4]);
    assert_eq!(end.write_limit(), 10);
    assert_eq!(end.poll(), writable(0));
    assert_eq!(end.poll(), None);
    make(end, |end| end.0.on_max_stream_data(stream_id(2), 8))?;
    assert_eq!(end.poll(), writable(2));
    assert_eq!(end.due()?, []);
    make(end, |end| end.finish(6))?;
    Ok(())
}

// The client permits its peer more: streams, bytes in all, and bytes on a stream that it reads.
fn permit_more(end: &mut End) -> Result<()> {
    make(end, |end| end.0.set_max_concurrent(Dir::Uni, varint(40)))?;
    make(end, |end| end.0.set_max_concurrent(Dir::Bi, varint(30)))?;
    let info = end.info();
    assert_eq!((info.remote_open_bi, info.remote_open_uni), (0, 0));
    end.0.set_receive_window(varint(WINDOW + 8));
    assert_eq!(end.info().local_max_data, WINDOW + 8);
    let bytes = &TEXT[..8];
    make(end, |end| end.0.on_stream(stream_id(0), 0, bytes, false, 8))?;
    assert_eq!(end.poll(), readable(0));
    let mut read = [0; 8];
    let count = make(end, |end| {
        let mut stream = end.0.recv_stream(stream_id(0));
        stream.read(&mut read)
    });
    assert_eq!(count, Ok(Some(8)));
    assert_eq!(read, bytes);
    assert_eq!(end.info().local_max_data, WINDOW + 16);
    Ok(())
}

const OF_SIX: &[u8] = b"\x0b\x06\x04abcd";
const OF_TWO: &[u8] = b"\x0a\x02\x04thir";
const OF_ZERO: &[u8] = b"\x0a\x00\x02th";

// The client's frames are sent, one is lost and sent again, and most is acknowledged.
fn send_and_ack(end: &mut End) -> Result<()> {
    send(end, STREAMS, 100, &[OF_SIX, OF_TWO, OF_ZERO]);
    assert!(!end.can_send_data());
    make(end, |end| end.0.retransmit_all_for_0rtt())?;
    let again = send(end, STREAMS, ONE_FRAME, &[OF_SIX, OF_ZERO, OF_TWO]);
    assert!(!end.can_send_data());
    assert_eq!(again.len(), 3);
    let (of_six, of_two) = (again[0], again[2]);
    make(end, |end| end.0.lost(of_two))?;
    let of_two = send(end, STREAMS, 100, &[OF_TWO]);
    end.0.set_send_window(10);
    assert_eq!(end.write_limit(), 0);
    make(end, |end| end.0.acked(of_two[0]))?;
    assert_eq!(end.write_limit(), 4);
    make(end, |end| end.0.acked(of_six))?;
    assert_eq!(end.poll(), finished(6));
    assert_eq!(end.poll(), None);
    Ok(())
}

const FRAMES_OF_CONTROL: [&[u8]; 5] = [
    &[0x04, 2, 7, 4],             // RESET_STREAM
    &[0x10, 0x80, 0x10, 0, 0x10], // MAX_DATA
    &[0x11, 0, 16],               // MAX_STREAM_DATA
    &[0x12, 30],                  // MAX_STREAMS
    &[0x13, 40],
];

fn refused_calls() -> Result<()> {
    let mut end = client_that_opened()?;
    write_up_to_the_limit(&mut end)?;
    permit_more(&mut end)?;
    send_and_ack(&mut end)?;
    assert_eq!(end.write_limit(), 8);
    make(&mut end, |end| {
        end.0.on_stop_sending(stream_id(2), varint(7))
    })?;
    assert_eq!(end.poll(), stopped(2, 7));
    assert_eq!(end.stop_code(2), Ok(Some(7)));
    make(&mut end, |end| end.reset(2, 7))?;
    // All of it is lost, and sent again.
    for token in send(&mut end, CONTROL, 100, &FRAMES_OF_CONTROL) {
        make(&mut end, |end| end.0.lost(token))?;
    }
    let again = send(&mut end, CONTROL, 100, &FRAMES_OF_CONTROL);
    assert!(!end.info().has_pending);
    for token in again {
        make(&mut end, |end| end.0.acked(token))?;
    }
    assert_eq!(end.priority(2), Err(StreamError::ClosedStream));
    Ok(())
}

#[test]
fn refused_calls_change_nothing_and_then_succeed() -> Result<()> {
    with_each_refused(refused_calls)
}

// A client that stopped nine streams of its peer, and read a byte of nine others: each is to be told in three bytes.
fn client_with_entries() -> Result<(End, Vec<Vec<u8>>)> {
    let (mut end, mut frames) = (End::new(Side::Client, 9, WINDOW, 8)?, Vec::new());
    for number in 0..9 {
        let (bi, uni) = (4 * number + 1, 4 * number + 3);
        for (dir, stream) in [(Dir::Bi, bi), (Dir::Uni, uni)] {
            let id = stream_id(stream);
            make(&mut end, |end| end.0.on_stream(id, 0, b"x", false, 1))?;
            assert_eq!(end.accept(dir), Some(stream));
        }
        let code = uni ^ 0x15;
        make(&mut end, |end| end.stop(uni, code))?;
        frames.push(vec![0x05, uni as u8, code as u8]); // STOP_SENDING
        let read = make(&mut end, |end| {
            end.0.recv_stream(stream_id(bi)).read(&mut [0])
        });
        assert_eq!(read, Ok(Some(1)));
        frames.push(vec![0x11, bi as u8, 9]); // MAX_STREAM_DATA
    }
    frames.sort();
    Ok((end, frames))
}

// All of it is sent, lost, and sent again.
fn refused_entries() -> Result<()> {
    let (mut end, frames) = client_with_entries()?;
    for _ in 0..3 {
        let payloads = emit_all(&mut end, CONTROL, 40);
        let bytes: Vec<u8> = payloads.iter().flat_map(|it| it.0.clone()).collect();
        let mut sent: Vec<&[u8]> = bytes.chunks(3).collect();
        sent.sort();
        assert_eq!(sent, frames);
        assert!(!end.info().has_pending);
        for (_, token) in payloads {
            make(&mut end, |end| end.0.lost(token))?;
        }
    }
    Ok(())
}

#[test]
fn refused_entries_change_nothing() -> Result<()> {
    with_each_refused(refused_entries)
}

// A stream that waits for the connection is finished, and then given up.
fn refused_end_and_reset() -> Result<()> {
    let mut end = End::new(Side::Client, 0, WINDOW, WINDOW)?;
    make(&mut end, |end| end.permit(1, 4, 10))?;
    opens(&mut end, &[(Dir::Bi, 0)])?;
    assert_eq!(make(&mut end, |end| end.write(0, 6)), Ok(4));
    let blocked = make(&mut end, |end| end.write(0, 1));
    assert_eq!(blocked, Err(WriteError::Blocked));
    make(&mut end, |end| end.finish(0))?;
    make(&mut end, |end| end.reset(0, 1))?;
    make(&mut end, |end| end.0.on_max_data(varint((1 << 62) - 1)))?;
    send(&mut end, CONTROL, 100, &[&[0x04, 0, 1, 4]]); // RESET_STREAM
    Ok(())
}

#[test]
fn a_refused_end_and_a_refused_reset_change_nothing() -> Result<()> {
    with_each_refused(refused_end_and_reset)
}

// A client that opened three streams, on which nothing may be written.
fn client_at_its_limits() -> Result<End> {
    let mut end = End::new(Side::Client, 0, WINDOW, WINDOW)?;
    make(&mut end, |end| end.permit(2, 0, 0))?;
    opens(&mut end, &[(Dir::Bi, 0), (Dir::Uni, 2), (Dir::Uni, 6)])?;
    Ok(end)
}

// The peer's limits are handed in, once more where memory was refused, which tells nothing.
fn give_limits(end: &mut End, data: u64, stream_data: u64) -> Result<()> {
    let before = told_of(end);
    if memory::counted(|| end.permit(2, data, stream_data)).is_err() {
        assert_eq!(told_of(end), before);
        assert_eq!(end.poll(), None);
        memory::counted(|| end.permit(2, data, stream_data))?;
    }
    Ok(())
}

fn refused_limits() -> Result<()> {
    let mut end = client_at_its_limits()?;
    give_limits(&mut end, 100, 8)?;
    for stream in [0, 2, 6] {
        assert_eq!(end.poll(), writable(stream));
    }
    assert_eq!(end.poll(), None);
    Ok(())
}

#[test]
fn refused_limits_change_nothing() -> Result<()> {
    with_each_refused(refused_limits)
}

fn refused_limits_of_streams() -> Result<()> {
    let mut end = client_at_its_limits()?;
    give_limits(&mut end, 0, 8)?;
    assert_eq!(end.poll(), None);
    make(&mut end, |end| end.0.on_max_data(varint(9)))?;
    for stream in [6, 2, 0] {
        assert_eq!(end.poll(), writable(stream));
    }
    assert_eq!(end.poll(), None);
    Ok(())
}

#[test]
fn refused_limits_make_no_stream_wait() -> Result<()> {
    with_each_refused(refused_limits_of_streams)
}
