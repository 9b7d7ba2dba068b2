//! A stand-in for the library: each call notes its arguments, writes distinct numbers through its pointers, and returns what
//! the test says. So a test sees each argument that the crate passes, and where each number goes that it gets back.
//!
//! It is Rust alone, so Miri, valgrind and the sanitizers of rustc see each access of the layer: memory that is lent is
//! allocated by the session, and is freed by the next call on it. The functions are unsafe by their declarations; the crate
//! under test keeps the rules of the header, which they assert where they can.

use quic_streams_sys::*;
use std::cell::RefCell;
use std::collections::VecDeque;
use std::ffi::c_void;
use std::mem::take;
use std::slice::{from_raw_parts, from_raw_parts_mut};

/// What the next call returns, and what it writes: its numbers, one after another, through its pointers in their order, and
/// its bytes, into a buffer or lent.
#[derive(Clone, Default)]
pub struct Answer {
    pub result: i32,
    pub numbers: Vec<u64>,
    pub bytes: Vec<u8>,
}

#[derive(Default)]
struct Script {
    answers: VecDeque<Answer>,
    calls: Vec<String>,
    sessions: usize,
    buffers: usize,
    version: Option<u32>,
}

thread_local! {
    static SCRIPT: RefCell<Script> = RefCell::default();
}

fn with<T>(work: impl FnOnce(&mut Script) -> T) -> T {
    SCRIPT.with(|script| work(&mut script.borrow_mut()))
}

/// The next call returns this, and writes these numbers.
pub fn will(result: i32, numbers: &[u64]) {
    will_write(result, numbers, b"");
}

/// The same, with bytes.
pub fn will_write(result: i32, numbers: &[u64], bytes: &[u8]) {
    let (numbers, bytes) = (numbers.to_vec(), bytes.to_vec());
    let answer = Answer {
        result,
        numbers,
        bytes,
    };
    with(|script| script.answers.push_back(answer));
}

/// The version from now on, in the place of 0.1.0.
pub fn will_be(version: u32) {
    with(|script| script.version = Some(version));
}

/// The calls since this was asked last, with their arguments.
pub fn calls() -> Vec<String> {
    with(|script| {
        assert!(script.answers.is_empty(), "a call was not made");
        take(&mut script.calls)
    })
}

/// How many sessions and buffers are open.
pub fn open() -> (usize, usize) {
    with(|script| (script.sessions, script.buffers))
}

// A call with these arguments was made. What it returns, or QS_OK with zeros.
fn noted(call: String) -> Answer {
    with(|script| {
        script.calls.push(call);
        script.answers.pop_front().unwrap_or_default()
    })
}

impl Answer {
    fn number(&self, at: usize) -> u64 {
        self.numbers.get(at).copied().unwrap_or(0)
    }
}

// What is behind a handle: the memory that it lends.
struct Session {
    lent: Vec<u8>,
}

// The session of a handle, which has to be open.
unsafe fn session<'a>(conn: *mut qs_conn) -> &'a mut Session {
    assert_eq!((*conn).live, 1);
    &mut *(*conn).at.cast()
}

unsafe fn bytes<'a>(data: *const u8, len: usize) -> &'a [u8] {
    if len == 0 {
        return &[];
    }
    from_raw_parts(data, len)
}

// A call on an open handle.
unsafe fn call(conn: *mut qs_conn, text: String) -> Answer {
    session(conn).lent = Vec::new();
    noted(text)
}

#[no_mangle]
extern "C" fn qs_version() -> u32 {
    with(|script| script.version.unwrap_or(0x00_01_00))
}

#[no_mangle]
unsafe extern "C" fn qs_conn_open_words(
    conn: *mut qs_conn,
    words: *const u64,
    count: usize,
) -> i32 {
    assert!((*conn).live == 0 && (*conn).at.is_null());
    let config: qs_config = read_words(words, count);
    let answer = noted(format!("conn_open {config:?}"));
    if answer.result == QS_OK {
        let lent = Vec::new();
        (*conn).live = 1;
        (*conn).at = Box::into_raw(Box::new(Session { lent })).cast();
        with(|script| script.sessions += 1);
    }
    answer.result
}

#[no_mangle]
unsafe extern "C" fn qs_conn_free(conn: *mut qs_conn) {
    if (*conn).live == 1 {
        drop(Box::from_raw((*conn).at.cast::<Session>()));
        with(|script| script.sessions -= 1);
        *conn = qs_conn::ZERO;
    }
}

#[no_mangle]
unsafe extern "C" fn qs_set_peer_limits_words(
    conn: *mut qs_conn,
    words: *const u64,
    count: usize,
) -> i32 {
    let limits: qs_peer_limits = read_words(words, count);
    call(conn, format!("set_peer_limits {limits:?}")).result
}

// Calls that take numbers and return nothing else.
macro_rules! plain {
    ($($name:ident($($argument:ident: $kind:ty),*);)*) => {$(
        #[no_mangle]
        unsafe extern "C" fn $name(conn: *mut qs_conn $(, $argument: $kind)*) -> i32 {
            let arguments: &[i128] = &[$($argument.into()),*];
            call(conn, format!("{} {arguments:?}", &stringify!($name)[3..])).result
        }
    )*};
}

plain! {
    qs_conn_close();
    qs_zero_rtt_rejected();
    qs_retransmit_all_for_0rtt();
    qs_stream_reset(id: u64, app_code: u64);
    qs_stream_stop(id: u64, app_code: u64);
    qs_stream_set_priority(id: u64, priority: i32);
    qs_stream_set_user(id: u64, user: u64);
    qs_set_send_window(window: u64);
    qs_set_receive_window(window: u64);
    qs_set_max_concurrent(dir: u32, count: u64);
    qs_acked(token: u64);
    qs_lost(token: u64);
    qs_datagram_set_max_size(size: u64);
}

// Calls that take numbers and return one; questions have a const handle.
macro_rules! asking {
    ($($pointer:tt $name:ident($($argument:ident: $kind:ty),*) -> $out:ty;)*) => {$(
        #[no_mangle]
        unsafe extern "C" fn $name(conn: *$pointer qs_conn $(, $argument: $kind)*, out: *mut $out) -> i32 {
            let arguments: &[i128] = &[$($argument.into()),*];
            let answer = call(conn as *mut qs_conn, format!("{} {arguments:?}", &stringify!($name)[3..]));
            out.write(answer.number(0) as $out);
            answer.result
        }
    )*};
}

asking! {
    mut qs_stream_open(dir: u32) -> u64;
    mut qs_stream_accept(dir: u32) -> u64;
    mut qs_stream_finish(id: u64) -> u64;
    mut qs_stream_received_reset(id: u64) -> u64;
    const qs_stream_priority(id: u64) -> i32;
    const qs_stream_stopped(id: u64) -> u64;
    const qs_stream_send_room(id: u64) -> u64;
    const qs_stream_user(id: u64) -> u64;
    const qs_datagram_max_size() -> usize;
    const qs_datagram_send_space() -> usize;
}

// An error with the first number and the bytes of an answer.
unsafe fn put_error(error: *mut qs_error, answer: &Answer) {
    let mut put = qs_error::ZERO;
    put.code = answer.number(0);
    put.reason_len = answer.bytes.len() as u64;
    let len = answer.bytes.len().min(80);
    put.reason[..len].copy_from_slice(&answer.bytes[..len]);
    error.write(put);
}

// Calls that process a frame without data.
macro_rules! frames {
    ($($name:ident($($argument:ident: $kind:ty),*);)*) => {$(
        #[no_mangle]
        unsafe extern "C" fn $name(conn: *mut qs_conn $(, $argument: $kind)*, error: *mut qs_error) -> i32 {
            let arguments: &[i128] = &[$($argument.into()),*];
            let answer = call(conn, format!("{} {arguments:?}", &stringify!($name)[3..]));
            put_error(error, &answer);
            answer.result
        }
    )*};
}

frames! {
    qs_on_reset_stream(id: u64, app_code: u64, final_size: u64);
    qs_on_stop_sending(id: u64, app_code: u64);
    qs_on_max_data(limit: u64);
    qs_on_max_stream_data(id: u64, limit: u64);
    qs_on_max_streams(dir: u32, count: u64);
}

#[no_mangle]
unsafe extern "C" fn qs_on_stream(
    conn: *mut qs_conn,
    id: u64,
    offset: u64,
    data: *const u8,
    len: usize,
    fin: u32,
    payload_len: usize,
    error: *mut qs_error,
) -> i32 {
    let data = bytes(data, len);
    let answer = call(
        conn,
        format!("on_stream {id} {offset} {data:?} {fin} {payload_len}"),
    );
    put_error(error, &answer);
    answer.result
}

#[no_mangle]
unsafe extern "C" fn qs_on_datagram(
    conn: *mut qs_conn,
    data: *const u8,
    len: usize,
    error: *mut qs_error,
) -> i32 {
    let answer = call(conn, format!("on_datagram {:?}", bytes(data, len)));
    put_error(error, &answer);
    answer.result
}

#[no_mangle]
unsafe extern "C" fn qs_stream_write(
    conn: *mut qs_conn,
    id: u64,
    data: *const u8,
    len: usize,
    written: *mut usize,
    app_code: *mut u64,
) -> i32 {
    let answer = call(conn, format!("stream_write {id} {:?}", bytes(data, len)));
    written.write(answer.number(0) as usize);
    app_code.write(answer.number(1));
    answer.result
}

#[no_mangle]
unsafe extern "C" fn qs_stream_write_fin(
    conn: *mut qs_conn,
    id: u64,
    data: *const u8,
    len: usize,
    fin: u32,
    written: *mut usize,
    app_code: *mut u64,
) -> i32 {
    let data = bytes(data, len);
    let answer = call(conn, format!("stream_write_fin {id} {data:?} {fin}"));
    written.write(answer.number(0) as usize);
    app_code.write(answer.number(1));
    answer.result
}

// A read: the bytes, how many as the first number says, then offset and code.
macro_rules! reads {
    ($($name:ident)*) => {$(
        #[no_mangle]
        unsafe extern "C" fn $name(
            conn: *mut qs_conn,
            id: u64,
            data: *mut u8,
            cap: usize,
            count: *mut usize,
            offset: *mut u64,
            app_code: *mut u64,
        ) -> i32 {
            let answer = call(conn, format!("{} {id} {cap}", &stringify!($name)[3..]));
            assert!(answer.bytes.len() <= cap);
            data.copy_from_nonoverlapping(answer.bytes.as_ptr(), answer.bytes.len());
            count.write(answer.number(0) as usize);
            offset.write(answer.number(1));
            app_code.write(answer.number(2));
            answer.result
        }
    )*};
}

reads! { qs_stream_read qs_stream_read_unordered qs_stream_read_many }

// Lends each byte of the answer as a slice of its own, in memory with another byte before it.
#[no_mangle]
unsafe extern "C" fn qs_stream_read_lent(
    conn: *mut qs_conn,
    id: u64,
    slices: *mut qs_slice,
    max: usize,
    count: *mut usize,
    offset: *mut u64,
    app_code: *mut u64,
) -> i32 {
    let answer = call(conn, format!("stream_read_lent {id} {max}"));
    let lent = &mut session(conn).lent;
    lent.push(0xff);
    lent.extend_from_slice(&answer.bytes);
    for at in 0..answer.bytes.len() {
        let memory = lent.as_ptr();
        let (start, len) = (1 + at, 1);
        slices.add(at).write(qs_slice { memory, start, len });
    }
    count.write(answer.number(0) as usize);
    offset.write(answer.number(1));
    app_code.write(answer.number(2));
    answer.result
}

#[no_mangle]
unsafe extern "C" fn qs_poll_words(conn: *mut qs_conn, words: *mut u64, count: usize) -> i32 {
    let answer = call(conn, "poll".into());
    put_words::<qs_event>(words, count, &answer);
    answer.result
}

// A struct of so many 64-bit words, as a call passes it.
unsafe fn read_words<T: Copy>(words: *const u64, count: usize) -> T {
    assert_eq!(count * 8, std::mem::size_of::<T>());
    *words.cast()
}

// A struct of so many 64-bit words takes the numbers in their order.
unsafe fn put_words<T>(out: *mut u64, count: usize, answer: &Answer) {
    assert_eq!(count * 8, std::mem::size_of::<T>());
    let words = from_raw_parts_mut(out, count);
    for (at, word) in words.iter_mut().enumerate() {
        *word = answer.number(at);
    }
}

#[no_mangle]
unsafe extern "C" fn qs_get_info_words(conn: *const qs_conn, words: *mut u64, count: usize) -> i32 {
    let answer = call(conn as *mut qs_conn, "get_info".into());
    put_words::<qs_info>(words, count, &answer);
    answer.result
}

#[no_mangle]
unsafe extern "C" fn qs_get_stats_words(
    conn: *const qs_conn,
    words: *mut u64,
    count: usize,
) -> i32 {
    let answer = call(conn as *mut qs_conn, "get_stats".into());
    put_words::<qs_stats>(words, count, &answer);
    answer.result
}

#[no_mangle]
unsafe extern "C" fn qs_get_due_words(conn: *const qs_conn, words: *mut u64, count: usize) -> i32 {
    let answer = call(conn as *mut qs_conn, "get_due".into());
    put_words::<qs_due>(words, count, &answer);
    answer.result
}

#[no_mangle]
unsafe extern "C" fn qs_receive(
    conn: *mut qs_conn,
    payload: *const u8,
    len: usize,
    next: *mut usize,
    error: *mut qs_error,
) -> i32 {
    let payload = bytes(payload, len);
    let answer = call(conn, format!("receive {payload:?} {}", *next));
    put_error(error, &answer);
    next.write(answer.number(1) as usize);
    answer.result
}

#[no_mangle]
unsafe extern "C" fn qs_emit_words(
    conn: *mut qs_conn,
    parts: u32,
    fair: u32,
    data: *mut u8,
    cap: usize,
    words: *mut u64,
    count: usize,
) -> i32 {
    let answer = call(conn, format!("emit {parts} {fair} {cap}"));
    assert!(answer.bytes.len() <= cap);
    data.copy_from_nonoverlapping(answer.bytes.as_ptr(), answer.bytes.len());
    put_words::<qs_payload>(words, count, &answer);
    answer.result
}

#[no_mangle]
unsafe extern "C" fn qs_emit_lent_words(
    conn: *mut qs_conn,
    parts: u32,
    fair: u32,
    cap: usize,
    data: *mut *const u8,
    words: *mut u64,
    count: usize,
) -> i32 {
    let answer = call(conn, format!("emit_lent {parts} {fair} {cap}"));
    let lent = &mut session(conn).lent;
    lent.extend_from_slice(&answer.bytes);
    data.write(lent.as_ptr());
    put_words::<qs_payload>(words, count, &answer);
    answer.result
}

#[no_mangle]
unsafe extern "C" fn qs_datagram_send(
    conn: *mut qs_conn,
    data: *const u8,
    len: usize,
    drop_oldest: u32,
) -> i32 {
    let data = bytes(data, len);
    call(conn, format!("datagram_send {data:?} {drop_oldest}")).result
}

#[no_mangle]
unsafe extern "C" fn qs_datagram_recv(
    conn: *mut qs_conn,
    data: *mut u8,
    cap: usize,
    count: *mut usize,
) -> i32 {
    let answer = call(conn, format!("datagram_recv {cap}"));
    data.copy_from_nonoverlapping(answer.bytes.as_ptr(), answer.bytes.len());
    count.write(answer.number(0) as usize);
    answer.result
}

// The bytes of a buffer, which is opened if it was closed.
unsafe fn buffered<'a>(buffer: *mut qs_buffer) -> &'a mut Vec<u8> {
    if (*buffer).live == 0 {
        (*buffer).live = 1;
        (*buffer).at = Box::into_raw(Box::<Vec<u8>>::default()).cast::<c_void>();
        with(|script| script.buffers += 1);
    }
    &mut *(*buffer).at.cast()
}

// Shows the bytes of a buffer.
unsafe fn show(buffer: *mut qs_buffer) {
    let held = buffered(buffer);
    (*buffer).data = held.as_mut_ptr();
    (*buffer).len = held.len();
}

#[no_mangle]
unsafe extern "C" fn qs_buffer_reserve(buffer: *mut qs_buffer, size: usize) -> i32 {
    let answer = noted(format!("buffer_reserve {size}"));
    if answer.result == QS_OK {
        let held = buffered(buffer);
        if held.len() < size {
            held.resize(size, 0);
        }
        show(buffer);
    } else if (*buffer).live == 0 {
        (*buffer).len = 1000; // nobody may look at a closed one
    }
    answer.result
}

#[no_mangle]
unsafe extern "C" fn qs_buffer_free(buffer: *mut qs_buffer) {
    if (*buffer).live == 1 {
        drop(Box::from_raw((*buffer).at.cast::<Vec<u8>>()));
        with(|script| script.buffers -= 1);
    }
    *buffer = qs_buffer::ZERO;
}

#[no_mangle]
unsafe extern "C" fn qs_emit_buffer_words(
    conn: *mut qs_conn,
    parts: u32,
    fair: u32,
    cap: usize,
    buffer: *mut qs_buffer,
    words: *mut u64,
    count: usize,
) -> i32 {
    assert_eq!((*buffer).live, 1);
    let answer = call(conn, format!("emit_buffer {parts} {fair} {cap}"));
    *buffered(buffer) = answer.bytes.clone();
    show(buffer);
    put_words::<qs_payload>(words, count, &answer);
    answer.result
}

#[no_mangle]
unsafe extern "C" fn qs_receive_buffer(
    conn: *mut qs_conn,
    buffer: *mut qs_buffer,
    len: usize,
    next: *mut usize,
    error: *mut qs_error,
) -> i32 {
    assert_eq!((*buffer).live, 1);
    let held = buffered(buffer);
    let answer = call(
        conn,
        format!("receive_buffer {:?} {len} {}", &held[..len], *next),
    );
    if answer.result != QS_OTHER_FRAME {
        *held = vec![9; 3]; // other memory
    }
    show(buffer);
    put_error(error, &answer);
    next.write(answer.number(1) as usize);
    answer.result
}
