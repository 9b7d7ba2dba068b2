//! The trait of the workloads over the C interface of this repository.

use std::marker::PhantomData;
use std::mem::MaybeUninit;

use quic_streams_sys as sys;
use workloads::{Direction, Endpoint, Event, Limits, Reading, Side};

/// The application error code of every reset and stop.
const CODE: u64 = 7;
const DATAGRAM_BUFFER: u64 = 1 << 20;
/// The longest datagram for a packet of 1500 bytes, as quinn-proto reckons it.
const LONGEST_DATAGRAM: u64 = 1462;
const LONGEST_READ: usize = 65_536;
const SLICES: usize = 64;
const FAIR: u32 = 1;

/// A session, which is freed when it is dropped.
pub struct Session {
    conn: sys::qs_conn,
    error: sys::qs_error,
}

impl Drop for Session {
    fn drop(&mut self) {
        // SAFETY: the handle is as the library left it
        unsafe { sys::qs_conn_free(&mut self.conn) }
    }
}

/// How payloads and data that are read pass between the host and the library.
pub trait Passing {
    type Payload;

    fn payload() -> Self::Payload;
    fn bytes(payload: &Self::Payload) -> &[u8];
    fn emit(session: &mut Session, capacity: usize, payload: &mut Self::Payload) -> (i32, u64);
    fn deliver(session: &mut Session, payload: &mut Self::Payload) -> i32;
    /// Reads some of the available data, and returns what the call returned.
    fn read(session: &mut Session, id: u64, see: impl FnMut(u64, &[u8])) -> i32;
}

/// The library, called in one of two ways.
pub struct Library<P> {
    session: Session,
    passing: PhantomData<P>,
}

fn bit(direction: Direction) -> u32 {
    u32::from(direction == Direction::Unidirectional)
}

/// Whether a call found what it looked for; panics if it failed.
fn found(answer: i32) -> bool {
    assert!(
        answer == sys::QS_OK || answer == sys::QS_DONE,
        "error {answer}"
    );
    answer == sys::QS_OK
}

fn succeed(answer: i32) {
    assert_eq!(answer, sys::QS_OK);
}

/// What a read that returned no more data says.
fn reading(answer: i32) -> Reading {
    match answer {
        sys::QS_DONE | sys::QS_ERR_BLOCKED => Reading::Blocked,
        sys::QS_END => Reading::Finished,
        sys::QS_ERR_NO_STREAM | sys::QS_ERR_RESET => Reading::Closed,
        _ => panic!("error {answer}"),
    }
}

fn config(side: Side, limits: &Limits) -> sys::qs_config {
    let datagrams = limits.datagrams;
    sys::qs_config {
        side: u64::from(side == Side::Server),
        max_remote_uni: limits.unidirectional,
        max_remote_bidi: limits.bidirectional,
        send_window: limits.window,
        receive_window: limits.window,
        stream_window: limits.stream_window,
        datagram_receive: if datagrams {
            DATAGRAM_BUFFER
        } else {
            sys::QS_NONE
        },
        datagram_send: if datagrams { DATAGRAM_BUFFER } else { 0 },
        track_streams: 0,
    }
}

impl<P: Passing> Endpoint for Library<P> {
    type Payload = P::Payload;
    type Token = u64;

    fn new(side: Side, limits: &Limits) -> Self {
        let conn = sys::qs_conn::ZERO;
        let error = sys::qs_error::ZERO;
        let mut session = Session { conn, error };
        // SAFETY: a closed handle
        succeed(unsafe { sys::qs_conn_open(&mut session.conn, &config(side, limits)) });
        Library {
            session,
            passing: PhantomData,
        }
    }

    fn set_peer_limits(&mut self, limits: &Limits) {
        let max_datagram = if limits.datagrams {
            LONGEST_DATAGRAM
        } else {
            sys::QS_NONE
        };
        let limits = sys::qs_peer_limits {
            initial_max_data: limits.window,
            initial_max_streams_bidi: limits.bidirectional,
            initial_max_streams_uni: limits.unidirectional,
            initial_max_stream_data_uni: limits.stream_window,
            initial_max_stream_data_bidi_local: limits.stream_window,
            initial_max_stream_data_bidi_remote: limits.stream_window,
            max_datagram,
        };
        // SAFETY: an open handle, here and below
        succeed(unsafe { sys::qs_set_peer_limits(&mut self.session.conn, &limits) });
    }

    fn reject_early_data(&mut self) {
        succeed(unsafe { sys::qs_zero_rtt_rejected(&mut self.session.conn) });
    }

    fn open(&mut self, direction: Direction) -> Option<u64> {
        let mut id = 0;
        let conn = &mut self.session.conn;
        found(unsafe { sys::qs_stream_open(conn, bit(direction), &mut id) }).then_some(id)
    }

    fn accept(&mut self, direction: Direction) -> Option<u64> {
        let mut id = 0;
        let conn = &mut self.session.conn;
        found(unsafe { sys::qs_stream_accept(conn, bit(direction), &mut id) }).then_some(id)
    }

    fn write(&mut self, id: u64, data: &[u8]) -> Option<usize> {
        let (mut written, mut code) = (0, 0);
        let conn = &mut self.session.conn;
        let (from, length) = (data.as_ptr(), data.len());
        // SAFETY: pointer and length of a slice
        let answer =
            unsafe { sys::qs_stream_write(conn, id, from, length, &mut written, &mut code) };
        if answer == sys::QS_ERR_BLOCKED {
            return None;
        }
        succeed(answer);
        Some(written)
    }

    fn finish(&mut self, id: u64) {
        let mut code = 0;
        succeed(unsafe { sys::qs_stream_finish(&mut self.session.conn, id, &mut code) });
    }

    fn reset(&mut self, id: u64) {
        succeed(unsafe { sys::qs_stream_reset(&mut self.session.conn, id, CODE) });
    }

    fn stop(&mut self, id: u64) {
        succeed(unsafe { sys::qs_stream_stop(&mut self.session.conn, id, CODE) });
    }

    fn set_priority(&mut self, id: u64, priority: i32) {
        let conn = &mut self.session.conn;
        succeed(unsafe { sys::qs_stream_set_priority(conn, id, priority) });
    }

    fn read(&mut self, id: u64, mut see: impl FnMut(u64, &[u8])) -> Reading {
        loop {
            let answer = P::read(&mut self.session, id, &mut see);
            if answer != sys::QS_OK {
                return reading(answer);
            }
        }
    }

    fn read_at_most(
        &mut self,
        id: u64,
        capacity: usize,
        ordered: bool,
        mut see: impl FnMut(u64, &[u8]),
    ) -> Reading {
        let mut data = Vec::<u8>::with_capacity(capacity);
        let call = if ordered {
            sys::qs_stream_read
        } else {
            sys::qs_stream_read_unordered
        };
        let (mut count, mut offset, mut code) = (0, 0, 0);
        let conn = &mut self.session.conn;
        loop {
            let to = data.as_mut_ptr();
            // SAFETY: `to` has room for `capacity` bytes, and the call initialised the first `count`
            unsafe {
                let answer = call(conn, id, to, capacity, &mut count, &mut offset, &mut code);
                if answer != sys::QS_OK {
                    return reading(answer);
                }
                data.set_len(count);
            }
            see(offset, &data);
        }
    }

    fn poll(&mut self) -> Option<Event> {
        let mut event = sys::qs_event::ZERO;
        if !found(unsafe { sys::qs_poll(&mut self.session.conn, &mut event) }) {
            return None;
        }
        // a kind and a direction are small numbers
        Some(match (event.kind as u32, event.dir as u32) {
            (sys::QS_EVENT_OPENED, sys::QS_BIDI) => Event::Opened(Direction::Bidirectional),
            (sys::QS_EVENT_OPENED, _) => Event::Opened(Direction::Unidirectional),
            (sys::QS_EVENT_READABLE, _) => Event::Readable(event.id),
            (sys::QS_EVENT_WRITABLE, _) => Event::Writable(event.id),
            (sys::QS_EVENT_FINISHED, _) => Event::Finished(event.id),
            _ => Event::Other,
        })
    }

    fn can_send_stream_data(&mut self) -> bool {
        let mut due = sys::qs_due::ZERO;
        succeed(unsafe { sys::qs_get_due(&mut self.session.conn, &mut due) });
        due.streams != 0
    }

    fn payload() -> P::Payload {
        P::payload()
    }

    fn bytes(payload: &P::Payload) -> &[u8] {
        P::bytes(payload)
    }

    fn emit(&mut self, capacity: usize, payload: &mut P::Payload) -> Option<u64> {
        let (answer, token) = P::emit(&mut self.session, capacity, payload);
        found(answer).then_some(token)
    }

    fn deliver(&mut self, payload: &mut P::Payload) {
        succeed(P::deliver(&mut self.session, payload));
    }

    fn acknowledged(&mut self, token: u64) {
        succeed(unsafe { sys::qs_acked(&mut self.session.conn, token) });
    }

    fn lost(&mut self, token: u64) {
        succeed(unsafe { sys::qs_lost(&mut self.session.conn, token) });
    }

    fn send_datagram(&mut self, data: &[u8]) -> bool {
        let conn = &mut self.session.conn;
        // SAFETY: pointer and length of a slice
        let answer = unsafe { sys::qs_datagram_send(conn, data.as_ptr(), data.len(), 0) };
        if answer == sys::QS_ERR_BLOCKED {
            return false;
        }
        succeed(answer);
        true
    }

    fn receive_datagram(&mut self, mut see: impl FnMut(&[u8])) -> bool {
        let mut data = MaybeUninit::<[u8; 2048]>::uninit();
        let (to, mut count) = (data.as_mut_ptr().cast::<u8>(), 0);
        let conn = &mut self.session.conn;
        // SAFETY: `to` has room for 2048 bytes, and the call initialised the first `count`
        unsafe {
            if !found(sys::qs_datagram_recv(conn, to, 2048, &mut count)) {
                return false;
            }
            see(std::slice::from_raw_parts(to, count));
        }
        true
    }
}

/// Nothing is copied: payloads stay in the library's buffers, and data that are read are lent.
pub struct Lending;

/// A buffer of the library, which is freed when it is dropped.
pub struct Buffer(sys::qs_buffer);

impl Drop for Buffer {
    fn drop(&mut self) {
        // SAFETY: the buffer is as the library left it
        unsafe { sys::qs_buffer_free(&mut self.0) }
    }
}

impl Passing for Lending {
    type Payload = Buffer;

    fn payload() -> Buffer {
        let mut buffer = sys::qs_buffer::ZERO;
        // SAFETY: a closed buffer
        succeed(unsafe { sys::qs_buffer_reserve(&mut buffer, 0) });
        Buffer(buffer)
    }

    fn bytes(payload: &Buffer) -> &[u8] {
        // SAFETY: the library set pointer and length
        unsafe { std::slice::from_raw_parts(payload.0.data, payload.0.len) }
    }

    fn emit(session: &mut Session, capacity: usize, payload: &mut Buffer) -> (i32, u64) {
        let mut head = sys::qs_payload::ZERO;
        let (conn, buffer) = (&mut session.conn, &mut payload.0);
        // SAFETY: an open handle and an open buffer
        let answer =
            unsafe { sys::qs_emit_buffer(conn, sys::QS_ALL, FAIR, capacity, buffer, &mut head) };
        (answer, head.token)
    }

    fn deliver(session: &mut Session, payload: &mut Buffer) -> i32 {
        let (conn, error) = (&mut session.conn, &mut session.error);
        let (length, mut next) = (payload.0.len, 0);
        // SAFETY: an open handle and an open buffer
        unsafe { sys::qs_receive_buffer(conn, &mut payload.0, length, &mut next, error) }
    }

    fn read(session: &mut Session, id: u64, mut see: impl FnMut(u64, &[u8])) -> i32 {
        let mut slices = MaybeUninit::<[sys::qs_slice; SLICES]>::uninit();
        let to = slices.as_mut_ptr().cast::<sys::qs_slice>();
        let (mut count, mut offset, mut code) = (0, 0, 0);
        let conn = &mut session.conn;
        // SAFETY: `to` has room for SLICES slices, and the call initialised the first `count`; what they lend may be read
        // until the next call
        unsafe {
            let answer =
                sys::qs_stream_read_lent(conn, id, to, SLICES, &mut count, &mut offset, &mut code);
            for slice in std::slice::from_raw_parts(to, count) {
                let from = slice.memory.add(slice.start);
                see(offset, std::slice::from_raw_parts(from, slice.len));
                offset += slice.len as u64;
            }
            answer
        }
    }
}

/// Everything is copied between memory of the host and memory of the library.
pub struct Copying;

impl Passing for Copying {
    type Payload = Vec<u8>;

    fn payload() -> Vec<u8> {
        Vec::new()
    }

    fn bytes(payload: &Vec<u8>) -> &[u8] {
        payload
    }

    fn emit(session: &mut Session, capacity: usize, payload: &mut Vec<u8>) -> (i32, u64) {
        let mut head = sys::qs_payload::ZERO;
        payload.clear();
        payload.reserve(capacity);
        let (conn, to) = (&mut session.conn, payload.as_mut_ptr());
        // SAFETY: `to` has room for `capacity` bytes, and the call initialised the first `head.len`, which is 0 otherwise
        unsafe {
            let answer = sys::qs_emit(conn, sys::QS_ALL, FAIR, to, capacity, &mut head);
            payload.set_len(head.len as usize);
            (answer, head.token)
        }
    }

    fn deliver(session: &mut Session, payload: &mut Vec<u8>) -> i32 {
        let (conn, error) = (&mut session.conn, &mut session.error);
        let (from, length, mut next) = (payload.as_ptr(), payload.len(), 0);
        // SAFETY: pointer and length of a list
        unsafe { sys::qs_receive(conn, from, length, &mut next, error) }
    }

    fn read(session: &mut Session, id: u64, mut see: impl FnMut(u64, &[u8])) -> i32 {
        let mut data = MaybeUninit::<[u8; LONGEST_READ]>::uninit();
        let to = data.as_mut_ptr().cast::<u8>();
        let (mut count, mut offset, mut code) = (0, 0, 0);
        let conn = &mut session.conn;
        // SAFETY: `to` has room for LONGEST_READ bytes, and the call initialised the first `count`
        unsafe {
            let answer = sys::qs_stream_read_many(
                conn,
                id,
                to,
                LONGEST_READ,
                &mut count,
                &mut offset,
                &mut code,
            );
            if count > 0 {
                see(offset, std::slice::from_raw_parts(to, count));
            }
            answer
        }
    }
}
