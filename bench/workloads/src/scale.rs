//! The longest single call, with many streams, many buffered segments or many payloads in flight.

use crate::calls::{Calls, Steps};
use crate::content::Random;
use crate::endpoint::{Direction, Endpoint, Event, Limits, Reading, Side};

/// A test of scale.
pub struct Scale {
    pub name: &'static str,
    pub about: &'static str,
    /// The sizes at which it is run.
    pub sizes: &'static [usize],
    test: Test,
}

#[derive(Clone, Copy)]
enum Test {
    Segments(Order),
    Streams,
    Credit,
    Payloads { lost: bool },
}

/// The order in which payloads arrive.
#[derive(Clone, Copy)]
enum Order {
    Reverse,
    Shuffled,
    /// The first payload was lost and arrives last.
    FirstLast,
}

const SEGMENTS: &[usize] = &[14_000, 100_000];
/// More in an arbitrary order would leave more gaps than a receiver allows.
const TOGETHER: usize = 1000;
const STREAMS: &[usize] = &[100_000, 1_000_000];

#[rustfmt::skip]
pub const SCALES: &[Scale] = &[
    Scale { name: "segments_reverse", about: "segments of 1200 bytes, the last first", sizes: SEGMENTS, test: Test::Segments(Order::Reverse) },
    Scale { name: "segments_shuffled", about: "segments shuffled, a thousand together", sizes: SEGMENTS, test: Test::Segments(Order::Shuffled) },
    Scale { name: "segments_first_last", about: "the first segment was lost and arrives last", sizes: SEGMENTS, test: Test::Segments(Order::FirstLast) },
    Scale { name: "streams", about: "streams of one byte, all open at once, from opening to freeing", sizes: STREAMS, test: Test::Streams },
    Scale { name: "credit", about: "streams that are blocked, and whose limits are raised", sizes: &[100_000], test: Test::Credit },
    Scale { name: "payloads_acknowledged", about: "payloads in flight, acknowledged in an arbitrary order", sizes: &[100_000], test: Test::Payloads { lost: false } },
    Scale { name: "payloads_lost", about: "payloads in flight, every other one lost", sizes: &[100_000], test: Test::Payloads { lost: true } },
];

impl Scale {
    pub fn run<E: Endpoint>(&self, size: usize, steps: &mut Steps) {
        match self.test {
            Test::Segments(order) => segments::<E>(size, order, steps),
            Test::Streams => streams::<E>(size, steps),
            Test::Credit => credit::<E>(size, steps),
            Test::Payloads { lost } => payloads::<E>(size, lost, steps),
        }
    }
}

const PAYLOAD: usize = 1200;

/// A client and a server, on which the peer may open so many unidirectional streams.
fn pair<E: Endpoint>(streams: u64, window: u64, stream_window: u64) -> (E, E) {
    let limits = Limits {
        unidirectional: streams,
        window,
        stream_window,
        ..Limits::default()
    };
    let none = Limits {
        unidirectional: 0,
        ..limits
    };
    let mut client = E::new(Side::Client, &none);
    let mut server = E::new(Side::Server, &limits);
    client.set_peer_limits(&limits);
    server.set_peer_limits(&none);
    (client, server)
}

fn open<E: Endpoint>(client: &mut E) -> u64 {
    client.open(Direction::Unidirectional).unwrap()
}

fn segments<E: Endpoint>(count: usize, order: Order, steps: &mut Steps) {
    let (mut client, mut server) = pair::<E>(1, 1 << 32, 1 << 32);
    let id = open(&mut client);
    let data = [7; PAYLOAD];
    let mut payloads: Vec<Option<E::Payload>> = Vec::with_capacity(count);
    for _ in 0..count {
        assert_eq!(client.write(id, &data), Some(PAYLOAD));
        let mut payload = E::payload();
        let token = client.emit(PAYLOAD + 40, &mut payload).unwrap();
        client.acknowledged(token);
        payloads.push(Some(payload));
    }
    let mut arrivals: Vec<usize> = (0..count).collect();
    match order {
        Order::Reverse => arrivals.reverse(),
        Order::Shuffled => {
            let mut random = Random::new(9);
            arrivals
                .chunks_mut(TOGETHER)
                .for_each(|list| random.shuffle(list));
        }
        Order::FirstLast => arrivals.rotate_left(1),
    }
    let mut calls = Calls::default();
    for index in arrivals {
        let mut payload = payloads[index].take().unwrap();
        calls.time(|| server.deliver(&mut payload));
    }
    steps.add("receive", calls);
    while server.poll().is_some() {}
    while server.accept(Direction::Unidirectional).is_some() {}
    let mut read = 0;
    steps.each("read all of it", [id], |id| {
        server.read(id, |_, bytes| read += bytes.len());
    });
    assert_eq!(read, count * PAYLOAD);
}

/// Everything that the client has to send goes to the server. Returns the tokens.
fn flight<E: Endpoint>(
    client: &mut E,
    server: &mut E,
    names: [&'static str; 2],
    most: usize,
    steps: &mut Steps,
) -> Vec<E::Token> {
    let mut tokens = Vec::with_capacity(most);
    let mut payload = E::payload();
    let (mut emits, mut receipts) = (Calls::default(), Calls::default());
    while let Some(token) = emits.time(|| client.emit(PAYLOAD, &mut payload)) {
        tokens.push(token);
        receipts.time(|| server.deliver(&mut payload));
    }
    steps.add(names[0], emits);
    steps.add(names[1], receipts);
    tokens
}

fn streams<E: Endpoint>(count: usize, steps: &mut Steps) {
    let (mut client, mut server) = pair::<E>(count as u64, 1 << 30, 1 << 20);
    let mut ids = Vec::with_capacity(count);
    steps.each("open", 0..count, |_| ids.push(open(&mut client)));
    steps.each("write one byte", &ids, |&id| {
        assert_eq!(client.write(id, b"x"), Some(1));
    });
    let most = count / 50 + 100;
    let names = ["emit the bytes", "receive the bytes"];
    let tokens = flight(&mut client, &mut server, names, most, steps);
    accept_and_read(&mut server, count, steps);
    steps.each("acknowledge", tokens, |token| client.acknowledged(token));
    steps.each("finish", &ids, |&id| client.finish(id));
    let names = ["emit the ends", "receive the ends"];
    let tokens = flight(&mut client, &mut server, names, most, steps);
    let mut calls = Calls::default();
    calls.time_all(|| server.poll(), |_| ());
    steps.add("poll the ends", calls);
    steps.each("read the ends", &ids, |&id| {
        assert_eq!(server.read(id, |_, _| ()), Reading::Finished);
    });
    steps.each("acknowledge the ends", tokens, |token| {
        client.acknowledged(token);
    });
    let (mut calls, mut finished) = (Calls::default(), 0);
    calls.time_all(
        || client.poll(),
        |event| finished += usize::from(matches!(event, Event::Finished(_))),
    );
    assert_eq!(finished, count);
    steps.add("poll Finished", calls);
    let names = ["emit stream limits", "receive stream limits"];
    let tokens = flight(&mut server, &mut client, names, most, steps);
    steps.each("acknowledge limits", tokens, |token| {
        server.acknowledged(token);
    });
    steps.each("free the client", [client], drop);
    steps.each("free the server", [server], drop);
}

/// The server takes the events of new streams of one byte, accepts them and reads each twice.
fn accept_and_read<E: Endpoint>(server: &mut E, count: usize, steps: &mut Steps) {
    let mut calls = Calls::default();
    calls.time_all(|| server.poll(), |_| ());
    steps.add("poll", calls);
    let mut ids = Vec::with_capacity(count);
    let mut calls = Calls::default();
    calls.time_all(
        || server.accept(Direction::Unidirectional),
        |id| ids.push(id),
    );
    assert_eq!(ids.len(), count);
    steps.add("accept", calls);
    let mut bytes = 0;
    for name in ["read", "read again"] {
        steps.each(name, &ids, |&id| {
            let reading = server.read(id, |_, data| bytes += data.len());
            assert_eq!(reading, Reading::Blocked);
        });
    }
    assert_eq!(bytes, count);
    steps.each("can_send_stream_data", 0..100, |_| {
        server.can_send_stream_data();
    });
}

fn credit<E: Endpoint>(count: usize, steps: &mut Steps) {
    let (mut client, mut server) = pair::<E>(count as u64, 1 << 30, 8);
    let mut ids = Vec::with_capacity(count);
    let mut payload = E::payload();
    for _ in 0..count {
        let id = open(&mut client);
        assert_eq!(client.write(id, b"12345678"), Some(8));
        ids.push(id);
    }
    while let Some(token) = client.emit(PAYLOAD, &mut payload) {
        server.deliver(&mut payload);
        client.acknowledged(token);
    }
    steps.each("write, blocked", &ids, |&id| {
        assert_eq!(client.write(id, b"9"), None);
    });
    let most = count / 20 + 16;
    let names = ["emit BLOCKED frames", "receive BLOCKED frames"];
    for token in flight(&mut client, &mut server, names, most, steps) {
        client.acknowledged(token);
    }
    while server.poll().is_some() {}
    while server.accept(Direction::Unidirectional).is_some() {}
    steps.each("read, credit due", &ids, |&id| {
        assert_eq!(server.read(id, |_, _| ()), Reading::Blocked);
    });
    let names = ["emit MAX_STREAM_DATA", "receive MAX_STREAM_DATA"];
    let mut tokens = flight(&mut server, &mut client, names, most, steps);
    let rest = tokens.split_off(tokens.len() / 2);
    steps.each("lose half", tokens, |token| server.lost(token));
    steps.each("acknowledge half", rest, |token| server.acknowledged(token));
    let names = ["emit it again", "receive it again"];
    for token in flight(&mut server, &mut client, names, most, steps) {
        server.acknowledged(token);
    }
    let mut calls = Calls::default();
    calls.time_all(|| client.poll(), |_| ());
    steps.add("poll Writable", calls);
}

fn payloads<E: Endpoint>(count: usize, lost: bool, steps: &mut Steps) {
    const WRITE: usize = 65_536;
    let (mut client, _server) = pair::<E>(1, 1 << 32, 1 << 32);
    let id = open(&mut client);
    let data = vec![7; WRITE];
    steps.each("write", 0..count * 1170 / WRITE, |_| {
        assert_eq!(client.write(id, &data), Some(WRITE));
    });
    let mut tokens = Vec::with_capacity(count + count / 10);
    let mut payload = E::payload();
    let mut calls = Calls::default();
    calls.time_all(
        || client.emit(PAYLOAD, &mut payload),
        |token| tokens.push(token),
    );
    steps.add("emit", calls);
    if !lost {
        Random::new(5).shuffle(&mut tokens);
        steps.each("acknowledge", tokens, |token| client.acknowledged(token));
        return;
    }
    let numbered = tokens.into_iter().enumerate();
    let (even, odd): (Vec<_>, Vec<_>) = numbered.partition(|(number, _)| number % 2 == 0);
    steps.each("lose every other", even, |(_, token)| client.lost(token));
    steps.each("acknowledge, last first", odd.into_iter().rev(), |it| {
        client.acknowledged(it.1);
    });
    let mut again = Vec::with_capacity(count);
    let mut calls = Calls::default();
    calls.time_all(
        || client.emit(PAYLOAD, &mut payload),
        |token| again.push(token),
    );
    steps.add("emit the lost ones", calls);
    steps.each("acknowledge those", again, |token| {
        client.acknowledged(token);
    });
}
