//! Short streams: requests and responses, resets, 0-RTT, whole connections.

use crate::channel::Loss;
use crate::content::{Content, Sum};
use crate::endpoint::{Direction, Endpoint, Limits, Reading, Side};
use crate::pair::{read_stream, Pair, PAYLOAD};
use crate::table::Outcome;

const REQUEST: usize = 200;
const RESPONSE: usize = 2000;

/// A hundred streams of each direction are allowed.
fn hundred() -> Limits {
    Limits {
        bidirectional: 100,
        unidirectional: 100,
        ..Limits::default()
    }
}

/// Requests of 200 bytes on streams of their own, with responses of 2000 bytes.
#[derive(Clone, Copy, Debug)]
pub struct Requests {
    pub at_once: u64,
    pub loss: Loss,
}

impl Requests {
    pub fn run<E: Endpoint>(&self, content: &Content, count: u64) -> Outcome {
        let limits = Limits {
            unidirectional: 0,
            ..hundred()
        };
        let mut pair = Pair::<E>::lossy(&limits, self.loss);
        let mut sums = [Sum::default(); 2];
        let (mut opened, mut done) = (0, 0);
        while done < count {
            while opened < count && opened - done < self.at_once {
                let Some(id) = pair.client.open(Direction::Bidirectional) else {
                    break;
                };
                write_all(&mut pair.client, id, content.at(id * 100, REQUEST));
                opened += 1;
            }
            pair.send_up(PAYLOAD, usize::MAX);
            pair.poll_server();
            answer(&mut pair, content, &mut sums[0]);
            pair.send_down(PAYLOAD, usize::MAX);
            pair.poll_client();
            for id in pair.at_client.drain(..) {
                let reading = read_stream(&mut pair.client, id, &mut sums[1]);
                done += u64::from(reading == Reading::Finished);
            }
            let moved = pair.up.in_flight() + pair.down.in_flight();
            pair.up.report(&mut pair.client);
            pair.down.report(&mut pair.server);
            pair.moved(moved);
        }
        let expected = [REQUEST as u64 * count, RESPONSE as u64 * count];
        assert_eq!(sums.map(|sum| sum.bytes), expected);
        match self.loss {
            Loss::None => pair.outcome(&sums),
            // lost limits are sent again in an order that no one promises
            _ => Outcome::of_data(&sums),
        }
    }
}

/// The server reads requests, and responds to those that it read to their end.
fn answer<E: Endpoint>(pair: &mut Pair<E>, content: &Content, sum: &mut Sum) {
    for id in pair.at_server.drain(..) {
        if read_stream(&mut pair.server, id, sum) == Reading::Finished {
            write_all(&mut pair.server, id, content.at(id * 1000, RESPONSE));
        }
    }
}

/// Writes all of the data and finishes the stream.
fn write_all(endpoint: &mut impl Endpoint, id: u64, data: &[u8]) {
    assert_eq!(endpoint.write(id, data), Some(data.len()));
    endpoint.finish(id);
}

/// One bidirectional stream, 20 bytes there and 20 back, each acknowledged at once.
pub fn ping_pong<E: Endpoint>(content: &Content, count: u64) -> Outcome {
    const LENGTH: usize = 20;
    let mut pair = Pair::<E>::new(&Limits {
        unidirectional: 0,
        bidirectional: 1,
        ..Limits::default()
    });
    let id = pair.client.open(Direction::Bidirectional).unwrap();
    let mut sums = [Sum::default(); 2];
    for turn in 0..count {
        let data = content.at(turn * LENGTH as u64, LENGTH);
        assert_eq!(pair.client.write(id, data), Some(LENGTH));
        pair.send_up(PAYLOAD, usize::MAX);
        pair.poll_server();
        pair.at_server.clear();
        read_stream(&mut pair.server, id, &mut sums[0]);
        assert_eq!(pair.server.write(id, data), Some(LENGTH));
        pair.up.report(&mut pair.client);
        pair.send_down(PAYLOAD, usize::MAX);
        pair.poll_client();
        pair.at_client.clear();
        read_stream(&mut pair.client, id, &mut sums[1]);
        pair.down.report(&mut pair.server);
    }
    assert_eq!(sums.map(|sum| sum.bytes), [LENGTH as u64 * count; 2]);
    pair.outcome(&sums)
}

/// Bidirectional streams of 300 bytes, 100 at a time. The client resets each after half of them, and the server stops it.
pub fn resets<E: Endpoint>(content: &Content, count: u64) -> Outcome {
    const HALF: usize = 150;
    let limits = Limits {
        unidirectional: 0,
        ..hundred()
    };
    let mut pair = Pair::<E>::new(&limits);
    let mut sum = Sum::default();
    let mut opened = 0;
    while opened < count || !pair.is_idle() {
        let ids: Vec<u64> = (opened..count)
            .map_while(|_| pair.client.open(Direction::Bidirectional))
            .collect();
        opened += ids.len() as u64;
        for &id in &ids {
            assert_eq!(pair.client.write(id, content.at(id, HALF)), Some(HALF));
        }
        let mut moved = pair.send_up(PAYLOAD, usize::MAX);
        pair.poll_server();
        stop_all(&mut pair, &mut sum);
        for &id in &ids {
            assert_eq!(pair.client.write(id, content.at(id, HALF)), Some(HALF));
            pair.client.reset(id);
            pair.client.stop(id);
        }
        moved += pair.send_up(PAYLOAD, usize::MAX);
        moved += pair.send_down(PAYLOAD, usize::MAX);
        while pair.server.poll().is_some() {}
        pair.poll_client();
        pair.at_client.clear();
        pair.up.report(&mut pair.client);
        pair.down.report(&mut pair.server);
        pair.moved(moved);
    }
    assert_eq!(sum.bytes, HALF as u64 * count);
    Outcome::of_data(&[sum])
}

/// The server reads what is there, stops each stream and resets its own direction of it.
fn stop_all<E: Endpoint>(pair: &mut Pair<E>, sum: &mut Sum) {
    let mut stopped = Vec::new();
    for id in pair.at_server.drain(..) {
        if read_stream(&mut pair.server, id, sum) == Reading::Blocked {
            pair.server.stop(id);
            stopped.push(id);
        }
    }
    for id in stopped {
        pair.server.reset(id);
    }
}

/// Connections whose client sends four streams of 1000 bytes in 0-RTT. The server rejects it in every other connection; in the
/// others the first flight is lost.
pub fn zero_rtt<E: Endpoint>(content: &Content, count: u64) -> Outcome {
    let limits = Limits {
        unidirectional: 4,
        ..Limits::default()
    };
    let mut sum = Sum::default();
    let mut wire = 0u64;
    for turn in 0..count {
        let mut pair = Pair::<E>::new(&limits);
        write_four(&mut pair.client, content);
        let (early, length) = first_flight(&mut pair.client);
        wire = wire.wrapping_add(length);
        if turn % 2 == 0 {
            pair.client.reject_early_data();
            drop(early);
            pair.client.set_peer_limits(&limits);
            write_four(&mut pair.client, content);
        } else {
            early.into_iter().for_each(|token| pair.client.lost(token));
        }
        pair.send_up(PAYLOAD, usize::MAX);
        pair.poll_server();
        for id in pair.at_server.drain(..) {
            let reading = read_stream(&mut pair.server, id, &mut sum);
            assert_ne!(reading, Reading::Blocked);
        }
        pair.send_down(PAYLOAD, usize::MAX);
        pair.report();
        pair.poll_client();
        wire = wire.wrapping_add(pair.outcome(&[]).wire);
    }
    assert_eq!(sum.bytes, 4000 * count);
    Outcome {
        wire,
        ..Outcome::of_data(&[sum])
    }
}

/// Writes everything that is pending, and sends none of it. Returns the tokens and the number of bytes.
fn first_flight<E: Endpoint>(client: &mut E) -> (Vec<E::Token>, u64) {
    let mut payload = E::payload();
    let (mut tokens, mut length) = (Vec::new(), 0);
    while let Some(token) = client.emit(1200, &mut payload) {
        length += E::bytes(&payload).len() as u64;
        tokens.push(token);
    }
    (tokens, length)
}

fn write_four(client: &mut impl Endpoint, content: &Content) {
    for index in 0..4 {
        let id = client.open(Direction::Unidirectional).unwrap();
        write_all(client, id, content.at(index * 1000, 1000));
    }
}

/// Connections that are opened and freed, with one request or none.
pub fn connections<E: Endpoint>(content: &Content, count: u64, request: bool) -> Outcome {
    let mut sums = [Sum::default(); 2];
    let mut wire = 0u64;
    for _ in 0..count {
        let mut pair = Pair::<E>::new(&hundred());
        if request {
            one_request(&mut pair, content, &mut sums);
        }
        pair.poll_client();
        pair.poll_server();
        wire = wire.wrapping_add(pair.outcome(&[]).wire);
    }
    let requests = if request { count } else { 0 };
    let expected = [REQUEST as u64 * requests, RESPONSE as u64 * requests];
    assert_eq!(sums.map(|sum| sum.bytes), expected);
    Outcome {
        wire,
        ..Outcome::of_data(&sums)
    }
}

/// One request and its response, all of it acknowledged.
pub fn one_request<E: Endpoint>(pair: &mut Pair<E>, content: &Content, sums: &mut [Sum; 2]) {
    let id = pair.client.open(Direction::Bidirectional).unwrap();
    write_all(&mut pair.client, id, content.at(0, REQUEST));
    pair.send_up(PAYLOAD, usize::MAX);
    pair.poll_server();
    answer(pair, content, &mut sums[0]);
    pair.up.report(&mut pair.client);
    pair.send_down(PAYLOAD, usize::MAX);
    pair.poll_client();
    for id in pair.at_client.drain(..) {
        let reading = read_stream(&mut pair.client, id, &mut sums[1]);
        assert_ne!(reading, Reading::Blocked);
    }
    pair.down.report(&mut pair.server);
}

/// A new endpoint that allows a hundred streams of each direction.
pub fn idle<E: Endpoint>(side: Side) -> E {
    let mut endpoint = E::new(side, &hundred());
    endpoint.set_peer_limits(&hundred());
    endpoint
}

/// The limits that `idle` and `connections` have.
pub fn limits_of_idle() -> Limits {
    hundred()
}
