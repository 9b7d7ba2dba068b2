//! Datagrams, small writes and priorities.

use crate::content::{Content, Sum};
use crate::endpoint::{Direction, Endpoint, Limits, Reading};
use crate::pair::{read_stream, Pair, PAYLOAD};
use crate::table::Outcome;

/// Datagrams of equal length, queued in batches.
#[derive(Clone, Copy, Debug)]
pub struct Datagrams {
    pub length: usize,
    pub batch: u64,
}

impl Datagrams {
    pub fn run<E: Endpoint>(&self, content: &Content, count: u64) -> Outcome {
        let mut pair = Pair::<E>::new(&Limits {
            datagrams: true,
            ..Limits::default()
        });
        let length = self.length as u64;
        let mut sum = Sum::default();
        let (mut sent, mut received) = (0, 0);
        while received < count {
            for index in sent..count.min(sent + self.batch) {
                let data = content.at(index * length, self.length);
                assert!(pair.client.send_datagram(data), "no room for a datagram");
            }
            sent = count.min(sent + self.batch);
            pair.send_up(PAYLOAD, usize::MAX);
            while pair.server.poll().is_some() {}
            while pair
                .server
                .receive_datagram(|bytes| sum.see(received * length, bytes))
            {
                received += 1;
            }
            pair.up.report(&mut pair.client);
        }
        assert_eq!(sum.bytes, length * count);
        Outcome {
            wire: pair.up.check(),
            ..Outcome::of_data(&[sum])
        }
    }
}

/// One stream, written 10 bytes at a time; after each hundred writes everything is sent and read.
pub fn small_writes<E: Endpoint>(content: &Content, count: u64) -> Outcome {
    const LENGTH: usize = 10;
    let mut pair = Pair::<E>::new(&Limits::default());
    let id = pair.client.open(Direction::Unidirectional).unwrap();
    let mut sum = Sum::default();
    let mut written = 0;
    while sum.bytes < count * LENGTH as u64 {
        for index in written..count.min(written + 100) {
            let data = content.at(index * LENGTH as u64, LENGTH);
            assert_eq!(pair.client.write(id, data), Some(LENGTH));
        }
        written = count.min(written + 100);
        pair.send_up(PAYLOAD, usize::MAX);
        pair.poll_server();
        pair.at_server.clear();
        read_stream(&mut pair.server, id, &mut sum);
        pair.send_down(PAYLOAD, usize::MAX);
        pair.up.report(&mut pair.client);
        pair.down.report(&mut pair.server);
        pair.poll_client();
    }
    pair.outcome(&[sum])
}

const STREAMS: u64 = 64;
const PART: usize = 16_384;

/// 64 streams of eight priorities. In each round 16 kB are written on each, and every stream changes its priority.
pub fn priorities<E: Endpoint>(content: &Content, size: u64) -> Outcome {
    let rounds = size.div_ceil(STREAMS * PART as u64);
    let mut pair = Pair::<E>::new(&Limits {
        unidirectional: STREAMS,
        window: 16 << 20,
        ..Limits::default()
    });
    let ids: Vec<u64> = (0..STREAMS)
        .map(|_| pair.client.open(Direction::Unidirectional).unwrap())
        .collect();
    let mut sum = Sum::default();
    for round in 0..rounds {
        for (index, &id) in (0..).zip(&ids) {
            let priority = (index + round) % 8;
            pair.client.set_priority(id, priority as i32 - 4);
            let data = content.at(id * 64 + round * PART as u64, PART);
            assert_eq!(pair.client.write(id, data), Some(PART));
        }
        while deliver_all(&mut pair, &mut sum) {}
    }
    assert_eq!(sum.bytes, rounds * STREAMS * PART as u64);
    // the order of MAX_STREAM_DATA frames is not promised
    Outcome::of_data(&[sum])
}

/// One turn in which the server reads for each event. Returns whether any payload was sent.
fn deliver_all<E: Endpoint>(pair: &mut Pair<E>, sum: &mut Sum) -> bool {
    let sent = pair.send_up(PAYLOAD, 32);
    pair.poll_server();
    for id in pair.at_server.drain(..) {
        let reading = read_stream(&mut pair.server, id, sum);
        assert_eq!(reading, Reading::Blocked);
    }
    let answered = pair.send_down(PAYLOAD, usize::MAX);
    pair.up.report(&mut pair.client);
    pair.down.report(&mut pair.server);
    pair.poll_client();
    sent + answered > 0
}
