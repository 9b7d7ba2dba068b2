//! Bulk transfers: much data on few streams, or on many short ones.

use crate::channel::{Capacity, Loss, Order};
use crate::content::{Content, Sum};
use crate::endpoint::{Direction, Endpoint, Limits, Reading};
use crate::pair::{Pair, PAYLOAD};
use crate::table::Outcome;

/// The most bytes that the application writes in one call.
const WRITE: u64 = 65_536;
/// The most payloads that are sent before the receiver reads.
const BURST: usize = 32;

/// What remains to be written on a stream.
pub struct Writer {
    id: u64,
    written: u64,
    length: u64,
    finished: bool,
}

impl Writer {
    pub fn new(id: u64, length: u64) -> Self {
        Writer {
            id,
            written: 0,
            length,
            finished: false,
        }
    }

    /// Writes until the stream is blocked, and finishes it once everything is written.
    pub fn write(&mut self, endpoint: &mut impl Endpoint, content: &Content) {
        while self.written < self.length {
            let length = WRITE.min(self.length - self.written) as usize;
            match endpoint.write(self.id, content.at(self.written, length)) {
                Some(count) => self.written += count as u64,
                None => return,
            }
        }
        if !self.finished {
            endpoint.finish(self.id);
            self.finished = true;
        }
    }
}

/// What the server read of streams of equal length, which stand one behind the other in the sum.
#[derive(Default)]
struct Received {
    length: u64,
    sum: Sum,
    ended: u64,
}

impl Received {
    fn read(&mut self, server: &mut impl Endpoint, id: u64) {
        let start = (id >> 2) * self.length;
        let sum = &mut self.sum;
        let reading = server.read(id, |offset, bytes| sum.see(start + offset, bytes));
        self.ended += u64::from(reading == Reading::Finished);
    }
}

/// One turn: a burst of the client, reads by the server for each of its events, its payloads, all reports. Returns whether the
/// client sent anything.
fn turn<E: Endpoint>(pair: &mut Pair<E>, received: &mut Received) -> bool {
    let sent = pair.send_up(PAYLOAD, BURST);
    pair.poll_server();
    for id in pair.at_server.drain(..) {
        received.read(&mut pair.server, id);
    }
    pair.send_down(PAYLOAD, usize::MAX);
    pair.report();
    pair.poll_client();
    sent > 0
}

/// One stream of `size` bytes; the server reads for each event.
pub fn one_stream<E: Endpoint>(content: &Content, size: u64, loss: Loss) -> Outcome {
    let mut pair = Pair::<E>::over(&Limits::default(), loss, Order::AsSent);
    let id = pair.client.open(Direction::Unidirectional).unwrap();
    let mut writer = Writer::new(id, size);
    let mut received = Received::default();
    while pair.finished == 0 || received.ended == 0 {
        writer.write(&mut pair.client, content);
        assert!(turn(&mut pair, &mut received), "the transfer is stuck");
    }
    assert_eq!(received.sum.bytes, size);
    pair.outcome(&[received.sum])
}

/// Streams of equal length, up to so many at a time, each written in parts, in turn.
#[derive(Clone, Copy, Debug)]
pub struct ManyStreams {
    pub length: u64,
    pub parts: u64,
    pub at_once: u64,
}

impl ManyStreams {
    /// As many streams as `size` bytes take.
    pub fn run<E: Endpoint>(&self, content: &Content, size: u64) -> Outcome {
        let count = size.div_ceil(self.length);
        let mut pair = Pair::<E>::new(&Limits {
            unidirectional: self.at_once,
            ..Limits::default()
        });
        let mut received = Received {
            length: self.length,
            ..Received::default()
        };
        let mut opened = 0;
        while opened < count {
            let most = self.at_once.min(count - opened);
            let ids: Vec<u64> = (0..most)
                .map_while(|_| pair.client.open(Direction::Unidirectional))
                .collect();
            assert!(!ids.is_empty(), "no stream can be opened");
            opened += ids.len() as u64;
            for part in 0..self.parts {
                self.write(&mut pair.client, content, &ids, part);
                while turn(&mut pair, &mut received) {}
            }
        }
        let read = (pair.finished, received.ended, received.sum.bytes);
        assert_eq!(read, (count, count, count * self.length));
        pair.outcome(&[received.sum])
    }

    fn write(&self, client: &mut impl Endpoint, content: &Content, ids: &[u64], part: u64) {
        let length = self.length / self.parts;
        for &id in ids {
            let offset = (id >> 2) * self.length + part * length;
            let written = client.write(id, content.at(offset, length as usize));
            assert_eq!(written, Some(length as usize));
            if part == self.parts - 1 {
                client.finish(id);
            }
        }
    }
}

/// How the server reads.
#[derive(Clone, Copy, Debug)]
pub enum Reads {
    /// Everything at once.
    Everything,
    /// By reads of at most so many bytes.
    AtMost { capacity: usize, ordered: bool },
}

/// One stream; the server reads once in each turn.
#[derive(Clone, Copy, Debug)]
pub struct Transfer {
    pub window: u64,
    pub payload: Capacity,
    pub loss: Loss,
    pub order: Order,
    pub reads: Reads,
}

/// Windows of 1 MiB and payloads of 1200 bytes, in order.
pub const TRANSFER: Transfer = Transfer {
    window: 1 << 20,
    payload: PAYLOAD,
    loss: Loss::None,
    order: Order::AsSent,
    reads: Reads::Everything,
};

impl Transfer {
    pub fn run<E: Endpoint>(&self, content: &Content, size: u64) -> Outcome {
        let limits = Limits {
            window: self.window,
            stream_window: self.window,
            ..Limits::default()
        };
        let mut pair = Pair::<E>::over(&limits, self.loss, self.order);
        let id = pair.client.open(Direction::Unidirectional).unwrap();
        let mut writer = Writer::new(id, size);
        let (mut sum, mut ended) = (Sum::default(), false);
        while !ended || pair.finished == 0 {
            writer.write(&mut pair.client, content);
            let sent = pair.send_up(self.payload, BURST.max(self.order.depth()));
            pair.poll_server();
            pair.at_server.clear();
            ended = ended || self.read(&mut pair.server, id, &mut sum) == Reading::Finished;
            let answered = pair.send_down(self.payload, usize::MAX);
            pair.report();
            pair.poll_client();
            pair.moved(sent + answered);
        }
        assert_eq!(sum.bytes, size);
        pair.outcome(&[sum])
    }

    fn read(&self, server: &mut impl Endpoint, id: u64, sum: &mut Sum) -> Reading {
        let see = |offset: u64, bytes: &[u8]| sum.see(offset, bytes);
        match self.reads {
            Reads::Everything => server.read(id, see),
            Reads::AtMost { capacity, ordered } => server.read_at_most(id, capacity, ordered, see),
        }
    }
}

/// One bidirectional stream with half of `size` bytes in each direction at once.
pub fn duplex<E: Endpoint>(content: &Content, size: u64) -> Outcome {
    let mut pair = Pair::<E>::new(&Limits {
        bidirectional: 1,
        unidirectional: 0,
        ..Limits::default()
    });
    let id = pair.client.open(Direction::Bidirectional).unwrap();
    let mut writers = [Writer::new(id, size / 2), Writer::new(id, size / 2)];
    let mut sums = [Sum::default(); 2];
    let mut ended = [false; 2];
    let mut accepted = false;
    while ended != [true; 2] {
        writers[0].write(&mut pair.client, content);
        if accepted {
            writers[1].write(&mut pair.server, content);
        }
        let sent = pair.send_up(PAYLOAD, BURST);
        pair.poll_server();
        accepted = accepted || !pair.at_server.is_empty();
        pair.at_server.clear();
        let answered = pair.send_down(PAYLOAD, BURST);
        if !ended[0] {
            ended[0] = read_half(&mut pair.server, id, &mut sums[0]);
        }
        if !ended[1] {
            ended[1] = read_half(&mut pair.client, id, &mut sums[1]);
        }
        pair.report();
        pair.poll_client();
        pair.at_client.clear();
        pair.moved(sent + answered);
    }
    assert_eq!(sums.map(|sum| sum.bytes), [size / 2; 2]);
    pair.outcome(&sums)
}

/// Reads one direction of a stream. Returns whether it ended.
fn read_half(endpoint: &mut impl Endpoint, id: u64, sum: &mut Sum) -> bool {
    endpoint.read(id, |offset, bytes| sum.see(offset, bytes)) == Reading::Finished
}
