//! Two endpoints, the network between them, and what both applications noted.

use crate::channel::{Capacity, Channel, Loss, Order};
use crate::content::Sum;
use crate::endpoint::{Direction, Endpoint, Event, Limits, Reading, Side};
use crate::table::Outcome;

/// The usual length of a payload.
pub const PAYLOAD: Capacity = Capacity::Bytes(1200);
/// The content of each stream begins this far from that of the stream before in the sums of a workload with several.
const SPACING: u64 = 1 << 24;
/// Turns without a payload after which a workload is stuck.
const PATIENCE: u32 = 3;

pub struct Pair<E: Endpoint> {
    pub client: E,
    pub server: E,
    pub up: Channel<E>,
    pub down: Channel<E>,
    /// The streams that the server accepted or that became readable there, in the order of the events.
    pub at_server: Vec<u64>,
    /// The streams that became readable at the client.
    pub at_client: Vec<u64>,
    /// How many streams of the client were acknowledged to their end.
    pub finished: u64,
    pub events: u64,
    idle: u32,
}

impl<E: Endpoint> Pair<E> {
    pub fn new(limits: &Limits) -> Self {
        Self::over(limits, Loss::None, Order::AsSent)
    }

    /// A pair over a network that loses payloads in both directions.
    pub fn lossy(limits: &Limits, loss: Loss) -> Self {
        let mut pair = Self::over(limits, loss, Order::AsSent);
        pair.down = Channel::new(loss, Order::AsSent, 2);
        pair
    }

    /// A pair over a network that loses and reorders payloads of the client.
    pub fn over(limits: &Limits, loss: Loss, order: Order) -> Self {
        let mut pair = Pair {
            client: E::new(Side::Client, limits),
            server: E::new(Side::Server, limits),
            up: Channel::new(loss, order, 1),
            down: Channel::new(Loss::None, Order::AsSent, 2),
            at_server: Vec::new(),
            at_client: Vec::new(),
            finished: 0,
            events: 0,
            idle: 0,
        };
        pair.client.set_peer_limits(limits);
        pair.server.set_peer_limits(limits);
        pair
    }

    pub fn send_up(&mut self, capacity: Capacity, most: usize) -> usize {
        self.up
            .send(&mut self.client, &mut self.server, capacity, most)
    }

    pub fn send_down(&mut self, capacity: Capacity, most: usize) -> usize {
        self.down
            .send(&mut self.server, &mut self.client, capacity, most)
    }

    /// Reports all payloads of both endpoints.
    pub fn report(&mut self) {
        self.down.report(&mut self.server);
        self.up.report(&mut self.client);
    }

    /// Takes the events of the server, accepts streams, and notes what it may read.
    pub fn poll_server(&mut self) {
        while let Some(event) = self.server.poll() {
            self.events += 1;
            match event {
                Event::Opened(direction) => self.accept_all(direction),
                Event::Readable(id) => self.at_server.push(id),
                _ => {}
            }
        }
    }

    fn accept_all(&mut self, direction: Direction) {
        while let Some(id) = self.server.accept(direction) {
            self.at_server.push(id);
        }
    }

    /// Takes the events of the client.
    pub fn poll_client(&mut self) {
        while let Some(event) = self.client.poll() {
            self.events += 1;
            match event {
                Event::Readable(id) => self.at_client.push(id),
                Event::Finished(_) => self.finished += 1,
                _ => {}
            }
        }
    }

    /// Panics if nothing has moved for several turns.
    pub fn moved(&mut self, payloads: usize) {
        self.idle = if payloads == 0 { self.idle + 1 } else { 0 };
        assert!(self.idle < PATIENCE, "the workload is stuck");
    }

    /// Whether nothing moved in the last turn.
    pub fn is_idle(&self) -> bool {
        self.idle > 0
    }

    /// The check numbers, where the payloads of all implementations are the same.
    pub fn outcome(&self, read: &[Sum]) -> Outcome {
        let numbers = [
            self.up.check(),
            self.down.check(),
            self.up.payloads,
            self.events,
        ];
        Outcome {
            data: Outcome::of_data(read).data,
            wire: numbers.into_iter().fold(0, u64::wrapping_add),
        }
    }
}

/// Reads what is available on a stream of a workload with several streams.
pub fn read_stream<E: Endpoint>(endpoint: &mut E, id: u64, sum: &mut Sum) -> Reading {
    endpoint.read(id, |offset, bytes| sum.see(id * SPACING + offset, bytes))
}
