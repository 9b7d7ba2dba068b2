//! The network in one direction, and the reports of its payloads.

use crate::content::{Random, Sum};
use crate::endpoint::Endpoint;

/// Which payloads the network loses.
#[derive(Clone, Copy, Debug)]
pub enum Loss {
    None,
    /// The last of each so many.
    OneIn(u64),
    /// Each with this probability.
    Percent(u32),
}

/// The order in which payloads arrive.
#[derive(Clone, Copy, Debug)]
pub enum Order {
    AsSent,
    /// So many together are shuffled.
    Shuffled(usize),
    /// So many together arrive backwards.
    Reversed(usize),
}

impl Order {
    /// How many payloads arrive together.
    pub fn depth(self) -> usize {
        match self {
            Order::AsSent => 1,
            Order::Shuffled(depth) | Order::Reversed(depth) => depth,
        }
    }
}

/// The greatest length of a payload.
#[derive(Clone, Copy, Debug)]
pub enum Capacity {
    Bytes(usize),
    /// Any length from 300 to 1399 bytes, drawn anew for each payload.
    Any,
}

/// Carries payloads from one endpoint to the other.
pub struct Channel<E: Endpoint> {
    in_flight: Vec<(E::Token, bool)>,
    spare: Vec<E::Payload>,
    delayed: Vec<E::Payload>,
    loss: Loss,
    order: Order,
    random: Random,
    /// The payloads as one run of bytes.
    pub sent: Sum,
    pub payloads: u64,
}

impl<E: Endpoint> Channel<E> {
    pub fn new(loss: Loss, order: Order, seed: u64) -> Self {
        Channel {
            in_flight: Vec::new(),
            spare: vec![E::payload()],
            delayed: Vec::new(),
            loss,
            order,
            random: Random::new(seed),
            sent: Sum::default(),
            payloads: 0,
        }
    }

    /// Sends at most `most` payloads. Returns how many.
    pub fn send(&mut self, from: &mut E, to: &mut E, capacity: Capacity, most: usize) -> usize {
        let mut count = 0;
        while count < most && self.send_one(from, to, capacity) {
            count += 1;
        }
        if self.delayed.len() >= self.order.depth() || count < most {
            self.deliver_delayed(to);
        }
        count
    }

    fn deliver_delayed(&mut self, to: &mut E) {
        match self.order {
            Order::AsSent => return,
            Order::Shuffled(_) => self.random.shuffle(&mut self.delayed),
            Order::Reversed(_) => self.delayed.reverse(),
        }
        for mut payload in self.delayed.drain(..) {
            to.deliver(&mut payload);
            self.spare.push(payload);
        }
    }

    fn send_one(&mut self, from: &mut E, to: &mut E, capacity: Capacity) -> bool {
        let capacity = match capacity {
            Capacity::Bytes(bytes) => bytes,
            Capacity::Any => 300 + self.random.draw() as usize % 1100,
        };
        let mut payload = self.spare.pop().unwrap_or_else(E::payload);
        let Some(token) = from.emit(capacity, &mut payload) else {
            self.spare.push(payload);
            return false;
        };
        self.sent.see(self.sent.bytes, E::bytes(&payload));
        self.payloads += 1;
        let lost = match self.loss {
            Loss::None => false,
            Loss::OneIn(period) => self.payloads.is_multiple_of(period),
            Loss::Percent(percent) => self.random.draw() % 100 < percent,
        };
        self.in_flight.push((token, lost));
        if !lost && self.order.depth() > 1 {
            self.delayed.push(payload);
            return true;
        }
        if !lost {
            to.deliver(&mut payload);
        }
        self.spare.push(payload);
        true
    }

    /// How many payloads wait for their report.
    pub fn in_flight(&self) -> usize {
        self.in_flight.len()
    }

    /// Reports each payload to its sender, as acknowledged or as lost.
    pub fn report(&mut self, from: &mut E) {
        for (token, lost) in self.in_flight.drain(..) {
            if lost {
                from.lost(token);
            } else {
                from.acknowledged(token);
            }
        }
        from.reports_done();
    }

    /// A check number of all payloads.
    pub fn check(&self) -> u64 {
        self.sent.value.wrapping_add(self.sent.bytes)
    }
}
