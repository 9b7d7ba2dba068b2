//! What happens to a datagram.

use rand::rngs::StdRng;
use rand::{Rng, SeedableRng};
use std::cell::Cell;
use std::fmt;
use std::time::Duration;

/// The longest time that a reordered datagram is held back.
const LONGEST_DELAY: Duration = Duration::from_millis(10);

/// How many datagrams of a hundred meet each fault.
#[derive(clap::Args, Clone, Copy, Debug)]
pub struct Rates {
    /// The percentage of datagrams that are lost
    #[arg(long, default_value_t = 0.0)]
    loss: f64,
    /// The percentage of datagrams that are delayed, so that later ones overtake them
    #[arg(long, default_value_t = 0.0)]
    reorder: f64,
    /// The percentage of datagrams that are sent twice
    #[arg(long, default_value_t = 0.0)]
    repeat: f64,
    /// The percentage of datagrams of which one bit is flipped
    #[arg(long, default_value_t = 0.0)]
    damage: f64,
}

/// How many datagrams met which fault.
#[derive(Debug, Default)]
pub struct Counts {
    datagrams: Cell<u64>,
    lost: Cell<u64>,
    reordered: Cell<u64>,
    repeated: Cell<u64>,
    damaged: Cell<u64>,
}

impl fmt::Display for Counts {
    fn fmt(&self, f: &mut fmt::Formatter<'_>) -> fmt::Result {
        write!(
            f,
            "datagrams={} lost={} reordered={} repeated={} damaged={}",
            self.datagrams.get(),
            self.lost.get(),
            self.reordered.get(),
            self.repeated.get(),
            self.damaged.get()
        )
    }
}

/// How a datagram is forwarded.
pub struct Fate {
    pub copies: usize,
    pub delay: Option<Duration>,
}

/// The faults of one direction of one client.
pub struct Faults {
    rates: Rates,
    random: StdRng,
}

impl Faults {
    pub fn new(rates: Rates, seed: u64) -> Self {
        let random = StdRng::seed_from_u64(seed);
        Self { rates, random }
    }

    /// Draws the fate of the next datagram, and damages it if that is part of it.
    pub fn draw(&mut self, datagram: &mut [u8], counts: &Counts) -> Fate {
        let rates = self.rates;
        count(&counts.datagrams);
        if self.hits(rates.loss) {
            count(&counts.lost);
            return Fate {
                copies: 0,
                delay: None,
            };
        }
        if self.hits(rates.damage) && !datagram.is_empty() {
            count(&counts.damaged);
            let place = self.random.gen_range(0..datagram.len());
            datagram[place] ^= 1 << self.random.gen_range(0..8);
        }
        let delay = self.hits(rates.reorder).then(|| {
            count(&counts.reordered);
            LONGEST_DELAY.mul_f64(self.random.gen_range(0.1..1.0))
        });
        let repeated = self.hits(rates.repeat);
        if repeated {
            count(&counts.repeated);
        }
        Fate {
            copies: 1 + usize::from(repeated),
            delay,
        }
    }

    fn hits(&mut self, percent: f64) -> bool {
        self.random.gen_bool((percent / 100.0).clamp(0.0, 1.0))
    }
}

fn count(counter: &Cell<u64>) {
    counter.set(counter.get() + 1);
}

#[cfg(test)]
mod tests {
    use super::*;

    const NONE: Rates = Rates {
        loss: 0.0,
        reorder: 0.0,
        repeat: 0.0,
        damage: 0.0,
    };

    /// Draws the fates of a thousand datagrams: the counts, and how many datagrams came out changed.
    fn thousand(rates: Rates, seed: u64) -> (String, usize) {
        let (counts, mut faults) = (Counts::default(), Faults::new(rates, seed));
        let changed = (0..1000)
            .filter(|_| {
                let mut datagram = [7; 40];
                faults.draw(&mut datagram, &counts);
                datagram != [7; 40]
            })
            .count();
        (counts.to_string(), changed)
    }

    #[test]
    fn without_rates_nothing_happens() {
        let untouched = "datagrams=1000 lost=0 reordered=0 repeated=0 damaged=0";
        assert_eq!(thousand(NONE, 1), (untouched.to_owned(), 0));
    }

    #[test]
    fn a_rate_of_a_hundred_meets_every_datagram() {
        let lossy = Rates {
            loss: 100.0,
            ..NONE
        };
        let all_lost = "datagrams=1000 lost=1000 reordered=0 repeated=0 damaged=0";
        assert_eq!(thousand(lossy, 1).0, all_lost);
        let damaging = Rates {
            damage: 100.0,
            ..NONE
        };
        assert_eq!(thousand(damaging, 1).1, 1000);
    }

    #[test]
    fn the_seed_decides() {
        let rates = Rates {
            loss: 10.0,
            reorder: 10.0,
            repeat: 10.0,
            damage: 10.0,
        };
        assert_eq!(thousand(rates, 5), thousand(rates, 5));
        assert_ne!(thousand(rates, 5), thousand(rates, 6));
    }
}
