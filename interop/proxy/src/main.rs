//! A UDP proxy between QUIC endpoints of this machine. It loses, reorders, repeats and damages datagrams.
//!
//! The seed decides the fate of each datagram by its number, for each client and direction. The proxy prints `ready PORT`
//! once it listens. When its standard input ends, it prints how many datagrams met which fault, and ends.

mod faults;
mod relay;

use clap::Parser;
use faults::{Counts, Rates};
use std::net::{Ipv4Addr, SocketAddr};
use std::rc::Rc;
use std::time::Duration;
use tokio::io::AsyncReadExt;

#[derive(Parser)]
#[command(about = "A UDP proxy that loses, reorders, repeats and damages datagrams")]
struct Options {
    /// The port of the server, on 127.0.0.1
    #[arg(long)]
    target: u16,
    /// The port to listen on, on 127.0.0.1; 0 chooses a free one
    #[arg(long, default_value_t = 0)]
    listen: u16,
    #[command(flatten)]
    rates: Rates,
    /// The seed of all random choices
    #[arg(long, default_value_t = 1)]
    seed: u64,
    /// The proxy ends by itself after this many seconds
    #[arg(long, default_value_t = 600)]
    seconds: u64,
}

#[tokio::main(flavor = "current_thread")]
async fn main() -> anyhow::Result<()> {
    let options = Options::parse();
    let here = |port| SocketAddr::from((Ipv4Addr::LOCALHOST, port));
    let counts = Rc::new(Counts::default());
    let relay = relay::Relay {
        target: here(options.target),
        rates: options.rates,
        seed: options.seed,
        counts: counts.clone(),
    };
    let relaying = tokio::task::LocalSet::new();
    let running = relaying.run_until(relay.run(here(options.listen)));
    tokio::select! {
        ended = running => ended?,
        () = input_ended() => {}
        () = tokio::time::sleep(Duration::from_secs(options.seconds)) => {}
    }
    println!("{counts}");
    // The thread that waits for standard input would keep the runtime from shutting down.
    std::process::exit(0)
}

/// Waits until standard input ends or cannot be read.
async fn input_ended() {
    let mut ignored = [0; 64];
    let mut input = tokio::io::stdin();
    while matches!(input.read(&mut ignored).await, Ok(1..)) {}
}
