//! A QUIC peer over quinn: HTTP/3, HTTP/0.9 (`hq-interop`) and an echo of streams and datagrams, as server or as client.
//!
//! The server prints `ready PORT`, and for each connection its end and its frames by kind. It ends when its standard input
//! ends. The client prints a line for each file or echo, and then the same two lines of its connections.

mod abandon;
mod echo;
mod fetch;
mod hq;
mod http3;
mod options;
mod qpack;
mod report;
mod serve;
mod site;
mod stream;
mod tls;

use clap::Parser;
use options::Command;

fn main() -> anyhow::Result<()> {
    let command = Command::parse();
    let runtime = tokio::runtime::Builder::new_current_thread()
        .enable_all()
        .build()?;
    let done = tokio::task::LocalSet::new().block_on(&runtime, async {
        match command {
            Command::Serve(options) => serve::run(options).await,
            Command::Fetch(options) => fetch::run(options).await,
        }
    });
    // A thread that waits for standard input would keep the runtime from shutting down.
    runtime.shutdown_background();
    done
}
