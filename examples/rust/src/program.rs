//! The loop of a host: packets are received, events handled, and pending frames sent.

use crate::packets::{Host, Result};
use quic_streams::Event;

/// A program over one connection.
pub trait Program {
    /// Its endpoint.
    fn host(&mut self) -> &mut Host;

    /// Opens the first streams of a client.
    ///
    /// # Errors
    ///
    /// If the program cannot go on.
    fn begin(&mut self) -> Result<()>;

    /// Handles an event of the endpoint.
    ///
    /// # Errors
    ///
    /// If the program cannot go on.
    fn handle(&mut self, event: Event) -> Result<()>;

    /// Whether a client has nothing left to do. It closes the connection then; a server waits for that.
    fn is_done(&self) -> bool;
}

/// Runs a program until its connection is closed.
///
/// # Errors
///
/// If the program cannot go on, the peer violated the protocol, or nothing was received for five seconds.
pub fn run(program: &mut impl Program) -> Result<()> {
    let is_client = program.host().side.is_client();
    if is_client {
        program.begin()?;
    }
    while !(program.host().is_closed || is_client && program.is_done()) {
        program.host().receive_packets()?;
        while let Some(event) = program.host().state.poll() {
            program.handle(event)?;
        }
        program.host().send_pending()?;
    }
    if is_client {
        program.host().close()?;
    }
    Ok(())
}
