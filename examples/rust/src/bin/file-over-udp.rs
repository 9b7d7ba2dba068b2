//! Sends a file to another process over UDP on the loopback, as one stream of a QUIC connection's stream layer.
//!
//!     file-over-udp receive PORT FILE [LOSS [SEED]]
//!     file-over-udp send    PORT FILE [LOSS [SEED]]
//!
//! Of a hundred packets the program drops LOSS itself, drawn from SEED. There is no encryption, congestion control or
//! authentication: no way to send files over a real network. The program of `examples/c` speaks the same.

use quic_streams::{
    Config, Dir, Event, FinishError, ReadError, Side, StreamId, VarInt, WriteError,
};
use std::fs::File;
use std::io::{Read, Write};
use udp_host::{run, Counts, Host, Program, Result};

struct Endpoint {
    host: Host,
    file: File,
    chunk: Vec<u8>, // what was read of the file and not written
    is_done: bool,
}

impl Endpoint {
    /// Writes the file until the stream is blocked or stopped: an event follows.
    fn write_file(&mut self, id: StreamId) -> Result<()> {
        loop {
            if self.chunk.is_empty() {
                self.chunk.resize(16384, 0);
                let count = self.file.read(&mut self.chunk)?;
                self.chunk.truncate(count);
                if count == 0 {
                    return match self.host.state.send_stream(id).finish() {
                        Err(FinishError::Stopped(_)) => Ok(()),
                        finished => Ok(finished?),
                    };
                }
            }
            match self.host.state.send_stream(id).write(&self.chunk) {
                Ok(count) => drop(self.chunk.drain(..count)),
                Err(WriteError::Blocked | WriteError::Stopped(_)) => return Ok(()),
                Err(error) => return Err(error.into()),
            }
        }
    }

    fn read_file(&mut self, id: StreamId) -> Result<()> {
        let mut data = [0; 16384];
        loop {
            match self.host.state.recv_stream(id).read(&mut data) {
                Ok(Some(count)) => self.file.write_all(&data[..count])?,
                Ok(None) => {
                    self.is_done = true;
                    return Ok(());
                }
                Err(ReadError::Blocked | ReadError::ClosedStream) => return Ok(()),
                Err(error) => return Err(error.into()),
            }
        }
    }
}

impl Program for Endpoint {
    fn host(&mut self) -> &mut Host {
        &mut self.host
    }

    fn begin(&mut self) -> Result<()> {
        let id = self.host.state.open(Dir::Uni)?;
        self.write_file(id.ok_or("the peer allows no stream")?)
    }

    fn handle(&mut self, event: Event) -> Result<()> {
        match event {
            Event::Opened { dir } => {
                while let Some(id) = self.host.state.accept(dir)? {
                    self.read_file(id)?;
                }
            }
            Event::Readable { id } => self.read_file(id)?,
            Event::Writable { id } => self.write_file(id)?,
            Event::Finished { .. } => self.is_done = true,
            // The receiver wants no more, and learns how much there was.
            Event::Stopped { id, error_code } => {
                self.host.state.send_stream(id).reset(error_code)?;
                self.host.send_pending()?;
                self.host.close()?;
                return Err("the receiver wants no more".into());
            }
            _ => {}
        }
        Ok(())
    }

    /// The sender is done when all is acknowledged.
    fn is_done(&self) -> bool {
        self.is_done
    }
}

fn config() -> Config {
    let mut config = Config::default();
    config.send_window = 1 << 20;
    config.receive_window = VarInt::from_u32(1 << 20);
    config.stream_window = VarInt::from_u32(1 << 18);
    config.datagram_receive = None;
    config
}

fn main() -> Result<()> {
    let words: Vec<String> = std::env::args().collect();
    let word = |at: usize| words.get(at).map(String::as_str);
    let (side, port, file) = match (word(1), word(2), word(3)) {
        (Some("send"), Some(port), Some(file)) => (Side::Client, port, File::open(file)?),
        (Some("receive"), Some(port), Some(file)) => (Side::Server, port, File::create(file)?),
        _ => return Err("usage: file-over-udp send|receive PORT FILE [LOSS [SEED]]".into()),
    };
    let mut end = Endpoint {
        host: Host::new(side, &config(), port, words.get(4..).unwrap_or(&[]))?,
        file,
        chunk: Vec::new(),
        is_done: false,
    };
    run(&mut end)?;
    let Counts {
        packets,
        dropped,
        lost,
    } = end.host.counts;
    println!("{packets} packets, {dropped} dropped, {lost} taken to be lost");
    if end.is_done {
        Ok(())
    } else {
        Err("the sender closed before the end of the file".into())
    }
}
