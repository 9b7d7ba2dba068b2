//! An echo server over UDP on the loopback, and a client with 100 streams.
//!
//!     echo server|client PORT [LOSS [SEED]]
//!
//! The client writes 40,000 bytes on each stream and checks what comes back. It resets every tenth stream halfway, and stops
//! the echo of every tenth other. The server allows 20 streams at a time. It reads no more of a stream until it has written
//! back what it read, so a slow reader slows its writer down. What is kept of a stream is dropped by [`Event::Closed`], and the
//! client is done when all its streams are over. Each drops LOSS of a hundred packets. Packets are those of `examples/c`, not
//! encrypted.

use quic_streams::{
    Config, Dir, Event, FinishError, Next, ReadError, Side, StreamError, StreamId, VarInt,
    WriteError,
};
use std::collections::HashMap;
use udp_host::{run, Host, Program, Result};

const STREAMS: u64 = 100;
const LENGTH: u64 = 40_000;
const CHUNK: usize = 4096;
const CANCELLED: VarInt = VarInt::from_u32(7);
const UNWANTED: VarInt = VarInt::from_u32(9);

/// What an endpoint knows of a stream.
#[derive(Default)]
struct Stream {
    sent: u64,      // client: bytes written
    received: u64,  // client: bytes checked
    chunk: Vec<u8>, // server: bytes read and not written back
    has_fin: bool,
    is_done: bool,
}

/// How many streams were opened, and how they ended.
#[derive(Clone, Copy, Default)]
struct Counts {
    opened: u64,
    echoed: u64,
    resets: u64,
    stops: u64,
}

struct Endpoint {
    host: Host,
    streams: HashMap<StreamId, Stream>, // those that are not over
    counts: Counts,
}

fn byte_of(id: StreamId, offset: u64) -> u8 {
    (u64::from(id) * 31 + offset * 7 + (offset >> 8)) as u8
}

/// The result of a call on a side of a stream that may have ended before.
fn unless_closed(result: std::result::Result<(), StreamError>) -> Result<()> {
    match result {
        Err(StreamError::ClosedStream) => Ok(()),
        result => Ok(result?),
    }
}

/// The client.
impl Endpoint {
    fn open_streams(&mut self) -> Result<()> {
        while self.counts.opened < STREAMS {
            let id = match self.host.state.open(Dir::Bi)? {
                Some(id) => id,
                None => break,
            };
            self.counts.opened += 1;
            self.write_more(id)?;
        }
        Ok(())
    }

    /// Writes until the stream is blocked; [`Event::Writable`] goes on with it.
    fn write_more(&mut self, id: StreamId) -> Result<()> {
        let stream = self.streams.entry(id).or_default();
        let is_cancelled = id.index() % 10 == 3;
        let target = if is_cancelled { LENGTH / 2 } else { LENGTH };
        let mut half = self.host.state.send_stream(id);
        while stream.sent < target {
            let end = target.min(stream.sent + CHUNK as u64);
            let data: Vec<u8> = (stream.sent..end).map(|at| byte_of(id, at)).collect();
            match half.write(&data) {
                Ok(written) => stream.sent += written as u64,
                Err(WriteError::Blocked | WriteError::Stopped(_)) => return Ok(()),
                Err(error) => return Err(error.into()),
            }
        }
        if !stream.has_fin && is_cancelled {
            half.reset(CANCELLED)?;
        } else if !stream.has_fin {
            half.finish()?;
        }
        stream.has_fin = true;
        Ok(())
    }

    /// Checks what came back, in the memory of the library.
    fn check_echo(&mut self, id: StreamId) -> Result<()> {
        let stream = self.streams.entry(id).or_default();
        let mut half = self.host.state.recv_stream(id);
        while !stream.is_done {
            let lent = match half.read_lent() {
                Err(ReadError::Reset(_)) => {
                    stream.is_done = true;
                    self.counts.resets += 1;
                    break;
                }
                lent => lent?,
            };
            for byte in lent.pieces().flatten() {
                if *byte != byte_of(id, stream.received) {
                    return Err("other bytes came back".into());
                }
                stream.received += 1;
            }
            let next = lent.next;
            if id.index() % 10 == 7 && stream.received > 0 {
                stream.is_done = true; // the server stops reading, which counts it
                half.stop(UNWANTED)?;
            } else if next == Next::Finished {
                stream.is_done = true;
                self.counts.echoed += u64::from(stream.received == LENGTH);
            }
            if next != Next::More {
                break;
            }
        }
        Ok(())
    }
}

/// The server.
impl Endpoint {
    /// Writes back what was read, and reads on when all of it is written.
    fn echo(&mut self, id: StreamId) -> Result<()> {
        let stream = self.streams.entry(id).or_default();
        while !stream.is_done {
            let mut half = self.host.state.send_stream(id);
            while !stream.chunk.is_empty() {
                match half.write(&stream.chunk) {
                    Ok(written) => drop(stream.chunk.drain(..written)),
                    // Nothing is read meanwhile.
                    Err(WriteError::Blocked | WriteError::Stopped(_)) => return Ok(()),
                    Err(error) => return Err(error.into()),
                }
            }
            if stream.has_fin {
                stream.is_done = true;
                self.counts.echoed += 1;
                return match half.finish() {
                    Err(FinishError::Stopped(_)) => Ok(()),
                    finished => Ok(finished?),
                };
            }
            stream.chunk.resize(CHUNK, 0);
            let read = self.host.state.recv_stream(id).read_many(&mut stream.chunk);
            stream
                .chunk
                .truncate(read.as_ref().map_or(0, |read| read.count));
            match read {
                Err(ReadError::Reset(code)) => {
                    stream.is_done = true;
                    self.counts.resets += 1;
                    self.host.state.send_stream(id).reset(code)?;
                }
                Ok(read) if read.next == Next::Blocked && read.count == 0 => break,
                read => stream.has_fin = read?.next == Next::Finished,
            }
        }
        Ok(())
    }
}

/// Both.
impl Endpoint {
    /// The peer wants no more of a stream: a server then reads no more of it. A side that ended before is closed: a peer may
    /// both reset and stop.
    fn on_stopped(&mut self, id: StreamId, code: VarInt) -> Result<()> {
        let stream = self.streams.entry(id).or_default();
        unless_closed(self.host.state.send_stream(id).reset(code))?;
        if self.host.side.is_server() && !stream.is_done {
            unless_closed(self.host.state.recv_stream(id).stop(code))?;
        }
        self.counts.stops += u64::from(!stream.is_done || self.host.side.is_client());
        stream.is_done = true;
        Ok(())
    }
}

impl Program for Endpoint {
    fn host(&mut self) -> &mut Host {
        &mut self.host
    }

    fn begin(&mut self) -> Result<()> {
        self.open_streams()
    }

    fn handle(&mut self, event: Event) -> Result<()> {
        let is_client = self.host.side.is_client();
        match event {
            Event::Opened { dir } => {
                while let Some(id) = self.host.state.accept(dir)? {
                    self.echo(id)?;
                }
            }
            Event::Readable { id } if is_client => self.check_echo(id)?,
            Event::Writable { id } if is_client => self.write_more(id)?,
            Event::Readable { id } | Event::Writable { id } => self.echo(id)?,
            Event::Stopped { id, error_code } => self.on_stopped(id, error_code)?,
            Event::Available { .. } => self.open_streams()?,
            Event::Closed { id, .. } => drop(self.streams.remove(&id)),
            _ => {}
        }
        Ok(())
    }

    fn is_done(&self) -> bool {
        self.counts.opened == STREAMS && self.streams.is_empty()
    }
}

/// 20 streams at a time, and small windows.
fn config() -> Config {
    let mut config = Config::default();
    config.max_remote_uni = VarInt::from_u32(0);
    config.max_remote_bi = VarInt::from_u32(20);
    config.receive_window = VarInt::from_u32(1 << 16);
    config.stream_window = VarInt::from_u32(1 << 14);
    config.send_window = 1 << 16;
    config.datagram_receive = None;
    config.track_streams = true;
    config
}

fn main() -> Result<()> {
    let words: Vec<String> = std::env::args().collect();
    let word = |at: usize| words.get(at).map(String::as_str);
    let (side, port) = match (word(1), word(2)) {
        (Some("server"), Some(port)) => (Side::Server, port),
        (Some("client"), Some(port)) => (Side::Client, port),
        _ => return Err("usage: echo server|client PORT [LOSS [SEED]]".into()),
    };
    let mut end = Endpoint {
        host: Host::new(side, &config(), port, words.get(3..).unwrap_or(&[]))?,
        streams: HashMap::new(),
        counts: Counts::default(),
    };
    run(&mut end)?;
    let Counts {
        echoed,
        resets,
        stops,
        ..
    } = end.counts;
    println!("{echoed} streams echoed, {resets} reset, {stops} stopped");
    match (echoed, resets, stops) {
        (80, 10, 10) => Ok(()),
        _ => Err("80, 10 and 10 were to be".into()),
    }
}
