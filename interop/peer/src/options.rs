//! The command line.

use anyhow::Context;
use clap::{Args, Parser, ValueEnum};
use quinn::{IdleTimeout, TransportConfig, VarInt};
use std::path::PathBuf;
use std::sync::Arc;
use std::time::Duration;

/// HTTP/3, HTTP/0.9 and an echo over quinn
#[derive(Parser)]
pub enum Command {
    /// Serves files over HTTP/3 and HTTP/0.9, and echoes streams and datagrams
    Serve(ServeOptions),
    /// Fetches files, sends them, or has streams and datagrams echoed
    Fetch(FetchOptions),
}

#[derive(Args)]
pub struct ServeOptions {
    /// The port on 127.0.0.1; 0 chooses a free one
    #[arg(long, default_value_t = 0)]
    pub port: u16,
    /// The certificate, in DER
    #[arg(long)]
    pub certificate: PathBuf,
    /// Its private key, in PKCS #8 DER
    #[arg(long)]
    pub key: PathBuf,
    /// The folder of the files
    #[arg(long)]
    pub files: PathBuf,
    /// Clients have to prove their address by a Retry packet
    #[arg(long)]
    pub retry: bool,
    #[command(flatten)]
    pub transport: Transport,
}

#[derive(Args, Clone)]
pub struct FetchOptions {
    /// The port of the server, on 127.0.0.1
    #[arg(long)]
    pub port: u16,
    /// The root certificate, in DER
    #[arg(long)]
    pub root: PathBuf,
    /// The application protocol
    #[arg(long, value_enum, default_value_t = Protocol::H3)]
    pub protocol: Protocol,
    /// How many requests run at a time
    #[arg(long, default_value_t = 100)]
    pub parallel: usize,
    /// How often the paths are fetched
    #[arg(long, default_value_t = 1)]
    pub times: usize,
    /// A download is cancelled after this many bytes
    #[arg(long)]
    pub cancel_after: Option<u64>,
    /// Each path is sent this file instead of being fetched
    #[arg(long)]
    pub post: Option<PathBuf>,
    /// How the body of a response over HTTP/0.9 is read
    #[arg(long, value_enum, default_value_t = Reading::Buffer)]
    pub reading: Reading,
    /// Each request has the next lower priority
    #[arg(long)]
    pub priorities: bool,
    /// This many streams are abandoned first, in six ways in turn
    #[arg(long, default_value_t = 0)]
    pub abandon: u64,
    /// A second connection resumes the first with 0-RTT
    #[arg(long)]
    pub resume: bool,
    /// What happens before the paths are fetched once more
    #[arg(long, value_enum)]
    pub then: Vec<Then>,
    #[command(flatten)]
    pub echo: EchoOptions,
    #[command(flatten)]
    pub transport: Transport,
    /// The paths
    pub paths: Vec<String>,
}

#[derive(Args, Clone)]
pub struct EchoOptions {
    /// How many bidirectional streams are echoed
    #[arg(long, default_value_t = 0)]
    pub bidirectional: u64,
    /// How many unidirectional streams are echoed
    #[arg(long, default_value_t = 0)]
    pub unidirectional: u64,
    /// How many datagrams are echoed
    #[arg(long, default_value_t = 0)]
    pub datagrams: u64,
    /// The length of each echoed stream
    #[arg(long, default_value_t = 10_000)]
    pub stream_length: usize,
}

#[derive(Clone, Copy, PartialEq, Eq, ValueEnum)]
pub enum Protocol {
    H3,
    Hq,
    Echo,
}

impl Protocol {
    pub const ALL: [Protocol; 3] = [Protocol::H3, Protocol::Hq, Protocol::Echo];

    /// The name in TLS (ALPN).
    pub fn name(self) -> &'static str {
        match self {
            Protocol::H3 => "h3",
            Protocol::Hq => "hq-interop",
            Protocol::Echo => "echo",
        }
    }

    pub fn of(name: &[u8]) -> Option<Self> {
        let is_it = |protocol: &Self| protocol.name().as_bytes() == name;
        Self::ALL.into_iter().find(is_it)
    }
}

#[derive(Clone, Copy, ValueEnum)]
pub enum Reading {
    /// Into a buffer
    Buffer,
    /// Chunk by chunk
    Chunk,
    /// Several chunks at a time
    Chunks,
    /// In the order of arrival
    Unordered,
}

#[derive(Clone, Copy, ValueEnum)]
pub enum Then {
    /// Update the keys
    KeyUpdate,
    /// Change the local port
    Rebind,
    /// Be idle for twelve seconds
    Idle,
}

/// What is different from quinn's defaults.
#[derive(Args, Clone)]
pub struct Transport {
    /// How many bytes of a stream may be received and not read
    #[arg(long)]
    stream_window: Option<u64>,
    /// How many bytes of all streams together may be received and not read
    #[arg(long)]
    receive_window: Option<u64>,
    /// How many bytes may be written and not acknowledged
    #[arg(long)]
    send_window: Option<u64>,
    /// How many bidirectional streams the other endpoint may have open
    #[arg(long)]
    max_bidirectional: Option<u64>,
    /// How many unidirectional streams the other endpoint may have open
    #[arg(long)]
    max_unidirectional: Option<u64>,
    /// The idle timeout, in seconds
    #[arg(long, default_value_t = 15)]
    idle: u64,
}

impl Transport {
    pub fn config(&self) -> anyhow::Result<Arc<TransportConfig>> {
        let mut config = TransportConfig::default();
        let number = |value| VarInt::from_u64(value).context("a number is above its bound");
        if let Some(window) = self.stream_window {
            config.stream_receive_window(number(window)?);
        }
        if let Some(window) = self.receive_window {
            config.receive_window(number(window)?);
        }
        if let Some(window) = self.send_window {
            config.send_window(window);
        }
        if let Some(count) = self.max_bidirectional {
            config.max_concurrent_bidi_streams(number(count)?);
        }
        if let Some(count) = self.max_unidirectional {
            config.max_concurrent_uni_streams(number(count)?);
        }
        let idle = IdleTimeout::try_from(Duration::from_secs(self.idle))?;
        config.max_idle_timeout(Some(idle));
        Ok(Arc::new(config))
    }
}
