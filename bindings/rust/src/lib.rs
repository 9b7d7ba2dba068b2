//! The streams and datagrams of one endpoint of a QUIC connection (RFC 9000 sections 2 to 4, 13.3 and 19; RFC 9221), for a host
//! that has packets, loss detection, encryption and sockets of its own. This crate is a safe layer over `libquic_streams`.
//!
//! The host passes in received payloads ([`StreamsState::receive`], which leaves ACK and CRYPTO frames to it), has payloads written for the packets that it sends
//! ([`StreamsState::emit`]), and reports each of these once, as acknowledged or lost ([`StreamsState::acked`],
//! [`StreamsState::lost`]).
//!
//! ```
//! use quic_streams::{Config, Dir, Emit, Event, Limits, Received, Side, StreamsState};
//!
//! # fn main() -> Result<(), Box<dyn std::error::Error>> {
//! let config = Config::default();
//! let mut client = StreamsState::new(Side::Client, &config)?;
//! let mut server = StreamsState::new(Side::Server, &config)?;
//! client.set_params(&Limits::of(&config))?;
//! server.set_params(&Limits::of(&config))?;
//!
//! let id = client.open(Dir::Uni)?.expect("a stream is allowed");
//! assert_eq!(client.send_stream(id).write(b"hello")?, 5);
//! client.send_stream(id).finish()?;
//!
//! let mut packet = [0; 1200];
//! let payload = client.emit(&mut packet, Emit::ALL)?.expect("data is pending");
//! assert_eq!(server.receive(&packet[..payload.len])?, Received::All);
//! client.acked(payload.token)?;
//!
//! assert_eq!(server.poll(), Some(Event::Opened { dir: Dir::Uni }));
//! assert_eq!(server.accept(Dir::Uni), Ok(Some(id)));
//! let mut text = [0; 100];
//! let count = server.recv_stream(id).read(&mut text)?.expect("the stream goes on");
//! assert_eq!(&text[..count], b"hello");
//! assert_eq!(server.recv_stream(id).read(&mut text)?, None);
//! assert_eq!(client.poll(), Some(Event::Finished { id }));
//! # Ok(())
//! # }
//! ```
//!
//! Out of memory inside the library is an error. If Rust has no memory for a `Vec` or a `String` of this crate, the process
//! ends, as usual.

// Frames and codes have their names of the RFC, without backticks.
#![warn(missing_docs, clippy::pedantic)]
#![allow(clippy::doc_markdown)]
#![deny(clippy::undocumented_unsafe_blocks, unsafe_op_in_unsafe_fn)]

mod buffers;
mod chunks;
mod config;
mod datagrams;
mod errors;
mod frames;
mod id;
mod recv;
mod send;
mod state;
mod transport_error;
mod values;
mod varint;

pub use buffers::Buffer;
pub use chunks::{Chunk, Chunks};
pub use config::{Config, Limits};
pub use errors::{
    ConfigError, FinishError, OutOfMemory, ReadError, ReceiveError, SendDatagramError, SettleError,
    StreamError, WriteError,
};
pub use id::{Dir, Side, StreamId};
pub use recv::{Next, ReadLent, ReadMany, RecvStream};
pub use send::{SendStream, Written};
pub use state::{version, StreamsState};
pub use transport_error::{TransportError, TransportErrorCode};
pub use values::{Due, Emit, Event, FrameStats, Info, Lent, Payload, Received, Stats, Token};
pub use varint::{VarInt, VarIntBoundsExceeded};
