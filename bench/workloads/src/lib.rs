//! Work for the stream layer of a QUIC connection.
//!
//! Each workload is one generic function over the trait [`Endpoint`], so every implementation does the same work. It returns an
//! [`Outcome`]: two check numbers that must be equal in all implementations.

mod calls;
mod channel;
mod content;
mod endpoint;
mod memory;
mod messages;
mod pair;
mod requests;
mod scale;
mod table;
mod transfers;

pub use calls::{Step, Steps};
pub use channel::Loss;
pub use content::{Content, Random, Sum};
pub use endpoint::{Direction, Endpoint, Event, Limits, Reading, Side};
pub use memory::{rows, Row};
pub use scale::{Scale, SCALES};
pub use table::{find, Outcome, Workload, WORKLOADS};
