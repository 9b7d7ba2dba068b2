//! What the examples share: packets over UDP ([`Host`]), and the loop of a program over them ([`run`]).

mod packets;
mod program;

pub use packets::{Counts, Host, Result};
pub use program::{run, Program};
