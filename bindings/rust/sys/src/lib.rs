//! The calls of `quic_streams.h`, as they are: the streams and datagrams of one endpoint of a QUIC connection. The crate
//! `quic-streams` is a safe layer over them.
//!
//! Constants, structs and calls have the names and the comments of the header. They are made from it, and their layout is
//! asserted at compile time. Every call is unsafe: the conditions on its pointers are those of the header.
//!
//! The build script links `libquic_streams` from the folder that `QUIC_STREAMS_LIB_DIR` names, or from the one that
//! pkg-config knows. Without the library the crate compiles, and a program that calls it fails to link.

#![allow(non_camel_case_types, clippy::doc_markdown)]

#[cfg(not(all(target_arch = "x86_64", target_os = "linux")))]
compile_error!("libquic_streams is for x86-64 and Linux");

#[allow(missing_docs)]
mod bindings;

pub use bindings::*;
