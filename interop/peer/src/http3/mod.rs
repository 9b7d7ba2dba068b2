//! HTTP/3 (RFC 9114), as much as files and forms need.

mod client;
mod server;

pub use client::Client;
pub use server::serve;

use crate::qpack::{self, Field};
use crate::stream::put_integer;
use quinn::{Connection, SendStream};
use tokio::task::spawn_local;

/// Frame types (RFC 9114 section 7.2).
const DATA: u64 = 0x0;
const HEADERS: u64 = 0x1;

/// Error codes (RFC 9114 section 8.1).
pub const NO_ERROR: u32 = 0x100;
const REQUEST_CANCELLED: u32 = 0x10c;

/// A control stream with an empty SETTINGS frame, and the two streams of QPACK (RFC 9114 section 6.2, RFC 9204 section 4.2).
const UNIDIRECTIONAL: [&[u8]; 3] = [&[0x0, 0x4, 0x0], &[0x2], &[0x3]];

/// Opens the unidirectional streams of an endpoint. They have to stay open as long as the connection.
async fn open_control(connection: &Connection) -> anyhow::Result<Vec<SendStream>> {
    let mut streams = Vec::new();
    for first in UNIDIRECTIONAL {
        let mut stream = connection.open_uni().await?;
        stream.write_all(first).await?;
        streams.push(stream);
    }
    Ok(streams)
}

/// Reads the other endpoint's unidirectional streams. Nothing in them matters here.
async fn drain_control(connection: Connection) {
    while let Ok(mut stream) = connection.accept_uni().await {
        spawn_local(async move { while let Ok(Some(_)) = stream.read_chunk(4096, true).await {} });
    }
}

fn put_frame_header(out: &mut Vec<u8>, frame_type: u64, length: u64) {
    put_integer(out, frame_type);
    put_integer(out, length);
}

/// A HEADERS frame, and the header of the DATA frame after it if there is a body.
fn headers(fields: &[(&str, &str)], body: Option<usize>) -> anyhow::Result<Vec<u8>> {
    let section = qpack::encode(fields)?;
    let mut out = Vec::new();
    put_frame_header(&mut out, HEADERS, section.len() as u64);
    out.extend(section);
    if let Some(length) = body {
        put_frame_header(&mut out, DATA, length as u64);
    }
    Ok(out)
}

/// The value of a field, or an empty text.
fn value<'a>(fields: &'a [Field], name: &str) -> &'a str {
    let field = fields.iter().find(|field| field.0 == name);
    field.map_or("", |(_, value)| value)
}
