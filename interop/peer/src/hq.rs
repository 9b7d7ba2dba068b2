//! HTTP/0.9 over QUIC (`hq-interop`): a line on a stream is the request, and the rest of the stream is the file.

use crate::fetch::{Request, Response};
use crate::options::Reading;
use crate::report::Body;
use crate::site::Site;
use crate::stream::send_rest;
use anyhow::Context;
use bytes::Bytes;
use quinn::{Connection, RecvStream, SendStream, VarInt, WriteError};
use std::rc::Rc;
use tokio::task::spawn_local;

const LONGEST_LINE: usize = 4096;
const NOT_FOUND: u32 = 404;
const CANCELLED: u32 = 7;

pub async fn serve(connection: &Connection, site: Rc<Site>) -> anyhow::Result<()> {
    while let Ok((send, receive)) = connection.accept_bi().await {
        let site = site.clone();
        spawn_local(async move {
            let id = send.id();
            if let Err(error) = answer(send, receive, &site).await {
                eprintln!("hq stream {id}: {error:#}");
            }
        });
    }
    Ok(())
}

async fn answer(mut send: SendStream, mut receive: RecvStream, site: &Site) -> anyhow::Result<()> {
    let mut line = Vec::new();
    while !line.ends_with(b"\n") && line.len() < LONGEST_LINE {
        match receive.read_chunk(LONGEST_LINE, true).await? {
            Some(chunk) => line.extend_from_slice(&chunk.bytes),
            None => break,
        }
    }
    let line = String::from_utf8_lossy(&line);
    let path = line.strip_prefix("GET ").context("no GET")?.trim_end();
    match site.find(path) {
        Some(file) => send_rest(&mut send, file.content).await?,
        None => send.reset(VarInt::from_u32(NOT_FOUND))?,
    }
    Ok(())
}

pub async fn request(connection: &Connection, request: &Request) -> anyhow::Result<Response> {
    let (mut send, mut receive) = connection.open_bi().await?;
    let line = format!("GET {}\r\n", request.path);
    send.write_all(line.as_bytes()).await?;
    // A server that has read the line may stop the stream before its FIN is acknowledged.
    match send.finish().await {
        Ok(()) | Err(WriteError::Stopped(_)) => {}
        Err(error) => return Err(error.into()),
    }
    let mut body = Body::new();
    if let Reading::Unordered = request.reading {
        body.add(&read_unordered(&mut receive).await?);
        return Ok(Response::new("200", body, Vec::new()));
    }
    while let Some(chunks) = read_some(&mut receive, request.reading).await? {
        chunks.iter().for_each(|chunk| body.add(chunk));
        let length = body.length;
        if request.cancel_after.is_some_and(|limit| length >= limit) {
            receive.stop(VarInt::from_u32(CANCELLED))?;
            return Ok(Response::new("cancelled", body, Vec::new()));
        }
    }
    Ok(Response::new("200", body, Vec::new()))
}

/// The next bytes in order, in one of three ways; `None` at the end of the stream.
async fn read_some(
    receive: &mut RecvStream,
    reading: Reading,
) -> anyhow::Result<Option<Vec<Bytes>>> {
    Ok(match reading {
        Reading::Chunk => {
            let chunk = receive.read_chunk(usize::MAX, true).await?;
            chunk.map(|chunk| vec![chunk.bytes])
        }
        Reading::Chunks => {
            let mut chunks = vec![Bytes::new(); 7];
            let count = receive.read_chunks(&mut chunks).await?;
            count.map(|count| chunks[..count].to_vec())
        }
        Reading::Buffer | Reading::Unordered => {
            let mut buffer = vec![0; 1 << 16];
            let count = receive.read(&mut buffer).await?;
            count.map(|count| vec![Bytes::copy_from_slice(&buffer[..count])])
        }
    })
}

/// Reads to the end in the order of arrival, and puts the bytes into their order.
async fn read_unordered(receive: &mut RecvStream) -> anyhow::Result<Vec<u8>> {
    let mut content = Vec::new();
    while let Some(chunk) = receive.read_chunk(usize::MAX, false).await? {
        let begin = usize::try_from(chunk.offset)?;
        let end = begin + chunk.bytes.len();
        if content.len() < end {
            content.resize(end, 0);
        }
        content[begin..end].copy_from_slice(&chunk.bytes);
    }
    Ok(content)
}
