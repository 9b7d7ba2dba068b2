//! The server's side of HTTP/3.

use super::{drain_control, headers, open_control, value, DATA, HEADERS, NO_ERROR};
use crate::qpack::{self, Field};
use crate::report::Body;
use crate::site::{File, Site};
use crate::stream::{send_rest, Reader};
use anyhow::Context;
use bytes::Bytes;
use quinn::{Connection, RecvStream, SendStream, VarInt};
use std::rc::Rc;
use tokio::task::spawn_local;

/// What a page posts here is printed.
const REPORT: &str = "/report";
/// This picture is sent once a page has reported, so that the page is loaded no sooner.
const AFTER_REPORT: &str = "/after-report.png";
/// What is posted here is not read, but stopped (RFC 9114 section 4.1).
const UNREAD: &str = "/unread";
/// Bodies of requests are kept up to this length.
const LONGEST_REPORT: usize = 1 << 16;

pub async fn serve(connection: &Connection, site: Rc<Site>) -> anyhow::Result<()> {
    let _control = open_control(connection).await?;
    spawn_local(drain_control(connection.clone()));
    while let Ok((send, receive)) = connection.accept_bi().await {
        let site = site.clone();
        if receive.is_0rtt() {
            println!("early request");
        }
        spawn_local(async move {
            let id = send.id();
            if let Err(error) = request(send, receive, &site).await {
                eprintln!("h3 stream {id}: {error:#}");
            }
        });
    }
    Ok(())
}

/// A request without its body.
async fn read_head(reader: &mut Reader) -> anyhow::Result<Vec<Field>> {
    loop {
        let frame_type = reader.integer().await?.context("the request is empty")?;
        let length = reader.integer().await?.context("a frame is cut")?;
        let content = reader.exactly(length).await?;
        if frame_type == HEADERS {
            return qpack::decode(&content);
        }
    }
}

/// Reads the body: its beginning, and its length with its hash.
async fn read_body(reader: &mut Reader) -> anyhow::Result<(Vec<u8>, String)> {
    let (mut first, mut body) = (Vec::new(), Body::new());
    while let Some(frame_type) = reader.integer().await? {
        let mut left = reader.integer().await?.context("a frame is cut")?;
        while left > 0 {
            let bytes = reader.some(left).await?;
            left -= bytes.len() as u64;
            if frame_type == DATA {
                body.add(&bytes);
                let room = LONGEST_REPORT - first.len();
                first.extend_from_slice(&bytes[..bytes.len().min(room)]);
            }
        }
    }
    Ok((first, body.finish()))
}

async fn request(mut send: SendStream, receive: RecvStream, site: &Site) -> anyhow::Result<()> {
    let mut reader = Reader::new(receive);
    let fields = read_head(&mut reader).await?;
    let (method, path) = (value(&fields, ":method"), value(&fields, ":path"));
    send.set_priority(priority(value(&fields, "priority")))?;
    let file = match (method, path) {
        ("POST", UNREAD) => {
            reader.stream.stop(VarInt::from_u32(NO_ERROR))?;
            Some(text("the body was not read".to_owned()))
        }
        ("POST", _) => {
            let (first, body) = read_body(&mut reader).await?;
            if path == REPORT {
                site.report(&first);
            }
            Some(text(body))
        }
        _ => {
            read_body(&mut reader).await?;
            if path == AFTER_REPORT {
                site.until_reported().await;
            }
            site.find(path)
        }
    };
    respond(&mut send, method, file).await
}

async fn respond(send: &mut SendStream, method: &str, file: Option<File>) -> anyhow::Result<()> {
    let status = if file.is_some() { "200" } else { "404" };
    let file = file.unwrap_or_else(|| text("not found".to_owned()));
    let length = file.content.len().to_string();
    let fields = [
        (":status", status),
        ("content-type", file.media_type),
        ("content-length", &length),
        ("cache-control", "no-store"),
    ];
    let has_body = method != "HEAD";
    let head = headers(&fields, has_body.then_some(file.content.len()))?;
    send.write_all(&head).await?;
    let body = if has_body { file.content } else { Bytes::new() };
    Ok(send_rest(send, body).await?)
}

fn text(content: String) -> File {
    File {
        media_type: "text/plain",
        content: Bytes::from(content),
    }
}

/// The priority of a stream for an urgency (RFC 9218 section 4.1): 3 unless given, and 0 is the most urgent.
fn priority(field: &str) -> i32 {
    let urgency = field
        .split(',')
        .find_map(|part| part.trim().strip_prefix("u="));
    3 - urgency.and_then(|digit| digit.parse().ok()).unwrap_or(3)
}
