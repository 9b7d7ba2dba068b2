//! The client's side of HTTP/3.

use super::{drain_control, headers, open_control, value, DATA, HEADERS, REQUEST_CANCELLED};
use crate::fetch::{Request, Response};
use crate::qpack;
use crate::report::Body;
use crate::stream::{send_rest, Reader};
use anyhow::{bail, Context};
use bytes::Bytes;
use quinn::{Connection, RecvStream, SendStream, VarInt, WriteError};
use tokio::task::spawn_local;

/// A connection with its control streams, which stay open.
pub struct Client {
    connection: Connection,
    _control: Vec<SendStream>,
}

impl Client {
    pub async fn new(connection: Connection) -> anyhow::Result<Self> {
        let control = open_control(&connection).await?;
        spawn_local(drain_control(connection.clone()));
        Ok(Self {
            connection,
            _control: control,
        })
    }

    pub async fn request(&self, request: &Request) -> anyhow::Result<Response> {
        let (mut send, receive) = self.connection.open_bi().await?;
        send.set_priority(request.priority)?;
        send.write_all(&head(request)?).await?;
        let Some(body) = request.body.clone() else {
            send.finish().await?;
            return response(receive, request.cancel_after).await;
        };
        let (sent, got) = tokio::join!(
            send_rest(&mut send, body),
            response(receive, request.cancel_after)
        );
        let mut got = got?;
        // A server that has answered may stop the rest of the body (RFC 9114 section 4.1).
        match sent {
            Err(WriteError::Stopped(_)) => got.status += "-stopped",
            sent => sent?,
        }
        Ok(got)
    }
}

fn head(request: &Request) -> anyhow::Result<Vec<u8>> {
    let urgency = format!("u={}", 3 - request.priority);
    let length = request.body.as_ref().map(|body| body.len().to_string());
    let method = if length.is_some() { "POST" } else { "GET" };
    let mut fields = vec![
        (":method", method),
        (":scheme", "https"),
        (":authority", "localhost"),
        (":path", request.path.as_str()),
        ("priority", urgency.as_str()),
    ];
    if let Some(length) = &length {
        fields.push(("content-length", length));
    }
    headers(&fields, request.body.as_ref().map(Bytes::len))
}

async fn response(receive: RecvStream, cancel_after: Option<u64>) -> anyhow::Result<Response> {
    let mut reader = Reader::new(receive);
    let (mut status, mut body, mut text) = (String::new(), Body::new(), Vec::new());
    while let Some(frame_type) = reader.integer().await? {
        let mut left = reader.integer().await?.context("a frame is cut")?;
        if frame_type == HEADERS && status.is_empty() {
            let fields = qpack::decode(&reader.exactly(left).await?)?;
            status = value(&fields, ":status").to_owned();
            continue;
        }
        while left > 0 {
            let bytes = reader.some(left).await?;
            left -= bytes.len() as u64;
            if frame_type != DATA {
                continue;
            }
            body.add(&bytes);
            Response::keep(&mut text, &bytes);
            if cancel_after.is_some_and(|limit| body.length >= limit) {
                reader.stream.stop(VarInt::from_u32(REQUEST_CANCELLED))?;
                return Ok(Response::new("cancelled", body, text));
            }
        }
    }
    if status.is_empty() {
        bail!("the response has no header section");
    }
    Ok(Response::new(&status, body, text))
}
