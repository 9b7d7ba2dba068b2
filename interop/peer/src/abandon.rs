//! Streams that a client of HTTP/0.9 gives up, in six ways.

use anyhow::ensure;
use quinn::{Connection, RecvStream, SendStream, VarInt};

const CODE: u32 = 5;

/// Opens this many streams one after another, and abandons each.
pub async fn abandon(connection: &Connection, count: u64) -> anyhow::Result<()> {
    for number in 0..count {
        let (send, receive) = connection.open_bi().await?;
        one(send, receive, number).await?;
    }
    Ok(())
}

/// The server may stop the request at any time, so results of writing are not looked at.
async fn one(mut send: SendStream, mut receive: RecvStream, number: u64) -> anyhow::Result<()> {
    let code = VarInt::from_u32(CODE);
    match number % 6 {
        // half a request, then a reset and a stop
        0 => {
            let _ = send.write_all(b"GET /1").await;
            let _ = send.reset(code);
            receive.stop(code)?;
        }
        // a reset before the first byte
        1 => {
            let _ = send.reset(code);
            receive.stop(code)?;
        }
        // a stop behind the request
        2 => {
            request(&mut send, b"GET /1m\r\n").await;
            receive.stop(code)?;
        }
        // a stop and a reset inside the response
        3 => {
            request(&mut send, b"GET /1m\r\n").await;
            receive.read_chunk(1000, true).await?;
            receive.stop(code)?;
            let _ = send.reset(code);
        }
        // a stop before the request
        4 => {
            receive.stop(code)?;
            request(&mut send, b"GET /1m\r\n").await;
        }
        // a file that does not exist: the server resets its side
        _ => {
            request(&mut send, b"GET /none\r\n").await;
            let answer = receive.read_chunk(1000, true).await;
            ensure!(!matches!(answer, Ok(Some(_))), "a missing file was sent");
        }
    }
    Ok(())
}

async fn request(send: &mut SendStream, line: &[u8]) {
    let _ = send.write_all(line).await;
    let _ = send.finish().await;
}
