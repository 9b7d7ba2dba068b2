//! An echo of streams and datagrams.
//!
//! The server sends a bidirectional stream back on itself, a unidirectional one on one of its own, and datagrams as they are.
//! What a client sends begins with a number, from which the rest follows.

use crate::options::EchoOptions;
use anyhow::{ensure, Context};
use bytes::Bytes;
use quinn::{Connection, RecvStream, SendStream, VarInt};
use std::collections::HashSet;
use std::time::Duration;
use tokio::task::{spawn_local, JoinSet};
use tokio::time::{sleep, timeout};

const AT_ONCE: usize = 1 << 16;
const DATAGRAM_LENGTH: usize = 200;
const UNECHOED: u32 = 9;

pub async fn serve(connection: &Connection) -> anyhow::Result<()> {
    spawn_local(serve_unidirectional(connection.clone()));
    spawn_local(serve_datagrams(connection.clone()));
    while let Ok((send, receive)) = connection.accept_bi().await {
        spawn_local(told(copy(receive, send)));
    }
    Ok(())
}

async fn serve_unidirectional(connection: Connection) {
    while let Ok(receive) = connection.accept_uni().await {
        let connection = connection.clone();
        spawn_local(told(async move {
            let send = connection.open_uni().await?;
            copy(receive, send).await
        }));
    }
}

async fn serve_datagrams(connection: Connection) {
    while let Ok(datagram) = connection.read_datagram().await {
        if let Err(error) = connection.send_datagram(datagram) {
            eprintln!("datagram: {error}");
        }
    }
}

async fn told(work: impl std::future::Future<Output = anyhow::Result<()>>) {
    if let Err(error) = work.await {
        eprintln!("echo: {error:#}");
    }
}

async fn copy(mut receive: RecvStream, mut send: SendStream) -> anyhow::Result<()> {
    while let Some(chunk) = receive.read_chunk(AT_ONCE, true).await? {
        if let Err(error) = send.write_chunk(chunk.bytes).await {
            let _ = receive.stop(VarInt::from_u32(UNECHOED));
            return Err(error.into());
        }
    }
    send.finish().await?;
    Ok(())
}

/// The bytes of a stream or datagram with this number.
fn content(number: u64, length: usize) -> Bytes {
    let mut state = number.wrapping_add(1).wrapping_mul(0x9e37_79b9_7f4a_7c15) | 1;
    let mut bytes = number.to_be_bytes().to_vec();
    while bytes.len() < length {
        state ^= state << 13;
        state ^= state >> 7;
        state ^= state << 17;
        bytes.extend(state.to_le_bytes());
    }
    bytes.truncate(length);
    bytes.into()
}

/// The number of received bytes, if they are what follows from it.
fn number_of(bytes: &[u8], length: usize) -> anyhow::Result<u64> {
    let first = bytes.get(..8).context("an echo is too short")?;
    let number = u64::from_be_bytes(first.try_into()?);
    ensure!(bytes == content(number, length), "echo {number} differs");
    Ok(number)
}

/// Has streams and datagrams echoed, and tells how many of each came back.
pub async fn request(connection: &Connection, options: &EchoOptions) -> anyhow::Result<String> {
    let (length, mut tasks) = (options.stream_length, JoinSet::new());
    for number in 0..options.bidirectional {
        tasks.spawn_local(bidirectional(connection.clone(), number, length));
    }
    for number in 0..options.unidirectional {
        tasks.spawn_local(send_unidirectional(connection.clone(), number, length));
    }
    let back = receive_unidirectional(connection, options.unidirectional, length).await?;
    while let Some(task) = tasks.join_next().await {
        task??;
    }
    let datagrams = echo_datagrams(connection, options.datagrams).await?;
    Ok(format!(
        "bidirectional={} unidirectional={back} datagrams={datagrams}",
        options.bidirectional
    ))
}

async fn bidirectional(connection: Connection, number: u64, length: usize) -> anyhow::Result<()> {
    let (mut send, receive) = connection.open_bi().await?;
    let sent = content(number, length);
    let writing = async {
        // chunks that fit into no packet, and end where none does
        for chunk in sent.chunks(3001) {
            send.write_all(chunk).await?;
        }
        anyhow::Ok(send.finish().await?)
    };
    let (written, read) = tokio::join!(writing, receive.read_to_end(length + 1));
    written?;
    ensure!(
        number_of(&read?, length)? == number,
        "another stream's echo"
    );
    Ok(())
}

async fn send_unidirectional(
    connection: Connection,
    number: u64,
    length: usize,
) -> anyhow::Result<()> {
    let mut send = connection.open_uni().await?;
    send.write_chunk(content(number, length)).await?;
    send.finish().await?;
    Ok(())
}

/// Reads the streams that the server opens, which carry each number once.
async fn receive_unidirectional(
    connection: &Connection,
    count: u64,
    length: usize,
) -> anyhow::Result<usize> {
    let mut tasks = JoinSet::new();
    for _ in 0..count {
        let receive = connection.accept_uni().await?;
        tasks
            .spawn_local(async move { number_of(&receive.read_to_end(length + 1).await?, length) });
    }
    let mut numbers = HashSet::new();
    while let Some(task) = tasks.join_next().await {
        ensure!(numbers.insert(task??), "an echo came twice");
    }
    Ok(numbers.len())
}

/// Sends datagrams, a few at a time, and counts the different ones that come back.
async fn echo_datagrams(connection: &Connection, count: u64) -> anyhow::Result<usize> {
    let sending = async {
        for number in 0..count {
            connection.send_datagram(content(number, DATAGRAM_LENGTH))?;
            if number % 8 == 7 {
                sleep(Duration::from_millis(2)).await;
            }
        }
        anyhow::Ok(())
    };
    let receiving = async {
        let mut numbers = HashSet::new();
        while (numbers.len() as u64) < count {
            match timeout(Duration::from_secs(1), connection.read_datagram()).await {
                Ok(datagram) => numbers.insert(number_of(&datagram?, DATAGRAM_LENGTH)?),
                Err(_) => break,
            };
        }
        anyhow::Ok(numbers.len())
    };
    let (sent, received) = tokio::join!(sending, receiving);
    sent?;
    received
}
