//! The client.

use crate::options::{FetchOptions, Protocol, Reading, Then};
use crate::report::{self, Body};
use crate::{abandon, echo, hq, http3, tls};
use anyhow::{bail, ensure, Context};
use bytes::Bytes;
use quinn::{Connection, ConnectionError, Endpoint, VarInt};
use std::net::{Ipv4Addr, SocketAddr, UdpSocket};
use std::rc::Rc;
use std::time::{Duration, Instant};
use tokio::io::AsyncReadExt;
use tokio::sync::Semaphore;
use tokio::task::JoinSet;
use tokio::time::{sleep, timeout};

/// What a server answers to a form is kept up to this length.
const LONGEST_TEXT: usize = 200;

pub struct Request {
    pub path: String,
    /// What is sent; without it the path is fetched.
    pub body: Option<Bytes>,
    pub cancel_after: Option<u64>,
    pub reading: Reading,
    pub priority: i32,
}

pub struct Response {
    pub status: String,
    body: Body,
    text: Vec<u8>,
}

impl Response {
    pub fn new(status: &str, body: Body, text: Vec<u8>) -> Self {
        let status = status.to_owned();
        Self { status, body, text }
    }

    /// Adds bytes of a body to those that are kept.
    pub fn keep(text: &mut Vec<u8>, bytes: &[u8]) {
        let room = LONGEST_TEXT - text.len();
        text.extend_from_slice(&bytes[..bytes.len().min(room)]);
    }
}

/// A connection with what its protocol needs.
enum Client {
    Http3(http3::Client),
    Hq(Connection),
}

impl Client {
    async fn new(connection: &Connection, protocol: Protocol) -> anyhow::Result<Self> {
        Ok(match protocol {
            Protocol::H3 => Self::Http3(http3::Client::new(connection.clone()).await?),
            _ => Self::Hq(connection.clone()),
        })
    }

    async fn request(&self, request: &Request) -> anyhow::Result<Response> {
        match self {
            Self::Http3(client) => client.request(request).await,
            Self::Hq(connection) => hq::request(connection, request).await,
        }
    }
}

/// What was fetched with. HTTP/3's control streams have to stay open until the connection is closed.
type Outcome = anyhow::Result<Option<Rc<Client>>>;

pub async fn run(options: FetchOptions) -> anyhow::Result<()> {
    let mut endpoint = Endpoint::client((Ipv4Addr::LOCALHOST, 0).into())?;
    endpoint.set_default_client_config(tls::client(&options)?);
    let server = SocketAddr::from((Ipv4Addr::LOCALHOST, options.port));
    let began = Instant::now();
    let connection = endpoint.connect(server, "localhost")?.await?;
    let first = work(&endpoint, &connection, &options).await;
    let mut good = ended(&connection, &options, first).await;
    if good && options.resume {
        println!("resume");
        input_line().await?;
        let (connection, outcome) = resumed(&endpoint, server, &options).await?;
        good = ended(&connection, &options, outcome).await;
    }
    let _ = timeout(Duration::from_secs(3), endpoint.wait_idle()).await;
    println!("seconds {:.3}", began.elapsed().as_secs_f64());
    ensure!(good, "not everything was received");
    Ok(())
}

/// Waits for a line of standard input: the server may be another one afterwards.
async fn input_line() -> anyhow::Result<()> {
    let mut input = tokio::io::stdin();
    while input.read_u8().await? != b'\n' {}
    Ok(())
}

/// Closes a connection and prints its counts; false if it failed or had ended before.
async fn ended(connection: &Connection, options: &FetchOptions, outcome: Outcome) -> bool {
    // the server has time to object to the last frames
    sleep(Duration::from_millis(100)).await;
    let early = connection.close_reason();
    if let Err(error) = &outcome {
        println!("failed: {error:#}");
    }
    let code = match options.protocol {
        Protocol::H3 => http3::NO_ERROR,
        _ => 0,
    };
    connection.close(VarInt::from_u32(code), b"done");
    let is_whole = early.is_none();
    let reason = early.unwrap_or(ConnectionError::LocallyClosed);
    report::connection_ended(connection, &reason);
    outcome.is_ok() && is_whole
}

/// All that is asked for on one connection.
async fn work(endpoint: &Endpoint, connection: &Connection, options: &FetchOptions) -> Outcome {
    if let Protocol::Echo = options.protocol {
        println!("echo {}", echo::request(connection, &options.echo).await?);
        return Ok(None);
    }
    abandon::abandon(connection, options.abandon).await?;
    let client = Rc::new(Client::new(connection, options.protocol).await?);
    fetch_all(&client, options).await?;
    for then in &options.then {
        match then {
            Then::KeyUpdate => connection.force_key_update(),
            Then::Rebind => endpoint.rebind(UdpSocket::bind((Ipv4Addr::LOCALHOST, 0))?)?,
            Then::Idle => sleep(Duration::from_secs(12)).await,
        }
        fetch_all(&client, options).await?;
    }
    Ok(Some(client))
}

/// Connects again, with all requests in 0-RTT. If the server rejects that, they are made anew.
async fn resumed(
    endpoint: &Endpoint,
    server: SocketAddr,
    options: &FetchOptions,
) -> anyhow::Result<(Connection, Outcome)> {
    let Ok((connection, mut accepted)) = endpoint.connect(server, "localhost")?.into_0rtt() else {
        bail!("there is no ticket for 0-RTT");
    };
    let early = {
        let early = work(endpoint, &connection, options);
        tokio::pin!(early);
        tokio::select! {
            biased;
            is_accepted = &mut accepted => match is_accepted {
                true => Some(early.await),
                false => None,
            },
            outcome = &mut early => accepted.await.then_some(outcome),
        }
        // here the tasks of the early requests are dropped: quinn never wakes them once 0-RTT is rejected
    };
    println!(
        "early {}",
        if early.is_some() {
            "accepted"
        } else {
            "rejected"
        }
    );
    let outcome = match early {
        Some(outcome) => outcome,
        None => work(endpoint, &connection, options).await,
    };
    Ok((connection, outcome))
}

/// Makes the requests of the command line, and prints each response as it is complete.
async fn fetch_all(client: &Rc<Client>, options: &FetchOptions) -> anyhow::Result<()> {
    let body = options.post.as_ref().map(std::fs::read).transpose();
    let body = body
        .context("cannot read the file to send")?
        .map(Bytes::from);
    let slots = Rc::new(Semaphore::new(options.parallel));
    let mut tasks = JoinSet::new();
    let began = Instant::now();
    let paths = (0..options.times).flat_map(|_| &options.paths);
    for (number, path) in paths.enumerate() {
        let request = Request {
            path: path.clone(),
            body: body.clone(),
            cancel_after: options.cancel_after,
            reading: options.reading,
            priority: priority(options, number),
        };
        let (client, slots) = (client.clone(), slots.clone());
        tasks.spawn_local(async move {
            let _slot = slots.acquire().await?;
            let response = client.request(&request).await;
            let response = response.with_context(|| request.path.clone())?;
            told(&request, response, began);
            anyhow::Ok(())
        });
    }
    let mut failed = 0;
    while let Some(task) = tasks.join_next().await {
        if let Err(error) = task? {
            println!("failed {error:#}");
            failed += 1;
        }
    }
    ensure!(failed == 0, "{failed} requests failed");
    Ok(())
}

/// Later requests are the more urgent ones, so that they have to overtake.
fn priority(options: &FetchOptions, number: usize) -> i32 {
    match options.priorities {
        true => number.min(7) as i32 - 4,
        false => 0,
    }
}

fn told(request: &Request, response: Response, began: Instant) {
    let (path, status) = (&request.path, &response.status);
    let milliseconds = began.elapsed().as_millis();
    println!(
        "file {path} {status} {} {milliseconds}",
        response.body.finish()
    );
    if request.body.is_some() {
        println!("answer {path} {}", String::from_utf8_lossy(&response.text));
    }
}
