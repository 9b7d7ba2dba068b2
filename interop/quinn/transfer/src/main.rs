//! A file over QUIC, both ways.
//!
//!     transfer serve PORT CERTIFICATE KEY FILE COPY
//!     transfer fetch PORT CERTIFICATE FILE COPY
//!
//! The client sends FILE and ends the stream; then the server sends its FILE back. Each puts what came into COPY, and
//! prints the seconds and the processor time from the first packet to the last byte.

use quinn::{ClientConfig, Endpoint, RecvStream, SendStream, ServerConfig};
use std::error::Error;
use std::net::{Ipv4Addr, SocketAddr};
use std::time::{Duration, Instant};

type Answer<T> = Result<T, Box<dyn Error>>;

const AT_ONCE: usize = 1 << 16;

fn main() -> Answer<()> {
    let words: Vec<String> = std::env::args().skip(1).collect();
    let words: Vec<&str> = words.iter().map(String::as_str).collect();
    match words[..] {
        ["serve", port, certificate, key, file, copy] => {
            on_one_thread(serve(here(port)?, certificate, key, file, copy))
        }
        ["fetch", port, certificate, file, copy] => {
            on_one_thread(fetch(here(port)?, certificate, file, copy))
        }
        _ => Err("transfer serve | fetch ..".into()),
    }
}

/// All of an end runs on this thread, whose processor time is told.
fn on_one_thread(end: impl std::future::Future<Output = Answer<()>>) -> Answer<()> {
    tokio::runtime::Builder::new_current_thread()
        .enable_all()
        .build()?
        .block_on(end)
}

fn here(port: &str) -> Answer<SocketAddr> {
    Ok((Ipv4Addr::LOCALHOST, port.parse()?).into())
}

async fn serve(at: SocketAddr, certificate: &str, key: &str, file: &str, copy: &str) -> Answer<()> {
    let certificate = rustls::Certificate(std::fs::read(certificate)?);
    let key = rustls::PrivateKey(std::fs::read(key)?);
    let file = std::fs::read(file)?;
    let config = ServerConfig::with_single_cert(vec![certificate], key)?;
    let endpoint = Endpoint::server(config, at)?;
    println!("ready");
    let connecting = endpoint.accept().await.ok_or("nobody came")?;
    let clock = Clock::start()?;
    let connection = connecting.await?;
    let (mut send, mut recv) = connection.accept_bi().await?;
    let came = receive(&mut recv, file.len()).await?;
    send_all(&mut send, &file).await?;
    clock.tell()?;
    std::fs::write(copy, came)?;
    connection.closed().await;
    Ok(())
}

async fn fetch(at: SocketAddr, certificate: &str, file: &str, copy: &str) -> Answer<()> {
    let mut roots = rustls::RootCertStore::empty();
    roots.add(&rustls::Certificate(std::fs::read(certificate)?))?;
    let file = std::fs::read(file)?;
    let mut endpoint = Endpoint::client((Ipv4Addr::LOCALHOST, 0).into())?;
    endpoint.set_default_client_config(ClientConfig::with_root_certificates(roots));
    let clock = Clock::start()?;
    let connection = endpoint.connect(at, "localhost")?.await?;
    let (mut send, mut recv) = connection.open_bi().await?;
    send_all(&mut send, &file).await?;
    let came = receive(&mut recv, file.len()).await?;
    clock.tell()?;
    // the acknowledgement of the last byte goes before the close
    tokio::time::sleep(Duration::from_millis(100)).await;
    connection.close(0u32.into(), b"done");
    endpoint.wait_idle().await;
    std::fs::write(copy, came)?;
    Ok(())
}

/// Sends the bytes and the end, until all are acknowledged.
async fn send_all(send: &mut SendStream, file: &[u8]) -> Answer<()> {
    for piece in file.chunks(AT_ONCE) {
        send.write_all(piece).await?;
    }
    send.finish().await?;
    Ok(())
}

/// Reads to the end.
async fn receive(recv: &mut RecvStream, length: usize) -> Answer<Vec<u8>> {
    let mut came = Vec::with_capacity(length);
    let mut room = vec![0; AT_ONCE];
    while let Some(count) = recv.read(&mut room).await? {
        came.extend_from_slice(&room[..count]);
    }
    Ok(came)
}

/// The time, and that of the processor on this thread.
struct Clock {
    began: Instant,
    used: u64,
}

impl Clock {
    fn start() -> Answer<Self> {
        Ok(Self {
            began: Instant::now(),
            used: used_nanoseconds()?,
        })
    }

    fn tell(&self) -> Answer<()> {
        let used = used_nanoseconds()? - self.used;
        println!(
            "seconds {:.4} processor {:.4}",
            self.began.elapsed().as_secs_f64(),
            used as f64 / 1e9
        );
        Ok(())
    }
}

/// What the kernel counted for this thread.
fn used_nanoseconds() -> Answer<u64> {
    let counted = std::fs::read_to_string("/proc/thread-self/schedstat")?;
    let used = counted.split_whitespace().next().ok_or("no schedstat")?;
    Ok(used.parse()?)
}
