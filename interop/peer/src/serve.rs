//! The server.

use crate::options::{Protocol, ServeOptions};
use crate::site::Site;
use crate::{echo, hq, http3, report, tls};
use anyhow::Context;
use quinn::crypto::rustls::HandshakeData;
use quinn::{Connecting, Connection, Endpoint};
use std::net::Ipv4Addr;
use std::rc::Rc;
use tokio::io::AsyncReadExt;
use tokio::task::spawn_local;

pub async fn run(options: ServeOptions) -> anyhow::Result<()> {
    let address = (Ipv4Addr::LOCALHOST, options.port).into();
    let endpoint = Endpoint::server(tls::server(&options)?, address)?;
    let site = Rc::new(Site::new(options.files));
    println!("ready {}", endpoint.local_addr()?.port());
    let accepting = async {
        while let Some(connecting) = endpoint.accept().await {
            let site = site.clone();
            spawn_local(async move {
                if let Err(error) = connection(connecting, site).await {
                    eprintln!("connection: {error:#}");
                }
            });
        }
    };
    tokio::select! {
        () = accepting => {}
        () = input_ended() => {}
    }
    endpoint.close(0u32.into(), b"the server ends");
    endpoint.wait_idle().await;
    Ok(())
}

/// Waits until standard input ends or cannot be read.
async fn input_ended() {
    let mut ignored = [0; 64];
    let mut input = tokio::io::stdin();
    while matches!(input.read(&mut ignored).await, Ok(1..)) {}
}

/// Serves a connection to its end, from its first 0-RTT packet on.
async fn connection(mut connecting: Connecting, site: Rc<Site>) -> anyhow::Result<()> {
    let data = connecting.handshake_data().await?;
    let data = data.downcast::<HandshakeData>().ok();
    let name = data.and_then(|data| data.protocol).unwrap_or_default();
    let protocol = Protocol::of(&name).context("TLS agreed on no known protocol")?;
    let connection = match connecting.into_0rtt() {
        Ok((connection, _)) => connection,
        Err(connecting) => connecting.await?,
    };
    if let Err(error) = serve(protocol, &connection, site).await {
        eprintln!("{}: {error:#}", protocol.name());
    }
    report::connection_ended(&connection, &connection.closed().await);
    Ok(())
}

async fn serve(protocol: Protocol, connection: &Connection, site: Rc<Site>) -> anyhow::Result<()> {
    match protocol {
        Protocol::H3 => http3::serve(connection, site).await,
        Protocol::Hq => hq::serve(connection, site).await,
        Protocol::Echo => echo::serve(connection).await,
    }
}
