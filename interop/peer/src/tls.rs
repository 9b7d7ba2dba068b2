//! TLS 1.3 for both roles, with 0-RTT.

use crate::options::{FetchOptions, Protocol, ServeOptions};
use anyhow::Context;
use quinn::{ClientConfig, ServerConfig};
use std::path::Path;
use std::sync::Arc;

fn read(path: &Path) -> anyhow::Result<Vec<u8>> {
    std::fs::read(path).with_context(|| format!("cannot read {}", path.display()))
}

pub fn server(options: &ServeOptions) -> anyhow::Result<ServerConfig> {
    let certificate = rustls::Certificate(read(&options.certificate)?);
    let key = rustls::PrivateKey(read(&options.key)?);
    let mut tls = rustls::ServerConfig::builder()
        .with_safe_default_cipher_suites()
        .with_safe_default_kx_groups()
        .with_protocol_versions(&[&rustls::version::TLS13])?
        .with_no_client_auth()
        .with_single_cert(vec![certificate], key)?;
    // QUIC allows no other value (RFC 9001 section 4.6.1).
    tls.max_early_data_size = u32::MAX;
    tls.alpn_protocols = Protocol::ALL.map(|known| known.name().into()).to_vec();
    let mut config = ServerConfig::with_crypto(Arc::new(tls));
    config.transport_config(options.transport.config()?);
    config.use_retry(options.retry);
    Ok(config)
}

pub fn client(options: &FetchOptions) -> anyhow::Result<ClientConfig> {
    let mut roots = rustls::RootCertStore::empty();
    roots.add(&rustls::Certificate(read(&options.root)?))?;
    let mut tls = rustls::ClientConfig::builder()
        .with_safe_default_cipher_suites()
        .with_safe_default_kx_groups()
        .with_protocol_versions(&[&rustls::version::TLS13])?
        .with_root_certificates(roots)
        .with_no_client_auth();
    tls.enable_early_data = true;
    tls.alpn_protocols = vec![options.protocol.name().into()];
    let mut config = ClientConfig::new(Arc::new(tls));
    config.transport_config(options.transport.config()?);
    Ok(config)
}
