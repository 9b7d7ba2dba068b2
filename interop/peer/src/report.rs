//! What is printed for the program that started this one.

use quinn::{Connection, ConnectionError};
use ring::digest::{Context, SHA256};

/// The length and the SHA-256 of received bytes.
pub struct Body {
    pub length: u64,
    hash: Context,
}

impl Body {
    pub fn new() -> Self {
        Self {
            length: 0,
            hash: Context::new(&SHA256),
        }
    }

    pub fn add(&mut self, bytes: &[u8]) {
        self.length += bytes.len() as u64;
        self.hash.update(bytes);
    }

    /// `LENGTH HASH`, the hash in hexadecimal digits.
    pub fn finish(self) -> String {
        let hash = self.hash.finish();
        let digits: String = hash.as_ref().iter().map(|b| format!("{b:02x}")).collect();
        format!("{} {digits}", self.length)
    }
}

/// Prints why a connection ended, and its frames.
pub fn connection_ended(connection: &Connection, reason: &ConnectionError) {
    println!("closed {}: {reason}", kind(reason));
    let stats = connection.stats();
    println!("sent {:?}", stats.frame_tx);
    println!("received {:?}", stats.frame_rx);
}

/// `error` if one endpoint found the other to break the protocol.
fn kind(reason: &ConnectionError) -> &'static str {
    const NO_ERROR: u64 = 0;
    match reason {
        ConnectionError::ConnectionClosed(close) if u64::from(close.error_code) == NO_ERROR => {
            "transport"
        }
        ConnectionError::ConnectionClosed(_) | ConnectionError::TransportError(_) => "error",
        ConnectionError::ApplicationClosed(_) => "application",
        ConnectionError::LocallyClosed => "here",
        ConnectionError::TimedOut => "timeout",
        _ => "other",
    }
}
