//! Reading in pieces of the reader's choice, and sending to the end.

use anyhow::{bail, Context};
use bytes::{Buf, Bytes, BytesMut};
use quinn::{RecvStream, SendStream, WriteError};

/// The most that is asked of the stream at once.
const AT_ONCE: usize = 1 << 16;

/// A stream with the bytes that were read ahead.
pub struct Reader {
    pub stream: RecvStream,
    ahead: BytesMut,
}

impl Reader {
    pub fn new(stream: RecvStream) -> Self {
        let ahead = BytesMut::new();
        Self { stream, ahead }
    }

    /// Reads on; false at the end of the stream.
    async fn more(&mut self) -> anyhow::Result<bool> {
        let chunk = self.stream.read_chunk(AT_ONCE, true).await?;
        if let Some(chunk) = &chunk {
            self.ahead.extend_from_slice(&chunk.bytes);
        }
        Ok(chunk.is_some())
    }

    /// The next variable-length integer (RFC 9000 section 16), or `None` at the end of the stream.
    pub async fn integer(&mut self) -> anyhow::Result<Option<u64>> {
        loop {
            if let Some(value) = take_integer(&mut self.ahead) {
                return Ok(Some(value));
            }
            if !self.more().await? {
                if !self.ahead.is_empty() {
                    bail!("the stream ends inside a number");
                }
                return Ok(None);
            }
        }
    }

    /// The next bytes, at least one and at most `limit`.
    pub async fn some(&mut self, limit: u64) -> anyhow::Result<Bytes> {
        if self.ahead.is_empty() && !self.more().await? {
            bail!("the stream ends inside a frame");
        }
        let limit = usize::try_from(limit).unwrap_or(usize::MAX);
        let length = self.ahead.len().min(limit);
        Ok(self.ahead.split_to(length).freeze())
    }

    /// Exactly the next `length` bytes.
    pub async fn exactly(&mut self, length: u64) -> anyhow::Result<Bytes> {
        let length = usize::try_from(length).context("a frame is too long")?;
        while self.ahead.len() < length {
            if !self.more().await? {
                bail!("the stream ends inside a frame");
            }
        }
        Ok(self.ahead.split_to(length).freeze())
    }
}

/// Sends the rest of a stream, until all of it is acknowledged. If the peer stops the stream, it is reset (RFC 9000 section 3.5):
/// quinn does that itself only for a stream that is not finished.
pub async fn send_rest(stream: &mut SendStream, content: Bytes) -> Result<(), WriteError> {
    let written = match content.is_empty() {
        true => Ok(()),
        false => stream.write_chunk(content).await,
    };
    let sent = match written {
        Ok(()) => stream.finish().await,
        error => error,
    };
    if let Err(WriteError::Stopped(code)) = sent {
        let _ = stream.reset(code);
    }
    sent
}

fn take_integer(bytes: &mut BytesMut) -> Option<u64> {
    let first = *bytes.first()?;
    let length = 1 << (first >> 6);
    if bytes.len() < length {
        return None;
    }
    let value = bytes.get_uint(length);
    // The two highest bits are the length.
    Some(value & (u64::MAX >> (66 - 8 * length)))
}

/// Appends a variable-length integer.
pub fn put_integer(out: &mut Vec<u8>, value: u64) {
    match value {
        0..=0x3f => out.push(value as u8),
        0x40..=0x3fff => out.extend((value as u16 | 0x4000).to_be_bytes()),
        0x4000..=0x3fff_ffff => out.extend((value as u32 | 0x8000_0000).to_be_bytes()),
        _ => out.extend((value | 0xc000_0000_0000_0000).to_be_bytes()),
    }
}

#[cfg(test)]
mod tests {
    use super::*;

    /// The examples of RFC 9000 appendix A.1.
    #[test]
    fn integers_are_those_of_the_rfc() {
        let examples: [(u64, &[u8]); 4] = [
            (37, &[0x25]),
            (15_293, &[0x7b, 0xbd]),
            (494_878_333, &[0x9d, 0x7f, 0x3e, 0x7d]),
            (
                151_288_809_941_952_652,
                &[0xc2, 0x19, 0x7c, 0x5e, 0xff, 0x14, 0xe8, 0x8c],
            ),
        ];
        for (value, encoded) in examples {
            let mut out = Vec::new();
            put_integer(&mut out, value);
            assert_eq!(out, encoded);
            let mut bytes = BytesMut::from(encoded);
            assert_eq!(take_integer(&mut bytes), Some(value));
            assert!(bytes.is_empty());
            let mut cut = BytesMut::from(&encoded[..encoded.len() - 1]);
            assert_eq!(take_integer(&mut cut), None);
        }
    }
}
