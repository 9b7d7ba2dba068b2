//! Chunks of `Bytes` go over a stream, some of them in part.

use bytes::Bytes;
use quic_streams::*;
use quic_streams_bytes::{RecvBytes, SendBytes};

#[test]
fn chunks_go_over_a_stream() -> Result<(), Box<dyn std::error::Error>> {
    let config = Config::default();
    let mut client = StreamsState::new(Side::Client, &config)?;
    let mut server = StreamsState::new(Side::Server, &config)?;
    client.set_params(&Limits::of(&config))?;
    client.set_send_window(8);
    let id = client.open(Dir::Uni)?.expect("a stream is allowed");
    let mut chunks = [&b"hello"[..], b"", b"world"].map(Bytes::from_static);
    let written = client.send_stream(id).write_bytes(&mut chunks)?;
    assert_eq!((written.bytes, written.chunks), (8, 2));
    assert_eq!(chunks, [&b""[..], b"", b"ld"]);
    let again = client.send_stream(id).write_bytes(&mut chunks[2..]);
    assert_eq!(again, Err(WriteError::Blocked));
    let mut packet = [0; 100];
    let payload = client
        .emit(&mut packet, Emit::ALL)?
        .expect("data is pending");
    assert_eq!(server.receive(&packet[..payload.len])?, Received::All);
    assert_eq!(server.accept(Dir::Uni), Ok(Some(id)));
    let mut stream = server.recv_stream(id);
    let mut read = stream.chunks(true);
    assert_eq!(read.next_bytes(5)?, Some((0, Bytes::from_static(b"hello"))));
    assert_eq!(
        read.next_bytes(usize::MAX)?,
        Some((5, Bytes::from_static(b"wor")))
    );
    assert_eq!(read.next_bytes(5), Err(ReadError::Blocked));
    Ok(())
}
