//! Packets over UDP on the loopback, for the examples: their numbers, acknowledgements and losses.
//!
//! A packet is a letter, a number of eight bytes and, after 'D', a payload. 'A' acknowledges the packet of that number, and
//! 'C' closes. The program drops some of a hundred packets itself. Those of `examples/c` are the same.

use quic_streams::{Config, Emit, Limits, ReceiveError, Received, Side, StreamsState, Token};
use std::collections::BTreeMap;
use std::error::Error;
use std::io::ErrorKind;
use std::net::{Ipv4Addr, UdpSocket};
use std::time::{Duration, Instant};

const HEADER: usize = 9;
const PACKET: usize = 1200;
const FLIGHT: usize = 64;
const LOST_AFTER: Duration = Duration::from_millis(50);
const IDLE: Duration = Duration::from_secs(5);

pub type Result<T> = std::result::Result<T, Box<dyn Error>>;

/// How many packets were sent, dropped by the program, and declared lost.
#[derive(Clone, Copy, Default)]
pub struct Counts {
    pub packets: u64,
    pub dropped: u64,
    pub lost: u64,
}

/// An endpoint, its socket, and its packets in flight.
pub struct Host {
    pub state: StreamsState,
    pub side: Side,
    pub is_closed: bool,
    pub counts: Counts,
    socket: UdpSocket,
    has_peer: bool,
    heard: Instant,
    flight: BTreeMap<u64, (Token, Instant)>,
    next: u64,
    loss: u64,
    seed: u64,
}

impl Host {
    /// An endpoint whose peer has the same limits. A server receives at the port, a client sends to it. The words behind the
    /// port are LOSS and SEED, if they are there: of a hundred packets LOSS are dropped, drawn from SEED.
    pub fn new(side: Side, config: &Config, port: &str, drops: &[String]) -> Result<Self> {
        let word = |at: usize, absent: u64| drops.get(at).map_or(Ok(absent), |it| it.parse());
        let (port, loss, seed) = (port.parse()?, word(0, 0)?, word(1, 1)?);
        let mut state = StreamsState::new(side, config)?;
        state.set_params(&Limits::of(config))?;
        let own = if side.is_server() { port } else { 0 };
        let socket = UdpSocket::bind((Ipv4Addr::LOCALHOST, own))?;
        socket.set_read_timeout(Some(Duration::from_millis(5)))?;
        if side.is_client() {
            socket.connect((Ipv4Addr::LOCALHOST, port))?;
        }
        Ok(Self {
            state,
            side,
            is_closed: false,
            counts: Counts::default(),
            socket,
            has_peer: side.is_client(),
            heard: Instant::now(),
            flight: BTreeMap::new(),
            next: 0,
            loss,
            seed,
        })
    }

    fn is_dropped(&mut self) -> bool {
        let (factor, step) = (6_364_136_223_846_793_005, 1_442_695_040_888_963_407);
        self.seed = self.seed.wrapping_mul(factor).wrapping_add(step);
        (self.seed >> 33) % 100 < self.loss
    }

    fn send_packet(&mut self, kind: u8, number: u64, packet: &mut [u8]) -> Result<()> {
        packet[0] = kind;
        packet[1..HEADER].copy_from_slice(&number.to_be_bytes());
        self.counts.packets += 1;
        if kind != b'C' && self.is_dropped() {
            self.counts.dropped += 1;
            return Ok(());
        }
        match self.socket.send(packet) {
            Err(error) if error.kind() != ErrorKind::ConnectionRefused => Err(error.into()),
            _ => Ok(()),
        }
    }

    /// Reports packets as lost that were not acknowledged for some time, and writes payloads until nothing is pending or
    /// enough packets are in flight.
    pub fn send_pending(&mut self) -> Result<()> {
        while let Some((&number, &(token, sent_at))) = self.flight.iter().next() {
            if sent_at.elapsed() <= LOST_AFTER {
                break;
            }
            self.flight.remove(&number);
            self.counts.lost += 1;
            self.state.lost(token)?;
        }
        let mut packet = [0; PACKET];
        while self.has_peer && self.flight.len() < FLIGHT {
            let payload = match self.state.emit(&mut packet[HEADER..], Emit::ALL)? {
                Some(payload) => payload,
                None => break,
            };
            let number = self.next;
            self.next += 1;
            self.flight.insert(number, (payload.token, Instant::now()));
            self.send_packet(b'D', number, &mut packet[..HEADER + payload.len])?;
        }
        Ok(())
    }

    /// Closes the connection, and says so to the peer.
    pub fn close(&mut self) -> Result<()> {
        self.state.close();
        self.send_packet(b'C', 0, &mut [0; HEADER])
    }

    fn on_packet(&mut self, packet: &[u8]) -> Result<()> {
        if packet.len() < HEADER {
            return Ok(());
        }
        let number = u64::from_be_bytes(packet[1..HEADER].try_into()?);
        match packet[0] {
            b'A' => {
                if let Some((token, _)) = self.flight.remove(&number) {
                    self.state.acked(token)?;
                }
            }
            b'D' => match self.state.receive(&packet[HEADER..]) {
                // As if it was not received: the peer sends it again.
                Err(ReceiveError::OutOfMemory(_)) => {}
                received => match received? {
                    Received::All => self.send_packet(b'A', number, &mut [0; HEADER])?,
                    Received::OtherFrame { .. } => {
                        return Err("the peer sent a frame that this program does not have".into())
                    }
                },
            },
            b'C' => self.is_closed = true,
            _ => {}
        }
        Ok(())
    }

    /// Waits for a packet for some milliseconds, and receives all that are there.
    pub fn receive_packets(&mut self) -> Result<()> {
        let mut packet = [0; PACKET];
        self.socket.set_nonblocking(false)?;
        while let Ok((len, from)) = self.socket.recv_from(&mut packet) {
            if !self.has_peer {
                self.socket.connect(from)?;
                self.has_peer = true;
            }
            self.heard = Instant::now();
            self.on_packet(&packet[..len])?;
            self.socket.set_nonblocking(true)?;
        }
        if self.heard.elapsed() > IDLE {
            return Err("nothing was received for five seconds".into());
        }
        Ok(())
    }
}
