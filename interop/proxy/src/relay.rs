//! Forwards datagrams between clients and one server.

use crate::faults::{Counts, Faults, Rates};
use std::collections::HashMap;
use std::io;
use std::net::{Ipv4Addr, SocketAddr};
use std::rc::Rc;
use tokio::net::UdpSocket;
use tokio::task::spawn_local;
use tokio::time::sleep;

/// A client that changes its port counts as another one.
const MOST_CLIENTS: usize = 256;
const LONGEST_DATAGRAM: usize = 1 << 16;

pub struct Relay {
    pub target: SocketAddr,
    pub rates: Rates,
    pub seed: u64,
    pub counts: Rc<Counts>,
}

/// One direction of one client.
struct Direction {
    socket: Rc<UdpSocket>,
    to: SocketAddr,
    faults: Faults,
    counts: Rc<Counts>,
}

impl Direction {
    async fn forward(&mut self, datagram: &mut [u8]) {
        let fate = self.faults.draw(datagram, &self.counts);
        let Some(delay) = fate.delay else {
            return send(&self.socket, datagram, self.to, fate.copies).await;
        };
        let (socket, to, datagram) = (self.socket.clone(), self.to, datagram.to_vec());
        spawn_local(async move {
            sleep(delay).await;
            send(&socket, &datagram, to, fate.copies).await;
        });
    }
}

/// An error is one more loss: the receiver may be gone, or its buffer full.
async fn send(socket: &UdpSocket, datagram: &[u8], to: SocketAddr, copies: usize) {
    for _ in 0..copies {
        let _ = socket.send_to(datagram, to).await;
    }
}

impl Relay {
    /// Relays until the future is dropped.
    pub async fn run(self, listen: SocketAddr) -> io::Result<()> {
        let near = Rc::new(UdpSocket::bind(listen).await?);
        println!("ready {}", near.local_addr()?.port());
        let mut clients: HashMap<SocketAddr, Direction> = HashMap::new();
        let mut datagram = vec![0; LONGEST_DATAGRAM];
        loop {
            let Ok((length, client)) = near.recv_from(&mut datagram).await else {
                continue;
            };
            if !clients.contains_key(&client) && clients.len() < MOST_CLIENTS {
                let number = clients.len() as u64;
                clients.insert(client, self.connect(&near, client, number).await?);
            }
            if let Some(direction) = clients.get_mut(&client) {
                direction.forward(&mut datagram[..length]).await;
            }
        }
    }

    /// Opens a socket towards the server for a new client, and begins to relay what the server sends to it.
    async fn connect(
        &self,
        near: &Rc<UdpSocket>,
        client: SocketAddr,
        number: u64,
    ) -> io::Result<Direction> {
        let far = Rc::new(UdpSocket::bind((Ipv4Addr::LOCALHOST, 0)).await?);
        let direction = |socket: &Rc<UdpSocket>, to, way| Direction {
            socket: socket.clone(),
            to,
            faults: Faults::new(self.rates, (self.seed << 32) + 2 * number + way),
            counts: self.counts.clone(),
        };
        let mut back = direction(near, client, 1);
        let from = far.clone();
        spawn_local(async move {
            let mut datagram = vec![0; LONGEST_DATAGRAM];
            loop {
                if let Ok((length, _)) = from.recv_from(&mut datagram).await {
                    back.forward(&mut datagram[..length]).await;
                }
            }
        });
        Ok(direction(&far, self.target, 0))
    }
}
