//! Bytes on the heap for single things that an endpoint holds.

use crate::content::{Content, Sum};
use crate::endpoint::{Direction, Endpoint, Limits, Reading, Side};
use crate::pair::{Pair, PAYLOAD};
use crate::requests::{idle, limits_of_idle, one_request};
use crate::transfers::Writer;

/// Bytes on the heap for one thing, as a mean over many.
pub struct Row {
    pub name: &'static str,
    pub bytes: f64,
}

struct Rows<'a> {
    heap: &'a dyn Fn() -> i64,
    list: Vec<Row>,
}

const CONNECTIONS: usize = 100;
const STREAMS: usize = 10_000;
const TRANSFERRED: u64 = 20_000_000;

/// Measures every row. `heap` returns the bytes on the heap.
pub fn rows<E: Endpoint>(heap: &dyn Fn() -> i64) -> Vec<Row> {
    let mut rows = Rows {
        heap,
        list: Vec::with_capacity(32),
    };
    rows.made("idle server, 100 + 100 streams allowed", || {
        idle::<E>(Side::Server)
    });
    rows.made("idle client, 100 + 100 streams allowed", || {
        idle::<E>(Side::Client)
    });
    rows.after_requests::<E>();
    rows.streams::<E>();
    rows.payloads::<E>();
    rows.after_transfer::<E>(
        1 << 20,
        [
            "server after 20 MB, window 1 MiB",
            "client after 20 MB, window 1 MiB",
        ],
    );
    rows.after_transfer::<E>(
        16 << 20,
        [
            "server after 20 MB, window 16 MiB",
            "client after 20 MB, window 16 MiB",
        ],
    );
    rows.list
}

impl Rows<'_> {
    fn add(&mut self, name: &'static str, bytes: i64, count: usize) {
        let bytes = bytes as f64 / count as f64;
        self.list.push(Row { name, bytes });
    }

    /// The memory that making something takes.
    fn made<T>(&mut self, name: &'static str, mut make: impl FnMut() -> T) {
        let mut list = Vec::with_capacity(CONNECTIONS);
        let before = (self.heap)();
        for _ in 0..CONNECTIONS {
            list.push(make());
        }
        let bytes = (self.heap)() - before;
        self.add(name, bytes, CONNECTIONS);
    }

    /// The memory that freeing some things returns.
    fn freed<T>(&mut self, name: &'static str, list: Vec<T>) {
        let count = list.len();
        let bytes = self.freed_bytes(list);
        self.add(name, bytes, count);
    }

    fn freed_bytes<T>(&self, mut list: Vec<T>) -> i64 {
        let before = (self.heap)();
        list.clear();
        before - (self.heap)()
    }

    fn after_requests<E: Endpoint>(&mut self) {
        let content = Content::default();
        let mut clients = Vec::with_capacity(CONNECTIONS);
        let mut servers = Vec::with_capacity(CONNECTIONS);
        for _ in 0..CONNECTIONS {
            let mut pair = Pair::<E>::new(&limits_of_idle());
            let mut sums = [Sum::default(); 2];
            one_request(&mut pair, &content, &mut sums);
            pair.poll_server();
            pair.poll_client();
            clients.push(pair.client);
            servers.push(pair.server);
        }
        self.freed("server after one request", servers);
        self.freed("client after one request", clients);
    }

    fn streams<E: Endpoint>(&mut self) {
        let limits = Limits {
            unidirectional: STREAMS as u64,
            ..Limits::default()
        };
        let mut pair = Pair::<E>::new(&limits);
        let mut ids = Vec::with_capacity(STREAMS);
        let start = (self.heap)();
        for _ in 0..STREAMS {
            ids.push(pair.client.open(Direction::Unidirectional).unwrap());
        }
        let opened = (self.heap)();
        self.add("an open stream of the client", opened - start, STREAMS);
        for &id in &ids {
            assert_eq!(pair.client.write(id, b"x"), Some(1));
        }
        let written = (self.heap)() - opened;
        self.add("one byte written and not sent", written, STREAMS);
        let new = self.freed_bytes(vec![E::new(Side::Server, &limits)]);
        for (name, read) in [
            ("one byte received and not read", false),
            ("an open stream of the server, all read", true),
        ] {
            let held = self.freed_bytes(vec![server_of_streams::<E>(&limits, read)]);
            self.add(name, held - new, STREAMS);
        }
    }

    /// A payload in flight, with its token; the data of its stream are not counted.
    fn payloads<E: Endpoint>(&mut self) {
        let limits = Limits {
            window: 1 << 30,
            stream_window: 1 << 30,
            ..Limits::default()
        };
        let mut client = E::new(Side::Client, &limits);
        client.set_peer_limits(&limits);
        let id = client.open(Direction::Unidirectional).unwrap();
        let data = vec![7; 1 << 16];
        for _ in 0..STREAMS * 1170 / data.len() {
            assert_eq!(client.write(id, &data), Some(data.len()));
        }
        let mut tokens = Vec::with_capacity(2 * STREAMS);
        let mut payload = E::payload();
        let before = (self.heap)();
        while let Some(token) = client.emit(1200, &mut payload) {
            tokens.push(token);
        }
        drop(payload);
        let own = tokens.len() * size_of::<E::Token>();
        let bytes = (self.heap)() - before + own as i64;
        self.add("an unacknowledged payload", bytes, tokens.len());
    }

    /// What endpoints hold once 20 MB were sent, read, acknowledged and ended; each window arrives before it is read.
    fn after_transfer<E: Endpoint>(&mut self, window: u64, names: [&'static str; 2]) {
        let content = Content::default();
        let limits = Limits {
            window,
            stream_window: window,
            ..Limits::default()
        };
        let mut pair = Pair::<E>::new(&limits);
        let id = pair.client.open(Direction::Unidirectional).unwrap();
        let mut writer = Writer::new(id, TRANSFERRED);
        let (mut read, mut ended) = (0, false);
        while !ended || pair.finished == 0 {
            writer.write(&mut pair.client, &content);
            let sent = pair.send_up(PAYLOAD, usize::MAX);
            pair.poll_server();
            pair.at_server.clear();
            let see = |_: u64, bytes: &[u8]| read += bytes.len() as u64;
            ended = ended || pair.server.read(id, see) == Reading::Finished;
            let answered = pair.send_down(PAYLOAD, usize::MAX);
            pair.report();
            pair.poll_client();
            pair.moved(sent + answered);
        }
        assert_eq!(read, TRANSFERRED);
        let Pair { client, server, .. } = pair;
        self.freed(names[0], vec![server]);
        self.freed(names[1], vec![client]);
    }
}

/// A server that received one byte on each of many streams, and read it or not.
fn server_of_streams<E: Endpoint>(limits: &Limits, read: bool) -> E {
    let mut pair = Pair::<E>::new(limits);
    for _ in 0..STREAMS {
        let id = pair.client.open(Direction::Unidirectional).unwrap();
        assert_eq!(pair.client.write(id, b"x"), Some(1));
    }
    pair.send_up(PAYLOAD, usize::MAX);
    pair.poll_server();
    assert_eq!(pair.at_server.len(), STREAMS);
    if read {
        for id in pair.at_server.drain(..) {
            assert_eq!(pair.server.read(id, |_, _| ()), Reading::Blocked);
        }
    }
    pair.server
}
