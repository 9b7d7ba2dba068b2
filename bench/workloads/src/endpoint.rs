//! The interface that each implementation has here: the streams and datagrams of one endpoint.

/// The side of a connection on which an endpoint is.
#[derive(Clone, Copy, Debug, PartialEq, Eq)]
pub enum Side {
    Client,
    Server,
}

#[derive(Clone, Copy, Debug, PartialEq, Eq)]
pub enum Direction {
    Bidirectional,
    Unidirectional,
}

/// The limits of an endpoint. Both endpoints of a pair have the same.
#[derive(Clone, Copy, Debug)]
pub struct Limits {
    /// How many bidirectional streams the peer may have open.
    pub bidirectional: u64,
    /// How many unidirectional streams the peer may have open.
    pub unidirectional: u64,
    /// How many bytes of a connection may be unacknowledged, and how many may be received and unread.
    pub window: u64,
    /// How many bytes of one stream may be received and unread.
    pub stream_window: u64,
    pub datagrams: bool,
}

/// One stream of 1 MiB windows.
impl Default for Limits {
    fn default() -> Self {
        Limits {
            bidirectional: 0,
            unidirectional: 1,
            window: 1 << 20,
            stream_window: 1 << 20,
            datagrams: false,
        }
    }
}

#[derive(Clone, Copy, Debug, PartialEq, Eq)]
pub enum Event {
    Opened(Direction),
    Readable(u64),
    Writable(u64),
    Finished(u64),
    Other,
}

/// How a read of all available data ended.
#[derive(Clone, Copy, Debug, PartialEq, Eq)]
pub enum Reading {
    /// More data may follow.
    Blocked,
    /// The application read to the end of the stream.
    Finished,
    /// The stream was read to its end before, was stopped, or was reset by the peer.
    Closed,
}

/// The streams and datagrams of one endpoint, without packets. A call that the workload cannot expect to fail panics if it fails.
pub trait Endpoint: Sized {
    /// The memory of one payload.
    type Payload;
    /// Names a payload in the report that the peer acknowledged it, or that it was lost.
    type Token;

    fn new(side: Side, limits: &Limits) -> Self;
    fn set_peer_limits(&mut self, limits: &Limits);
    /// The server rejected 0-RTT: everything sent so far is gone.
    fn reject_early_data(&mut self);

    /// Opens a stream, if the peer's stream limit allows it.
    fn open(&mut self, direction: Direction) -> Option<u64>;
    /// Accepts the next stream that the peer opened.
    fn accept(&mut self, direction: Direction) -> Option<u64>;
    /// Writes a prefix of `data` and returns its length, or nothing if the stream is blocked.
    fn write(&mut self, id: u64, data: &[u8]) -> Option<usize>;
    fn finish(&mut self, id: u64);
    fn reset(&mut self, id: u64);
    fn stop(&mut self, id: u64);
    fn set_priority(&mut self, id: u64, priority: i32);
    /// Reads everything available in order, in the cheapest way there is, and passes offset and bytes of each chunk to `see`.
    fn read(&mut self, id: u64, see: impl FnMut(u64, &[u8])) -> Reading;
    /// Reads everything available by reads of at most `capacity` bytes.
    fn read_at_most(
        &mut self,
        id: u64,
        capacity: usize,
        ordered: bool,
        see: impl FnMut(u64, &[u8]),
    ) -> Reading;
    fn poll(&mut self) -> Option<Event>;
    fn can_send_stream_data(&mut self) -> bool;

    fn payload() -> Self::Payload;
    fn bytes(payload: &Self::Payload) -> &[u8];
    /// Writes what is pending into a payload of at most `capacity` bytes. Returns nothing if nothing is pending.
    fn emit(&mut self, capacity: usize, payload: &mut Self::Payload) -> Option<Self::Token>;
    /// Processes the frames of a payload, and may take its memory.
    fn deliver(&mut self, payload: &mut Self::Payload);
    fn acknowledged(&mut self, token: Self::Token);
    fn lost(&mut self, token: Self::Token);
    /// Called after the reports of a turn.
    fn reports_done(&mut self) {}

    /// Queues a datagram. Returns whether there was room for it.
    fn send_datagram(&mut self, data: &[u8]) -> bool;
    /// Passes the next received datagram to `see`. Returns whether there was one.
    fn receive_datagram(&mut self, see: impl FnMut(&[u8])) -> bool;
}
