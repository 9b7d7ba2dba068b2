//! All workloads by name.

use crate::channel::{Capacity, Loss, Order};
use crate::content::{Content, Sum};
use crate::endpoint::Endpoint;
use crate::messages::{priorities, small_writes, Datagrams};
use crate::requests::{connections, ping_pong, resets, zero_rtt, Requests};
use crate::transfers::{duplex, one_stream, ManyStreams, Reads, Transfer, TRANSFER};

/// Two check numbers of a run.
#[derive(Clone, Copy, Debug, Default, PartialEq, Eq)]
pub struct Outcome {
    /// Of the data that the applications read.
    pub data: u64,
    /// Of payloads and events, which may differ between versions of quinn-proto; 0 if the workload does not fix them.
    pub wire: u64,
}

impl Outcome {
    pub fn of_data(sums: &[Sum]) -> Self {
        let values = sums.iter().map(|sum| sum.value);
        Outcome {
            data: values.fold(0, u64::wrapping_add),
            wire: 0,
        }
    }
}

/// A workload. Its size is a number of bytes or of operations.
pub struct Workload {
    pub name: &'static str,
    pub about: &'static str,
    pub size: u64,
    /// What `size` counts.
    pub unit: &'static str,
    work: Work,
}

enum Work {
    Requests(Requests),
    Resets,
    ZeroRtt,
    Connections { request: bool },
    PingPong,
    Datagrams(Datagrams),
    SmallWrites,
    Priorities,
    Transfer(Transfer),
    Duplex,
    OneStream(Loss),
    ManyStreams(ManyStreams),
}

const fn workload(
    name: &'static str,
    about: &'static str,
    size: u64,
    unit: &'static str,
    work: Work,
) -> Workload {
    Workload {
        name,
        about,
        size,
        unit,
        work,
    }
}

const fn transfer(
    name: &'static str,
    about: &'static str,
    size: u64,
    transfer: Transfer,
) -> Workload {
    workload(name, about, size, "bytes", Work::Transfer(transfer))
}

const RPC: Requests = Requests {
    at_once: 100,
    loss: Loss::None,
};
const SHORT: Requests = Requests { at_once: 1, ..RPC };
const LOSSY: Requests = Requests {
    loss: Loss::Percent(10),
    ..RPC
};
const WIDE: Transfer = Transfer {
    window: 16 << 20,
    ..TRANSFER
};
const JUMBO: Capacity = Capacity::Bytes(9000);
const GIANT: Capacity = Capacity::Bytes(65_000);
const SMALL_READS: Reads = Reads::AtMost {
    capacity: 500,
    ordered: true,
};
const PAGE_READS: Reads = Reads::AtMost {
    capacity: 4096,
    ordered: true,
};
const UNORDERED: Transfer = Transfer {
    reads: Reads::AtMost {
        capacity: 16_384,
        ordered: false,
    },
    ..reordered(Order::Shuffled(100))
};
const WIDE_REVERSED: Transfer = Transfer {
    order: Order::Reversed(13_000),
    ..WIDE
};
const KILOBYTES: ManyStreams = ManyStreams {
    length: 1024,
    parts: 4,
    at_once: 1000,
};
const HUNDREDS: ManyStreams = ManyStreams {
    length: 100,
    parts: 1,
    at_once: 1000,
};

const fn datagrams(length: usize, batch: u64) -> Work {
    Work::Datagrams(Datagrams { length, batch })
}

const fn reordered(order: Order) -> Transfer {
    Transfer { order, ..TRANSFER }
}

const fn lossy(percent: u32) -> Transfer {
    Transfer {
        loss: Loss::Percent(percent),
        ..TRANSFER
    }
}

const fn wide(payload: Capacity) -> Transfer {
    Transfer { payload, ..WIDE }
}

const fn reading(payload: Capacity, reads: Reads) -> Transfer {
    Transfer {
        payload,
        reads,
        ..TRANSFER
    }
}

#[rustfmt::skip]
pub const WORKLOADS: &[Workload] = &[
    workload("rpc_200_2000", "requests of 200 bytes, responses of 2000, 100 at a time", 1000, "requests", Work::Requests(RPC)),
    workload("rpc_one_at_a_time", "the same requests, one at a time", 1000, "requests", Work::Requests(SHORT)),
    workload("rpc_lossy", "the same requests, 100 at a time, 10% of the payloads lost", 1000, "requests", Work::Requests(LOSSY)),
    workload("resets", "streams reset by the client after half of 300 bytes and stopped by the server", 1000, "streams", Work::Resets),
    workload("zero_rtt", "4 streams of 1000 bytes in 0-RTT, rejected or lost in turn", 500, "connections", Work::ZeroRtt),
    workload("short_connections", "a connection for one request of 200 bytes, response of 2000", 500, "connections", Work::Connections { request: true }),
    workload("idle_connections", "connections that are opened and freed, 100 + 100 streams allowed", 500, "connections", Work::Connections { request: false }),
    workload("ping_pong", "20 bytes there and back on one stream", 5000, "round trips", Work::PingPong),
    workload("streams_of_100", "streams of 100 bytes, 1000 at a time", 1_000_000, "bytes", Work::ManyStreams(HUNDREDS)),
    workload("small_writes", "one stream, writes of 10 bytes, sent after each 100 of them", 50_000, "writes", Work::SmallWrites),
    workload("priorities", "64 streams of 8 priorities, which change in each round of 16 kB", 10_000_000, "bytes", Work::Priorities),
    workload("datagrams_50", "datagrams of 50 bytes, 500 at a time", 10_000, "datagrams", datagrams(50, 500)),
    workload("datagrams_1000", "datagrams of 1000 bytes, 32 at a time", 1000, "datagrams", datagrams(1000, 32)),
    transfer("reads_of_500", "one stream, reads of at most 500 bytes", 5_000_000, reading(TRANSFER.payload, SMALL_READS)),
    transfer("reads_of_4096", "payloads of 9000 bytes, reads of at most 4096", 5_000_000, reading(JUMBO, PAGE_READS)),
    transfer("window_16m", "one stream, windows of 16 MiB", 10_000_000, WIDE),
    transfer("payloads_9000", "the same, payloads of 9000 bytes", 10_000_000, wide(JUMBO)),
    transfer("payloads_65000", "the same, payloads of 65,000 bytes", 10_000_000, wide(GIANT)),
    transfer("payloads_mixed", "the same, payloads of 300 to 1399 bytes", 10_000_000, wide(Capacity::Any)),
    transfer("shuffled_10", "one stream, payloads shuffled, 10 at a time", 10_000_000, reordered(Order::Shuffled(10))),
    transfer("shuffled_100", "the same, 100 at a time", 10_000_000, reordered(Order::Shuffled(100))),
    transfer("shuffled_800", "the same, 800 at a time", 10_000_000, reordered(Order::Shuffled(800))),
    transfer("reversed_800", "one stream, payloads backwards, 800 at a time", 10_000_000, reordered(Order::Reversed(800))),
    transfer("reversed_13000", "windows of 16 MiB, payloads backwards, 13,000 at a time", 20_000_000, WIDE_REVERSED),
    transfer("unordered_100", "payloads shuffled, 100 at a time, unordered reads", 5_000_000, UNORDERED),
    transfer("loss_10", "one stream, 10% of the payloads lost", 5_000_000, lossy(10)),
    transfer("loss_30", "the same, 30% lost", 5_000_000, lossy(30)),
    transfer("loss_50", "the same, 50% lost", 5_000_000, lossy(50)),
    workload("duplex", "one stream, half of the bytes in each direction", 10_000_000, "bytes", Work::Duplex),
    workload("bulk_one_stream", "one stream, 32 payloads of 1200 bytes in a turn, a read for each event", 1_000_000, "bytes", Work::OneStream(Loss::None)),
    workload("bulk_many_streams", "streams of 1024 bytes, 1000 at a time, each written in 4 parts", 1_000_000, "bytes", Work::ManyStreams(KILOBYTES)),
    workload("bulk_one_stream_lossy", "bulk_one_stream, each 20th payload lost", 1_000_000, "bytes", Work::OneStream(Loss::OneIn(20))),
];

/// The workload of this name.
pub fn find(name: &str) -> Option<&'static Workload> {
    WORKLOADS.iter().find(|workload| workload.name == name)
}

impl Workload {
    pub fn run<E: Endpoint>(&self, content: &Content, size: u64) -> Outcome {
        match &self.work {
            Work::Requests(requests) => requests.run::<E>(content, size),
            Work::Resets => resets::<E>(content, size),
            Work::ZeroRtt => zero_rtt::<E>(content, size),
            Work::Connections { request } => connections::<E>(content, size, *request),
            Work::PingPong => ping_pong::<E>(content, size),
            Work::Datagrams(datagrams) => datagrams.run::<E>(content, size),
            Work::SmallWrites => small_writes::<E>(content, size),
            Work::Priorities => priorities::<E>(content, size),
            Work::Transfer(transfer) => transfer.run::<E>(content, size),
            Work::Duplex => duplex::<E>(content, size),
            Work::OneStream(loss) => one_stream::<E>(content, size, *loss),
            Work::ManyStreams(streams) => streams.run::<E>(content, size),
        }
    }
}
