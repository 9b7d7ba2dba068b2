//! Work for the parts of a stream alone: its reassembly and its send buffer.
//!
//! The steps of each are in `bench/README.md`. The functions of the crate `stream_cases` do the same on the parts of this
//! repository, and return the same check numbers.

use std::ops::Range;

use bytes::Bytes;
use workloads::{Content, Sum};

use super::assembler::Assembler;
use super::send_buffer::SendBuffer;

/// A piece of stream data, and the longest frame.
const PIECE: usize = 1200;
/// So many pieces make a window of just under 2^20 bytes.
const WINDOW: u32 = 873;
/// The application writes so much in one call.
const WRITE: u64 = 65_536;
/// So much is written before anything is acknowledged.
const ROUND: u64 = 1 << 20;

/// A piece of work, whose size is a number of bytes or of inserts.
pub struct Part {
    pub name: &'static str,
    pub about: &'static str,
    pub size: u64,
    pub unit: &'static str,
    pub run: fn(&Content, u64) -> u64,
}

#[rustfmt::skip]
pub const PARTS: &[Part] = &[
    Part { name: "copy_and_free", about: "the yardstick: pieces of 1200 bytes are made, read and freed", size: 1_000_000, unit: "bytes", run: copy_and_free },
    Part { name: "reassemble_in_order", about: "each piece is read at once", size: 1_000_000, unit: "bytes", run: in_order },
    Part { name: "reassemble_shuffled", about: "windows of 873 shuffled pieces", size: 1_000_000, unit: "bytes", run: |content, size| windows(content, size, PIECE, usize::MAX) },
    Part { name: "reassemble_short_reads", about: "the same, reads of at most 333 bytes", size: 1_000_000, unit: "bytes", run: |content, size| windows(content, size, PIECE, 333) },
    Part { name: "reassemble_small_pieces", about: "the same, pieces of 100 bytes in payloads of 1200", size: 1_000_000, unit: "bytes", run: |content, size| windows(content, size, 100, usize::MAX) },
    Part { name: "reassemble_unordered", about: "shuffled, repeated and overlapping pieces, unordered reads", size: 1_000_000, unit: "bytes", run: unordered },
    #[cfg(not(feature = "quinn_0_9"))]
    Part { name: "reassemble_gaps_1", about: "single bytes with gaps, payloads of 1 byte", size: 10_000, unit: "inserts", run: |content, size| gaps(content, size, 1) },
    #[cfg(not(feature = "quinn_0_9"))]
    Part { name: "reassemble_gaps_2", about: "the same, payloads of 2 bytes", size: 10_000, unit: "inserts", run: |content, size| gaps(content, size, 2) },
    #[cfg(not(feature = "quinn_0_9"))]
    Part { name: "reassemble_gaps_1200", about: "the same, payloads of 1200 bytes", size: 10_000, unit: "inserts", run: |content, size| gaps(content, size, PIECE) },
    Part { name: "send_in_rounds", about: "rounds of 1 MiB, acknowledged in order", size: 1_000_000, unit: "bytes", run: |content, size| send_in_order(content, size, ROUND) },
    Part { name: "send_all_first", about: "everything is written before the first frame", size: 10_000_000, unit: "bytes", run: |content, size| send_in_order(content, size, size) },
    Part { name: "send_with_losses", about: "each tenth frame lost, the others acknowledged in mixed order", size: 1_000_000, unit: "bytes", run: send_with_losses },
    Part { name: "send_acknowledged_backwards", about: "every other frame lost, then all acknowledged, the last first", size: 1_000_000, unit: "bytes", run: send_acknowledged_backwards },
];

/// A copy of content.
fn piece(content: &Content, offset: u64, length: usize) -> Bytes {
    Bytes::copy_from_slice(content.at(offset, length))
}

/// Offsets and lengths of the pieces of `start..end`.
fn pieces(start: u64, end: u64, longest: u64) -> impl Iterator<Item = (u64, usize)> {
    let offsets = (start..end).step_by(longest as usize);
    offsets.map(move |offset| (offset, longest.min(end - offset) as usize))
}

fn copy_and_free(content: &Content, size: u64) -> u64 {
    let mut sum = Sum::default();
    for (offset, length) in pieces(0, size, PIECE as u64) {
        let bytes = std::hint::black_box(piece(content, offset, length));
        sum.see(offset, &bytes);
    }
    sum.value
}

/// Reads all there is, by reads of at most `longest` bytes.
fn read_all(assembler: &mut Assembler, longest: usize, ordered: bool, sum: &mut Sum) {
    while let Some(chunk) = assembler.read(longest, ordered) {
        sum.see(chunk.offset, &chunk.bytes);
    }
}

/// Inserts bytes that keep `held` bytes alive. Returns whether they were rejected.
#[cfg(not(feature = "quinn_0_9"))]
fn rejects(assembler: &mut Assembler, offset: u64, bytes: Bytes, held: usize) -> bool {
    assembler.insert(offset, bytes, held).is_err()
}

#[cfg(feature = "quinn_0_9")]
fn rejects(assembler: &mut Assembler, offset: u64, bytes: Bytes, held: usize) -> bool {
    assembler.insert(offset, bytes, held);
    false
}

fn insert(assembler: &mut Assembler, content: &Content, offset: u64, length: usize) {
    let bytes = piece(content, offset, length);
    assert!(!rejects(assembler, offset, bytes, PIECE), "rejected");
}

fn in_order(content: &Content, size: u64) -> u64 {
    let mut assembler = Assembler::new();
    let mut sum = Sum::default();
    for (offset, length) in pieces(0, size, PIECE as u64) {
        insert(&mut assembler, content, offset, length);
        read_all(&mut assembler, usize::MAX, true, &mut sum);
    }
    assert_eq!(assembler.bytes_read(), size);
    sum.value
}

/// The pieces of a window in the order of the content.
fn shuffled(content: &Content) -> impl Iterator<Item = u64> + '_ {
    let order = content.order.iter().copied();
    order.filter(|&index| index < WINDOW).map(u64::from)
}

fn windows(content: &Content, size: u64, length: usize, longest: usize) -> u64 {
    let mut assembler = Assembler::new();
    let mut sum = Sum::default();
    let mut base = 0;
    while base < size {
        for index in shuffled(content) {
            let offset = base + index * length as u64;
            insert(&mut assembler, content, offset, length);
        }
        read_all(&mut assembler, longest, true, &mut sum);
        base += u64::from(WINDOW) * length as u64;
    }
    assert_eq!(assembler.bytes_read(), base);
    sum.value
}

fn unordered(content: &Content, size: u64) -> u64 {
    let mut assembler = Assembler::new();
    assembler.ensure_ordering(false).unwrap();
    let mut sum = Sum::default();
    let mut base = 0;
    while base < size {
        let mut before = 0;
        for (turn, index) in (1..).zip(shuffled(content)) {
            let offset = base + index * PIECE as u64;
            insert(&mut assembler, content, offset, PIECE);
            insert(&mut assembler, content, offset, PIECE);
            if turn % 4 == 0 {
                let between = before + PIECE as u64 / 2;
                insert(&mut assembler, content, between, PIECE);
            }
            if turn % 8 == 0 {
                read_all(&mut assembler, usize::MAX, false, &mut sum);
            }
            before = offset;
        }
        base += u64::from(WINDOW) * PIECE as u64;
    }
    read_all(&mut assembler, usize::MAX, false, &mut sum);
    sum.value + sum.bytes
}

/// Every other byte is inserted until an assembler rejects one; then a new assembler begins.
#[cfg(not(feature = "quinn_0_9"))]
fn gaps(content: &Content, count: u64, held: usize) -> u64 {
    let (mut check, mut done) = (0, 0);
    while done < count {
        let mut assembler = Assembler::new();
        let mut offset = 1;
        let mut rejected = false;
        while done < count && !rejected {
            rejected = rejects(&mut assembler, offset, piece(content, offset, 1), held);
            offset += 2;
            done += 1;
        }
        assert!(assembler.read(usize::MAX, true).is_none());
        check += offset + (u64::from(rejected) << 32);
    }
    check
}

/// A send buffer, the ranges of the frames that it sent, and a sum of them.
#[derive(Default)]
struct Sender {
    buffer: SendBuffer,
    sent: Vec<Range<u64>>,
    sum: Sum,
    frame: Vec<u8>,
    with_length: u64,
}

impl Sender {
    fn write(&mut self, content: &Content, end: u64) {
        for (offset, length) in pieces(self.buffer.offset(), end, WRITE) {
            self.buffer.write(piece(content, offset, length));
        }
    }

    /// Sends all that is unsent in frames of at most 1200 bytes, and notes their ranges.
    fn send(&mut self) {
        self.sent.clear();
        while self.buffer.has_unsent_data() {
            let (range, with_length) = self.buffer.poll_transmit(PIECE);
            self.frame.clear();
            let mut rest = range.clone();
            while rest.start != rest.end {
                let data = self.buffer.get(rest.clone());
                rest.start += data.len() as u64;
                self.frame.extend_from_slice(data);
            }
            self.sum.see(range.start, &self.frame);
            self.with_length += u64::from(with_length);
            self.sent.push(range);
        }
    }

    fn check(&self) -> u64 {
        assert!(self.buffer.is_fully_acked());
        self.sum.value + self.sum.bytes + self.with_length
    }
}

fn send_in_order(content: &Content, size: u64, round: u64) -> u64 {
    let mut sender = Sender::default();
    while sender.buffer.offset() < size {
        let end = size.min(sender.buffer.offset() + round);
        sender.write(content, end);
        sender.send();
        for range in sender.sent.drain(..) {
            sender.buffer.ack(range);
        }
    }
    sender.check()
}

fn send_with_losses(content: &Content, size: u64) -> u64 {
    let mut sender = Sender::default();
    while sender.buffer.offset() < size {
        let end = size.min(sender.buffer.offset() + ROUND);
        sender.write(content, end);
        while sender.buffer.has_unsent_data() {
            sender.send();
            assert!(sender.sent.len() <= content.order.len());
            for index in content.order.iter().map(|&index| index as usize) {
                if index < sender.sent.len() && index % 10 != 9 {
                    sender.buffer.ack(sender.sent[index].clone());
                }
            }
            for range in sender.sent.iter().skip(9).step_by(10) {
                sender.buffer.retransmit(range.clone());
            }
        }
    }
    sender.check()
}

fn send_acknowledged_backwards(content: &Content, size: u64) -> u64 {
    let mut sender = Sender::default();
    sender.write(content, size);
    sender.send();
    for range in sender.sent.iter().step_by(2) {
        sender.buffer.retransmit(range.clone());
    }
    for range in sender.sent.drain(..).rev() {
        sender.buffer.ack(range);
    }
    sender.check()
}
