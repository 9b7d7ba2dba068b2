//! The order in which streams send: those of a higher priority first, and those of one priority in turns.

#![cfg(not(miri))] // it calls the library

mod one_end;

use one_end::{
    client, emit, emit_all, joined, permit, put_number, varint, Result, STREAMS, WINDOW,
};
use quic_streams::{Dir, StreamId, StreamsState};
use std::cmp::Reverse;

/// How many streams there are where many are tried.
const MANY: u64 = 65_537;

/// The longest head of a STREAM frame. A frame begins only where more bytes are left (RFC 9000 section 19.8).
const LONGEST_HEAD: usize = 25;
const ONE_FRAME: usize = LONGEST_HEAD + 1;

/// A client that may open so many streams.
fn sender(streams: u64) -> Result<StreamsState> {
    let mut end = client(1, WINDOW, WINDOW)?;
    permit(&mut end, streams, WINDOW, WINDOW)?;
    Ok(end)
}

/// Opens the next stream, and writes a byte on it at a priority.
fn queue(end: &mut StreamsState, priority: i32) -> Result<StreamId> {
    let id = end.open(Dir::Uni)?.ok_or("no stream is permitted")?;
    end.send_stream(id).set_priority(priority)?;
    assert_eq!(end.send_stream(id).write(b"x"), Ok(1));
    Ok(id)
}

/// A STREAM frame of so many bytes at an offset, with a length or up to the end of its payload (RFC 9000 section 19.8).
fn frame(id: StreamId, offset: usize, count: usize, has_length: bool) -> Vec<u8> {
    let mut bytes = vec![0x08 | u8::from(offset > 0) << 2 | u8::from(has_length) << 1];
    put_number(&mut bytes, id.into());
    if offset > 0 {
        put_number(&mut bytes, offset as u64);
    }
    if has_length {
        put_number(&mut bytes, count as u64);
    }
    bytes.resize(bytes.len() + count, b'x');
    bytes
}

/// These streams send their byte, in this order, and no others do.
fn send_in_order(end: &mut StreamsState, streams: impl Iterator<Item = StreamId>) -> Result<()> {
    let sent = joined(&emit_all(end, 1200, STREAMS)?);
    assert!(sent
        .into_iter()
        .eq(streams.flat_map(|id| frame(id, 0, 1, true))));
    assert!(!end.due().streams);
    Ok(())
}

// Nothing was sent where all is to be sent again: the streams stay as they were queued.
#[test]
fn a_thousand_priorities() -> Result<()> {
    for is_sent_again in [false, true] {
        let (mut end, mut streams) = (sender(1000)?, Vec::new());
        for index in 0..1000 {
            // Each of -500 to 499, in no order.
            let priority = index * 617 % 1000 - 500;
            streams.push((Reverse(priority), queue(&mut end, priority)?));
        }
        streams.sort_by_key(|it| it.0);
        let priorities = streams.iter().map(|it| it.0 .0);
        assert!(priorities.eq((-500..500).rev()));
        if is_sent_again {
            end.retransmit_all_for_0rtt()?;
        }
        send_in_order(&mut end, streams.iter().map(|it| it.1))?;
    }
    Ok(())
}

// So many streams each at a priority of its own, as many at a lower one, and as many at a higher one.
#[test]
fn no_number_up_to_65537_is_refused() -> Result<()> {
    let mut end = sender(3 * MANY)?;
    let (mut own, mut low, mut high) = (Vec::new(), Vec::new(), Vec::new());
    for index in 0..MANY as i32 {
        own.push(queue(&mut end, index)?);
    }
    for _ in 0..MANY {
        low.push(queue(&mut end, -1)?);
    }
    for _ in 0..MANY {
        high.push(queue(&mut end, 70_000)?);
    }
    own.reverse();
    send_in_order(&mut end, [high, own, low].concat().into_iter())
}

/// A stream that waits, by its place among all, and the priority at which it was put.
#[derive(Clone, Copy)]
struct Entry {
    place: usize,
    priority: i32,
}

/// The streams that wait, as a sorted list.
#[derive(Default)]
struct SortedList {
    entries: Vec<Entry>,
    kept: Option<Entry>,
}

impl SortedList {
    fn put(&mut self, entry: Entry) {
        let is_before = |other: &&Entry| other.priority >= entry.priority;
        let before = self.entries.iter().take_while(is_before).count();
        self.entries.insert(before, entry);
    }

    fn is_empty(&self) -> bool {
        self.kept.is_none() && self.entries.is_empty()
    }

    fn take_first(&mut self) -> Option<Entry> {
        match self.kept.take() {
            None if self.entries.is_empty() => None,
            None => Some(self.entries.remove(0)),
            kept => kept,
        }
    }
}

/// A stream, and how many bytes of it were written and sent.
struct Stream {
    id: StreamId,
    priority: i32,
    written: usize,
    sent: usize,
    is_reset: bool,
}

/// A client beside a sorted list.
struct Subject {
    end: StreamsState,
    streams: Vec<Stream>,
    list: SortedList,
}

impl Subject {
    /// The next payload is this one; none where it has no bytes.
    fn sends(&mut self, max_size: usize, fair: bool, wanted: &[u8]) -> Result<()> {
        let mut what = STREAMS;
        what.fair = fair;
        let payload = emit(&mut self.end, max_size, what)?;
        assert_eq!(payload.map(|(bytes, _)| bytes).unwrap_or_default(), wanted);
        Ok(())
    }

    fn put(&mut self, priority: i32) -> Result<()> {
        let place = self.streams.len();
        self.list.put(Entry { place, priority });
        self.streams.push(Stream {
            id: queue(&mut self.end, priority)?,
            priority,
            written: 1,
            sent: 0,
            is_reset: false,
        });
        Ok(())
    }

    /// The next stream sends all that it has.
    fn send_all(&mut self) -> Result<()> {
        let entry = match self.list.take_first() {
            Some(entry) => entry,
            None => return self.sends(100, true, b""),
        };
        let stream = &mut self.streams[entry.place];
        let rest = stream.written - stream.sent;
        let wanted = frame(stream.id, stream.sent, rest, true);
        stream.sent = stream.written;
        self.sends(wanted.len() + LONGEST_HEAD, true, &wanted)
    }

    /// The next stream sends a part of what it has. Then it waits at another priority, or comes before all others.
    fn send_part(&mut self, anew: Option<i32>) -> Result<()> {
        let fair = anew.is_some();
        let entry = match self.list.take_first() {
            Some(entry) => entry,
            None => return self.sends(ONE_FRAME, fair, b""),
        };
        let stream = &mut self.streams[entry.place];
        let mut half = self.end.send_stream(stream.id);
        assert_eq!(half.write(&[b'x'; 30]), Ok(30));
        stream.written += 30;
        if let Some(priority) = anew {
            half.set_priority(priority)?;
            stream.priority = priority;
            self.list.put(Entry { priority, ..entry });
        } else {
            self.list.kept = Some(entry);
        }
        let head = frame(stream.id, stream.sent, 0, false).len();
        let wanted = frame(stream.id, stream.sent, ONE_FRAME - head, false);
        stream.sent += ONE_FRAME - head;
        self.sends(ONE_FRAME, fair, &wanted)
    }

    /// The next stream is reset. At its turn it sends nothing.
    fn give_up(&mut self) -> Result<()> {
        if let Some(entry) = self.list.take_first() {
            let stream = &mut self.streams[entry.place];
            stream.is_reset = true;
            self.end.send_stream(stream.id).reset(varint(7))?;
        }
        Ok(())
    }

    /// All is sent again. The streams that had sent all that they had are put behind those that wait.
    fn send_again(&mut self) -> Result<()> {
        self.end.retransmit_all_for_0rtt()?;
        for (place, stream) in self.streams.iter_mut().enumerate() {
            if !stream.is_reset && stream.sent == stream.written {
                let priority = stream.priority;
                self.list.put(Entry { place, priority });
            }
            stream.sent = 0;
        }
        Ok(())
    }

    /// Takes the step that a number draws.
    fn step(&mut self, drawn: u64) -> Result<()> {
        // From -4 to 3.
        let priority = (drawn >> 32 & 7) as i32 - 4;
        match drawn >> 60 {
            0..=6 => self.put(priority),
            7..=9 => self.send_all(),
            10 => self.send_part(None),
            11 => self.give_up(),
            _ => self.send_part(Some(priority)),
        }
    }
}

// Takes steps that are drawn, and then has all sent that waits.
fn run(is_sent_again: bool) -> Result<()> {
    let mut subject = Subject {
        end: sender(2000)?,
        streams: Vec::new(),
        list: SortedList::default(),
    };
    let mut state = 0x9e37_79b9_7f4a_7c15_u64;
    for _ in 0..2000 {
        state = state
            .wrapping_mul(0x5851_f42d_4c95_7f2d)
            .wrapping_add(0x1405_7b7e_f767_814f);
        subject.step(state)?;
        assert_eq!(subject.end.due().streams, !subject.list.is_empty());
    }
    if is_sent_again {
        subject.send_again()?;
    }
    while !subject.list.is_empty() {
        subject.send_all()?;
    }
    assert!(!subject.end.due().streams);
    subject.send_all()
}

#[test]
fn as_a_sorted_list() -> Result<()> {
    run(false)
}

#[test]
fn as_a_sorted_list_where_all_is_sent_again() -> Result<()> {
    run(true)
}
