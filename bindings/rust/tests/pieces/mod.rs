//! Steps on the pieces of one stream, and what each has to answer.

#![allow(dead_code)] // each test file uses a part

use crate::one_end::steps::{answer_of, Answer, TAKEN};
use crate::one_end::{client, stream_id, Result};
use quic_streams::{Dir, ReadError, StreamId, StreamsState};

pub const ID: StreamId = stream_id(3);

/// INTERNAL_ERROR (RFC 9000 section 20.1).
pub const INTERNAL: Answer = Err(1);

/// How many bytes each window has.
pub const AMPLE: u64 = 1 << 30;

/// As many bytes as no chunk has.
pub const ALL: usize = 1 << 18;

/// A place behind all that comes, and how much memory its byte keeps alive: more than is kept without a compaction.
const FAR: u64 = 1 << 20;
const MUCH: usize = 1 << 20;

/// Places, each so far behind the one before: the first, the gap, and how many.
#[derive(Clone, Copy, Debug)]
pub struct Places(pub u64, pub u64, pub u64);

/// A frame, or a read, and what it has to answer.
#[derive(Clone, Copy, Debug)]
pub enum Step {
    /// A text at an offset, which keeps just its bytes alive.
    Put(u64, &'static str),
    /// A text at an offset, which keeps so much memory alive.
    Keep(u64, &'static str, usize),
    /// The same at several places, up to the first refusal.
    Fill(Places, &'static str, usize, Answer),
    /// A frame behind all others that makes the pieces be compacted.
    Compact,
    /// A read in order, of at most so many bytes: the offset and the text.
    Part(usize, u64, &'static str),
    /// A read in order, and one that gives nothing.
    Next(u64, &'static str),
    NoNext,
    /// A read of what came, of at most so many bytes.
    AnyPart(usize, u64, &'static str),
    /// A read of what came, and one that gives nothing.
    Any(u64, &'static str),
    NoAny,
    /// A read in order, after one of what came.
    OrderedAgain,
    /// Reads, in order or as it came, until one gives nothing: how many chunks, and how many bytes in them.
    Chunks(bool, usize, usize),
    /// How many bytes were read in all.
    Read(u64),
}

/// A client, and room for a chunk.
pub struct Subject {
    end: StreamsState,
    room: Vec<u8>,
}

impl Subject {
    /// A client whose peer opened the stream, and sent nothing on it.
    pub fn new() -> Result<Self> {
        let mut end = client(1, AMPLE, AMPLE)?;
        end.on_stream(ID, 0, b"", false, 0)?;
        assert_eq!(end.accept(Dir::Uni), Ok(Some(ID)));
        let room = vec![0; ALL];
        Ok(Subject { end, room })
    }

    pub fn put(&mut self, offset: u64, bytes: &[u8], memory: usize) -> Result<Answer> {
        answer_of(self.end.on_stream(ID, offset, bytes, false, memory))
    }

    fn fill(&mut self, places: Places, text: &str, memory: usize) -> Result<Answer> {
        let Places(first, gap, count) = places;
        for index in 0..count {
            let answer = self.put(first + gap * index, text.as_bytes(), memory)?;
            if answer != TAKEN {
                return Ok(answer);
            }
        }
        Ok(TAKEN)
    }

    /// The next chunk of at most so many bytes, and its offset.
    pub fn chunk(&mut self, most: usize, ordered: bool) -> Result<Option<(u64, &[u8])>> {
        let room = &mut self.room[..most];
        match self.end.recv_stream(ID).read_into(room, ordered) {
            Ok(read) => {
                let (count, offset) = read.ok_or("the stream has no end")?;
                Ok(Some((offset, &self.room[..count])))
            }
            Err(ReadError::Blocked) => Ok(None),
            Err(error) => Err(error.into()),
        }
    }

    pub fn chunks(&mut self, ordered: bool) -> Result<(usize, usize)> {
        let (mut chunks, mut bytes) = (0, 0);
        while let Some((_, chunk)) = self.chunk(ALL, ordered)? {
            chunks += 1;
            bytes += chunk.len();
        }
        Ok((chunks, bytes))
    }

    pub fn take(&mut self, step: &Step) -> Result<()> {
        let answer = match *step {
            Step::Put(offset, text) => (self.put(offset, text.as_bytes(), text.len())?, TAKEN),
            Step::Keep(offset, text, memory) => (self.put(offset, text.as_bytes(), memory)?, TAKEN),
            Step::Fill(places, text, memory, wanted) => (self.fill(places, text, memory)?, wanted),
            Step::Compact => (self.put(FAR, b"z", MUCH)?, TAKEN),
            _ => return self.read(step),
        };
        assert_eq!(answer.0, answer.1, "{step:?}");
        Ok(())
    }

    fn read(&mut self, step: &Step) -> Result<()> {
        let (most, ordered, wanted) = match *step {
            Step::Part(most, offset, text) => (most, true, Some((offset, text))),
            Step::Next(offset, text) => (ALL, true, Some((offset, text))),
            Step::NoNext => (ALL, true, None),
            Step::AnyPart(most, offset, text) => (most, false, Some((offset, text))),
            Step::Any(offset, text) => (ALL, false, Some((offset, text))),
            Step::NoAny => (ALL, false, None),
            _ => return self.ask(step),
        };
        let wanted = wanted.map(|(offset, text)| (offset, text.as_bytes()));
        assert_eq!(self.chunk(most, ordered)?, wanted, "{step:?}");
        Ok(())
    }

    fn ask(&mut self, step: &Step) -> Result<()> {
        match *step {
            Step::OrderedAgain => {
                let read = self.end.recv_stream(ID).read(&mut self.room);
                assert_eq!(read, Err(ReadError::IllegalOrderedRead));
            }
            Step::Chunks(ordered, chunks, bytes) => {
                assert_eq!(self.chunks(ordered)?, (chunks, bytes), "{step:?}");
            }
            Step::Read(count) => {
                // What was read is given back as credit.
                assert_eq!(self.end.info().local_max_data - AMPLE, count, "{step:?}");
            }
            _ => unreachable!("{step:?} is a frame or a read of one chunk"),
        }
        Ok(())
    }
}

/// Takes each list of steps on a stream of its own.
pub fn run(lists: &[&[Step]]) -> Result<()> {
    for steps in lists {
        let mut subject = Subject::new()?;
        steps.iter().try_for_each(|step| subject.take(step))?;
    }
    Ok(())
}
