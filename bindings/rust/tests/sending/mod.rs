//! One end that sends: its calls in short, and the frames that it writes.

// Each file of tests uses a part of these.
#![allow(dead_code, unused_imports)]

#[path = "../common/mod.rs"]
mod common;

use common::{config, limits};
pub use common::{stream_id, varint, Result, CONTROL, STREAMS, WINDOW};
use quic_streams::{
    ConfigError, Dir, Emit, Event, FinishError, Info, OutOfMemory, ReceiveError, Side, StreamError,
    StreamId, StreamsState, Token, WriteError,
};
use std::result;

/// What is written, the first bytes of it.
pub const TEXT: &[u8] = b"thirty two bytes of written text";

// Codes of RFC 9000 section 20.1.
pub const STREAM_LIMIT_ERROR: u64 = 4;
pub const STREAM_STATE_ERROR: u64 = 5;
pub const FRAME_ENCODING_ERROR: u64 = 7;

/// A payload of this size takes a STREAM frame, and no second one: the longest head has 25 bytes (RFC 9000 section 19.8).
pub const ONE_FRAME: usize = 26;

pub fn opened(dir: Dir) -> Option<Event> {
    Some(Event::Opened { dir })
}

pub fn available(dir: Dir) -> Option<Event> {
    Some(Event::Available { dir })
}

pub fn readable(id: u64) -> Option<Event> {
    Some(Event::Readable { id: stream_id(id) })
}

pub fn writable(id: u64) -> Option<Event> {
    Some(Event::Writable { id: stream_id(id) })
}

pub fn finished(id: u64) -> Option<Event> {
    Some(Event::Finished { id: stream_id(id) })
}

pub fn stopped(id: u64, error_code: u64) -> Option<Event> {
    Some(Event::Stopped {
        id: stream_id(id),
        error_code: varint(error_code),
    })
}

/// What a frame came to: `Err` has the code with which the connection is to be closed.
type Answer = result::Result<(), u64>;

fn answer_of(answer: result::Result<(), ReceiveError>) -> Answer {
    match answer {
        Ok(()) => Ok(()),
        Err(ReceiveError::Transport(error)) => Err(error.code.into()),
        Err(error) => panic!("{error}"),
    }
}

/// One end.
pub struct End(pub StreamsState);

// How an end is made, and what it is told of its peer.
impl End {
    /// An end that permits its peer so many streams of each direction, and so many bytes in all and on each stream.
    pub fn new(side: Side, streams: u64, window: u64, stream_window: u64) -> Result<Self> {
        let config = config(streams, window, stream_window);
        Ok(End(StreamsState::new(side, &config)?))
    }

    /// An end that permits its peer one stream of each direction, with the limits that its peer gave.
    pub fn with_limits(side: Side, streams: u64, data: u64, stream_data: u64) -> Result<Self> {
        let mut end = End::new(side, 1, WINDOW, WINDOW)?;
        end.permit(streams, data, stream_data)?;
        Ok(end)
    }

    /// The peer permits so many streams of each direction, bytes in all, and bytes on each stream.
    pub fn permit(
        &mut self,
        streams: u64,
        data: u64,
        stream_data: u64,
    ) -> result::Result<(), ConfigError> {
        self.0.set_params(&limits(streams, data, stream_data))
    }

    pub fn poll(&mut self) -> Option<Event> {
        self.0.poll()
    }

    pub fn info(&mut self) -> Info {
        self.0.info()
    }

    /// How many bytes may be written on all streams together.
    pub fn write_limit(&mut self) -> u64 {
        self.info().write_limit
    }

    pub fn can_send_data(&mut self) -> bool {
        self.info().can_send_stream_data
    }
}

// Calls on streams.
impl End {
    pub fn open(&mut self, dir: Dir) -> result::Result<Option<u64>, OutOfMemory> {
        Ok(self.0.open(dir)?.map(u64::from))
    }

    pub fn accept(&mut self, dir: Dir) -> Option<u64> {
        self.0.accept(dir).expect("memory").map(u64::from)
    }

    /// Writes so many bytes, the first ones of the text.
    pub fn write(&mut self, id: u64, count: usize) -> result::Result<usize, WriteError> {
        self.put(id, &TEXT[..count])
    }

    pub fn put(&mut self, id: u64, bytes: &[u8]) -> result::Result<usize, WriteError> {
        self.0.send_stream(stream_id(id)).write(bytes)
    }

    pub fn finish(&mut self, id: u64) -> result::Result<(), FinishError> {
        self.0.send_stream(stream_id(id)).finish()
    }

    pub fn reset(&mut self, id: u64, code: u64) -> result::Result<(), StreamError> {
        self.0.send_stream(stream_id(id)).reset(varint(code))
    }

    pub fn set_priority(&mut self, id: u64, priority: i32) -> result::Result<(), StreamError> {
        self.0.send_stream(stream_id(id)).set_priority(priority)
    }

    pub fn priority(&mut self, id: u64) -> result::Result<i32, StreamError> {
        self.0.send_stream(stream_id(id)).priority()
    }

    /// The code of the first STOP_SENDING, if one came.
    pub fn stop_code(&mut self, id: u64) -> result::Result<Option<u64>, StreamError> {
        let code = self.0.send_stream(stream_id(id)).stopped()?;
        Ok(code.map(u64::from))
    }

    pub fn stop(&mut self, id: u64, code: u64) -> result::Result<(), StreamError> {
        self.0.recv_stream(stream_id(id)).stop(varint(code))
    }

    /// Reads the bytes of a stream that came, at most so many.
    pub fn read(&mut self, id: u64, most: usize) -> Result<Vec<u8>> {
        let mut bytes = vec![0; most];
        let count = self.0.recv_stream(stream_id(id)).read(&mut bytes)?;
        bytes.truncate(count.unwrap_or(0));
        Ok(bytes)
    }
}

// Frames of the peer.
impl End {
    /// So many first bytes of a stream.
    pub fn data(&mut self, id: u64, count: usize) -> Answer {
        let id = stream_id(id);
        answer_of(self.0.on_stream(id, 0, &TEXT[..count], false, count))
    }

    /// The end of a stream that has so many bytes.
    pub fn fin(&mut self, id: u64, size: u64) -> Answer {
        answer_of(self.0.on_stream(stream_id(id), size, b"", true, 0))
    }

    /// One byte of a stream, with its end.
    pub fn whole(&mut self, id: u64) -> Answer {
        answer_of(self.0.on_stream(stream_id(id), 0, b"\0", true, 1))
    }

    pub fn stop_sending(&mut self, id: u64, code: u64) -> Answer {
        answer_of(self.0.on_stop_sending(stream_id(id), varint(code)))
    }

    pub fn max_data(&mut self, limit: u64) -> Answer {
        answer_of(self.0.on_max_data(varint(limit)))
    }

    pub fn max_stream_data(&mut self, id: u64, limit: u64) -> Answer {
        answer_of(self.0.on_max_stream_data(stream_id(id), limit))
    }

    pub fn max_streams(&mut self, dir: Dir, count: u64) -> Answer {
        answer_of(self.0.on_max_streams(dir, count))
    }

    /// Whether this end did not open a stream of its own yet. A limit of 0 changes nothing.
    pub fn is_unopened(&mut self, id: u64) -> bool {
        match self.max_stream_data(id, 0) {
            Ok(()) => false,
            Err(code) => {
                assert_eq!(code, STREAM_STATE_ERROR);
                true
            }
        }
    }
}

// Frames that leave.
impl End {
    fn emit(
        &mut self,
        what: Emit,
        max_size: usize,
    ) -> result::Result<Option<(Vec<u8>, Token)>, OutOfMemory> {
        let mut bytes = vec![0; max_size];
        Ok(self.0.emit(&mut bytes, what)?.map(|payload| {
            bytes.truncate(payload.len);
            (bytes, payload.token)
        }))
    }

    /// The next payload of STREAM frames.
    pub fn emit_data(
        &mut self,
        max_size: usize,
    ) -> result::Result<Option<(Vec<u8>, Token)>, OutOfMemory> {
        self.emit(STREAMS, max_size)
    }

    /// The next payload of the other frames.
    pub fn emit_control(
        &mut self,
        max_size: usize,
    ) -> result::Result<Option<(Vec<u8>, Token)>, OutOfMemory> {
        self.emit(CONTROL, max_size)
    }

    /// The bytes of the next payload of STREAM frames; none where nothing is due.
    pub fn sends(&mut self, max_size: usize) -> Result<Vec<u8>> {
        Ok(self
            .emit_data(max_size)?
            .map(|(bytes, _)| bytes)
            .unwrap_or_default())
    }

    /// The same of the other frames.
    pub fn controls(&mut self, max_size: usize) -> Result<Vec<u8>> {
        Ok(self
            .emit_control(max_size)?
            .map(|(bytes, _)| bytes)
            .unwrap_or_default())
    }

    /// A payload of STREAM frames that has to be these bytes, and its token.
    pub fn sent(&mut self, max_size: usize, wanted: &[u8]) -> Result<Token> {
        let (bytes, token) = self.emit_data(max_size)?.ok_or("nothing is due")?;
        assert_eq!(bytes, wanted);
        Ok(token)
    }

    /// The other frames that are due. They stay due, since their payload is lost.
    pub fn due(&mut self) -> Result<Vec<u8>> {
        match self.emit_control(100)? {
            Some((bytes, token)) => {
                self.0.lost(token)?;
                Ok(bytes)
            }
            None => {
                assert!(!self.info().has_pending);
                Ok(Vec::new())
            }
        }
    }
}
