//! Steps on the receiving side of a client, and what each has to answer.

use super::{control_frames, emit_all, pattern, stream_id, varint, Result, CONTROL, MAX_DATA};
use quic_streams::{Config, Dir, ReadError, ReceiveError, Side, StreamsState};

/// Whether a frame was taken, or the code of the error (RFC 9000 section 20.1).
pub type Answer = std::result::Result<(), u64>;

pub const TAKEN: Answer = Ok(());
pub const FLOW_CONTROL: Answer = Err(3);
pub const STREAM_LIMIT: Answer = Err(4);
pub const STREAM_STATE: Answer = Err(5);
pub const FINAL_SIZE: Answer = Err(6);
pub const FRAME_ENCODING: Answer = Err(7);

/// Why a read gave no more.
#[derive(Clone, Copy, Debug, PartialEq, Eq)]
pub enum Last {
    /// It was not asked for more.
    Asked,
    Blocked,
    Ended,
    Reset(u64),
}

/// Reads of at most so many bytes, so many times.
#[derive(Clone, Copy, Debug)]
pub struct Reads(pub usize, pub u16);

/// What reads came to: how many bytes were given, why no more, and whether control frames wait then.
#[derive(Clone, Copy, Debug, PartialEq, Eq)]
pub struct Given(pub usize, pub Last, pub bool);

/// A call, mostly on the stream of an id, and what it has to answer.
#[derive(Clone, Copy, Debug)]
pub enum Step {
    /// So many bytes at an offset.
    Data(u64, u64, usize, Answer),
    /// The same, with FIN.
    Final(u64, u64, usize, Answer),
    /// A code and a final size.
    Reset(u64, u64, u64, Answer),
    Ordered(u64, Reads, Given),
    Unordered(u64, Reads, Given),
    /// Whether the stream was open.
    Stop(u64, bool),
    /// How many bytes of credit were given beyond the window, and how many were received.
    Is(u64, u64),
    /// How many bidirectional and unidirectional streams the peer may open, and how many of these it opened.
    Remote(u64, u64, u64),
    /// How many streams of a direction the peer is to be able to use at a time, and how many it may use then.
    Concurrent(Dir, u64, u64),
}

// The code of each stop.
const STOP_CODE: u64 = 9;

/// What a frame came to.
pub fn answer_of(taken: std::result::Result<(), ReceiveError>) -> Result<Answer> {
    match taken {
        Ok(()) => Ok(TAKEN),
        Err(ReceiveError::Transport(error)) => Ok(Err(error.code.into())),
        Err(error) => Err(error.into()),
    }
}

/// Hands in so many bytes at an offset, maybe with the end.
pub fn hand_in(
    end: &mut StreamsState,
    stream: u64,
    offset: u64,
    count: usize,
    fin: bool,
) -> Result<Answer> {
    let bytes = pattern(offset, count);
    answer_of(end.on_stream(stream_id(stream), offset, &bytes, fin, count))
}

/// Hands in such a frame, which is taken, and after which nothing more waits to be sent than before.
pub fn take_in(
    end: &mut StreamsState,
    stream: u64,
    offset: u64,
    count: usize,
    fin: bool,
) -> Result<()> {
    let due = end.due();
    let answer = hand_in(end, stream, offset, count, fin)?;
    let case = (stream, offset, count);
    assert_eq!((answer, end.due()), (TAKEN, due), "{case:?}");
    Ok(())
}

/// Takes steps on a client of a configuration. None of the frames may ask for MAX_DATA.
pub fn run(config: &Config, steps: &[Step]) -> Result<()> {
    let mut subject = Subject::new(config)?;
    for (at, step) in steps.iter().enumerate() {
        subject.take(step)?;
        let before = &steps[..=at];
        match *step {
            Step::Remote(bi, uni, opened) => {
                assert_eq!(subject.opened(Dir::Uni), opened, "{step:?}");
                permits(config, before, Dir::Bi, bi)?;
                permits(config, before, Dir::Uni, uni)?;
            }
            Step::Concurrent(dir, _, uses) => {
                permits(config, before, dir, subject.freed(dir) + uses)?;
            }
            _ => {}
        }
    }
    for (payload, _) in emit_all(&mut subject.end, 1200, CONTROL)? {
        let frames = control_frames(&payload);
        assert!(frames.iter().all(|it| it[0] != MAX_DATA), "{frames:?}");
    }
    Ok(())
}

// After these steps the peer may open so many streams of a direction in all: the last is taken, and none behind it. This
// is asked of an end of its own, which the last stream changes.
fn permits(config: &Config, steps: &[Step], dir: Dir, count: u64) -> Result<()> {
    let mut subject = Subject::new(config)?;
    for step in steps {
        subject.take(step)?;
    }
    let uni = u64::from(dir == Dir::Uni);
    let id = |index: u64| index << 2 | uni << 1 | 1;
    let (end, case) = (&mut subject.end, format!("{count} streams: {steps:?}"));
    assert_eq!(
        hand_in(end, id(count), 0, 0, false)?,
        STREAM_LIMIT,
        "{case}"
    );
    assert_eq!(hand_in(end, id(count - 1), 0, 0, false)?, TAKEN, "{case}");
    Ok(())
}

// A client whose application accepts each stream at once.
struct Subject {
    end: StreamsState,
    window: u64,
    opened_bi: u64,
    opened_uni: u64,
}

impl Subject {
    fn new(config: &Config) -> Result<Self> {
        Ok(Subject {
            end: StreamsState::new(Side::Client, config)?,
            window: config.receive_window.into(),
            opened_bi: 0,
            opened_uni: 0,
        })
    }

    fn accept(&mut self) {
        while let Some(id) = self.end.accept(Dir::Bi).expect("memory") {
            assert_eq!(id, stream_id(self.opened_bi << 2 | 1));
            self.opened_bi += 1;
        }
        while let Some(id) = self.end.accept(Dir::Uni).expect("memory") {
            assert_eq!(id, stream_id(self.opened_uni << 2 | 3));
            self.opened_uni += 1;
        }
    }

    // How many streams of a direction the peer opened.
    fn opened(&self, dir: Dir) -> u64 {
        match dir {
            Dir::Bi => self.opened_bi,
            Dir::Uni => self.opened_uni,
        }
    }

    // How many of them are wholly freed.
    fn freed(&mut self, dir: Dir) -> u64 {
        let info = self.end.info();
        let open = match dir {
            Dir::Bi => info.remote_open_bi,
            Dir::Uni => info.remote_open_uni,
        };
        self.opened(dir) - open
    }

    // Takes a step. How many streams the peer may open is asked elsewhere.
    fn take(&mut self, step: &Step) -> Result<()> {
        let end = &mut self.end;
        match *step {
            Step::Data(stream, offset, count, answer) => {
                let is = hand_in(end, stream, offset, count, false)?;
                assert_eq!(is, answer, "{step:?}");
            }
            Step::Final(stream, offset, count, answer) => {
                let is = hand_in(end, stream, offset, count, true)?;
                assert_eq!(is, answer, "{step:?}");
            }
            Step::Reset(stream, code, size, answer) => {
                let is =
                    answer_of(end.on_reset_stream(stream_id(stream), varint(code), varint(size)))?;
                assert_eq!(is, answer, "{step:?}");
            }
            Step::Ordered(stream, reads, given) => {
                assert_eq!(read(end, stream, true, reads)?, given, "{step:?}");
            }
            Step::Unordered(stream, reads, given) => {
                assert_eq!(read(end, stream, false, reads)?, given, "{step:?}");
            }
            _ => self.ask(step)?,
        }
        self.accept();
        Ok(())
    }

    // The steps that hand in nothing, and read nothing.
    fn ask(&mut self, step: &Step) -> Result<()> {
        match *step {
            Step::Stop(stream, open) => {
                let stopped = self
                    .end
                    .recv_stream(stream_id(stream))
                    .stop(varint(STOP_CODE));
                assert_eq!(stopped.is_ok(), open, "{step:?}");
            }
            Step::Concurrent(dir, count, _) => self.end.set_max_concurrent(dir, varint(count))?,
            Step::Is(credit, received) => {
                let info = self.end.info();
                let is = (info.local_max_data - self.window, info.data_received);
                assert_eq!(is, (credit, received), "{step:?}");
            }
            _ => {}
        }
        Ok(())
    }
}

/// Reads several times. Each chunk has to have the bytes of its place.
pub fn read(end: &mut StreamsState, stream: u64, ordered: bool, reads: Reads) -> Result<Given> {
    let Reads(most, times) = reads;
    let mut stream = end.recv_stream(stream_id(stream));
    let mut chunks = stream.chunks(ordered);
    let (mut bytes, mut last) = (0, Last::Asked);
    for _ in 0..times {
        last = match chunks.next(most) {
            Ok(Some(chunk)) => {
                assert_eq!(chunk.bytes, pattern(chunk.offset, chunk.bytes.len()));
                bytes += chunk.bytes.len();
                continue;
            }
            Ok(None) => Last::Ended,
            Err(ReadError::Blocked) => Last::Blocked,
            Err(ReadError::Reset(code)) => Last::Reset(code.into()),
            Err(error) => return Err(error.into()),
        };
        break;
    }
    Ok(Given(bytes, last, end.due().control))
}
