//! Frames that no honest peer sends: what each is answered, and that a refused one leaves all that can be asked as it was.

#![cfg(not(miri))] // it calls the library

mod common;

use common::{control_frames, events, frames, limits, stream_id, varint, Result};
use quic_streams::{
    Config, Dir, Due, Emit, Event, Info, Next, ReadError, ReceiveError, Received, Side,
    StreamError, StreamId, StreamsState, VarInt, WriteError,
};
use std::iter::from_fn;

/// What a frame came to.
#[derive(Clone, Copy, Debug, PartialEq, Eq)]
enum Answer {
    /// It was taken. Whether MAX_DATA is sent for it.
    Taken(bool),
    /// It was refused, with this error code.
    Refused(u64),
}

const TAKEN: Answer = Answer::Taken(false);

// Error codes of RFC 9000 section 20.1.
const TOO_MANY: Answer = Answer::Refused(0x01); // INTERNAL_ERROR
const FLOW_CONTROL: Answer = Answer::Refused(0x03);
const STREAM_LIMIT: Answer = Answer::Refused(0x04);
const STREAM_STATE: Answer = Answer::Refused(0x05);
const FINAL_SIZE: Answer = Answer::Refused(0x06);
const ENCODING: Answer = Answer::Refused(0x07);

/// The type of MAX_DATA (RFC 9000 section 19.9).
const MAX_DATA: u8 = 0x10;

/// The greatest number of a variable-length integer (RFC 9000 section 16).
const GREATEST: u64 = (1 << 62) - 1;

const WINDOW: u64 = 1 << 20;

const FIVE: &[u8] = b"01234";
const TEN: &[u8] = b"0123456789";
const ELEVEN: &[u8] = b"0123456789a";
const THIRTY_ONE: &[u8] = b"0123456789012345678901234567890";

/// Why a reader gave no more.
type Last = Result<Next, ReadError>;

const BLOCKED: Last = Ok(Next::Blocked);
const ENDED: Last = Ok(Next::Finished);

/// A frame of the peer and its answer, or a look at the end.
#[derive(Debug)]
enum Step {
    Data(u64, u64, &'static [u8], Answer),
    /// The same, with FIN.
    Final(u64, u64, &'static [u8], Answer),
    /// A final size.
    Reset(u64, u64, Answer),
    MaxStreamData(u64, u64, Answer),
    MaxStreams(Dir, u64, Answer),
    StopSending(u64, Answer),
    /// STREAM_DATA_BLOCKED, which is handed in as a payload.
    StreamDataBlocked(u8, Answer),
    MaxData(u64),
    /// An ordered read of at most so many pieces: the bytes that it gives, and why no more.
    Read(u64, usize, &'static [u8], Last),
    /// How many bytes count as received.
    Counted(u64),
}

/// What is told of a stream.
#[derive(Debug, PartialEq)]
struct StreamTold {
    priority: Result<i32, StreamError>,
    stopped: Result<Option<VarInt>, StreamError>,
    reset: Option<Result<Option<VarInt>, StreamError>>,
}

/// What is told of an end, and the events that wait.
#[derive(Debug, PartialEq)]
struct Told {
    info: Info,
    due: Due,
    events: Vec<Event>,
    datagram: Option<Vec<u8>>,
    max_datagram_size: Option<usize>,
    datagram_space: usize,
    streams: Vec<StreamTold>,
}

/// The stream that a busy client has to read as reset. To ask for the code closes it, so that is left to the last.
const RESET: StreamId = stream_id(15);

fn ask_stream(end: &mut StreamsState, id: StreamId) -> StreamTold {
    StreamTold {
        priority: end.send_stream(id).priority(),
        stopped: end.send_stream(id).stopped(),
        reset: (id != RESET).then(|| end.recv_stream(id).received_reset()),
    }
}

/// All that can be asked without changing anything, once the events were told.
fn ask_all(end: &mut StreamsState) -> Told {
    Told {
        info: end.info(),
        due: end.due(),
        events: events(end),
        datagram: end.recv_datagram(),
        max_datagram_size: end.max_datagram_size(),
        datagram_space: end.datagram_send_buffer_space(),
        streams: (0..24).map(|id| ask_stream(end, stream_id(id))).collect(),
    }
}

/// A client that permits 4 streams of each direction, so many bytes in all, and on each stream.
fn client(window: u64, stream_window: u64) -> Result<StreamsState> {
    let mut config = Config::default();
    config.max_remote_uni = varint(4);
    config.max_remote_bi = varint(4);
    config.send_window = WINDOW;
    config.receive_window = varint(window);
    config.stream_window = varint(stream_window);
    Ok(StreamsState::new(Side::Client, &config)?)
}

/// Hands a frame in. The answer stands beside the one that is wanted; `None` where the step is no frame.
fn hand_in(end: &mut StreamsState, step: &Step) -> Option<(Result<(), ReceiveError>, Answer)> {
    Some(match *step {
        Step::Data(id, offset, bytes, wanted) => {
            let answer = end.on_stream(stream_id(id), offset, bytes, false, bytes.len());
            (answer, wanted)
        }
        Step::Final(id, offset, bytes, wanted) => {
            let answer = end.on_stream(stream_id(id), offset, bytes, true, bytes.len());
            (answer, wanted)
        }
        Step::Reset(id, size, wanted) => (
            end.on_reset_stream(stream_id(id), varint(7), varint(size)),
            wanted,
        ),
        Step::MaxStreamData(id, limit, wanted) => {
            (end.on_max_stream_data(stream_id(id), limit), wanted)
        }
        Step::MaxStreams(dir, count, wanted) => (end.on_max_streams(dir, count), wanted),
        Step::StopSending(id, wanted) => (end.on_stop_sending(stream_id(id), varint(7)), wanted),
        Step::StreamDataBlocked(id, wanted) => {
            let received = end.receive(&[0x15, id, 9]);
            (received.map(|to| assert_eq!(to, Received::All)), wanted)
        }
        Step::MaxData(limit) => (end.on_max_data(varint(limit)), TAKEN),
        Step::Read(..) | Step::Counted(_) => return None,
    })
}

/// Whether MAX_DATA waits. No other control frame waits.
fn sends_max_data(end: &mut StreamsState) -> Result<bool> {
    let waiting = control_frames(end)?;
    if let Some(first) = waiting.first() {
        assert_eq!(*first, MAX_DATA, "{waiting:?}");
    }
    Ok(!waiting.is_empty())
}

/// What a frame came to, where no control frame waited before it.
fn answer_of(end: &mut StreamsState, answer: Result<(), ReceiveError>) -> Result<Answer> {
    match answer {
        Ok(()) => Ok(Answer::Taken(sends_max_data(end)?)),
        Err(ReceiveError::Transport(error)) => Ok(Answer::Refused(error.code.into())),
        Err(error) => Err(error.into()),
    }
}

/// Whether a refusal leaves the end as it was. Data that make too many pieces are kept.
fn leaves_all(answer: Answer) -> bool {
    matches!(answer, Answer::Refused(_)) && answer != TOO_MANY
}

/// Reads at most so many pieces of a stream in order, in one call. Streams of the peer are accepted first.
fn read(end: &mut StreamsState, id: StreamId, pieces: usize) -> (Vec<u8>, Last) {
    for dir in [Dir::Bi, Dir::Uni] {
        while end.accept(dir).expect("memory").is_some() {}
    }
    // Each piece takes its share of the buffer, 2048 bytes.
    let mut bytes = vec![0; 2048 * pieces];
    let answer = end.recv_stream(id).read_many(&mut bytes);
    bytes.truncate(answer.as_ref().map_or(0, |read| read.count));
    (bytes, answer.map(|read| read.next))
}

/// Takes a step. Where it refuses a frame, or has to change nothing, every query answers as before.
fn take(end: &mut StreamsState, step: &Step, is_idle: bool) -> Result<()> {
    match step {
        Step::Read(id, pieces, bytes, last) => {
            let (given, why) = read(end, stream_id(*id), *pieces);
            assert_eq!((given.as_slice(), &why), (*bytes, last), "{step:?}");
        }
        Step::Counted(count) => assert_eq!(end.info().data_received, *count),
        _ => take_frame(end, step, is_idle)?,
    }
    Ok(())
}

fn take_frame(end: &mut StreamsState, step: &Step, is_idle: bool) -> Result<()> {
    control_frames(end)?;
    events(end);
    let before = ask_all(end);
    let (answer, wanted) = hand_in(end, step).ok_or("no frame")?;
    let after = ask_all(end);
    let answer = answer_of(end, answer)?;
    assert_eq!(answer, wanted, "{step:?}");
    if is_idle || leaves_all(answer) {
        assert_eq!(after, before, "{step:?}");
    }
    Ok(())
}

fn run(end: &mut StreamsState, steps: &[Step]) -> Result<()> {
    steps.iter().try_for_each(|step| take(end, step, false))
}

/// Takes steps on a new client that permits 4 streams of each direction.
fn run_on_client(steps: &[Step]) -> Result<()> {
    run(&mut client(WINDOW, WINDOW)?, steps)
}

// Where two frames differ at an offset, that of the first is read, wherever they begin.
const OVERLAPPING: &[Step] = &[
    Step::Data(3, 0, b"aaa", TAKEN),
    Step::Data(3, 1, b"bbb", TAKEN),
    Step::Read(3, 9, b"aaab", BLOCKED),
];

const OVERLAPPING_BEFORE: &[Step] = &[
    Step::Data(3, 1, b"bbb", TAKEN),
    Step::Data(3, 0, b"aaa", TAKEN),
    Step::Read(3, 9, b"abbb", BLOCKED),
];

const SIZES: &[Step] = &[
    Step::Final(3, 0, TEN, TAKEN),
    Step::Data(3, 0, ELEVEN, FINAL_SIZE),
    Step::Final(3, 0, FIVE, FINAL_SIZE),
    Step::Reset(3, 9, FINAL_SIZE),
    Step::Reset(3, 10, TAKEN),
    Step::Counted(10),
];

const LOW_RESET: &[Step] = &[
    Step::Data(3, 0, TEN, TAKEN),
    Step::Reset(3, 9, FINAL_SIZE),
    Step::Read(3, 9, TEN, BLOCKED),
];

const LAST_STREAM: &[Step] = &[
    Step::Data(15, 0, b"x", TAKEN),
    Step::Data(19, 0, b"x", STREAM_LIMIT),
    Step::Counted(1),
];

const STREAM_LIMITS: &[Step] = &[
    Step::MaxStreamData(3, 9, STREAM_STATE),
    Step::MaxStreamData(2, 9, STREAM_STATE),
    Step::MaxStreamData(0, 9, STREAM_STATE),
    Step::MaxStreamData(17, 9, STREAM_LIMIT),
];

#[test]
fn frames_of_a_hostile_peer_are_answered() -> Result<()> {
    run_on_client(OVERLAPPING)?;
    run_on_client(OVERLAPPING_BEFORE)?;
    run_on_client(SIZES)?;
    run_on_client(LOW_RESET)?;
    run_on_client(LAST_STREAM)?;
    run_on_client(STREAM_LIMITS)
}

/// Takes a STOP_SENDING frame with the code 7, and tells whether the application is told of it.
fn is_stopped(end: &mut StreamsState, id: u64, as_payload: bool) -> Result<bool> {
    let id = stream_id(id);
    if as_payload {
        assert_eq!(
            end.receive(&[0x05, u8::try_from(u64::from(id))?, 7])?,
            Received::All
        );
    } else {
        end.on_stop_sending(id, varint(7))?;
    }
    Ok(events(end).contains(&Event::Stopped {
        id,
        error_code: varint(7),
    }))
}

// The streams on which both send are stopped whoever opened them, and those of this end once they are open.
#[test]
fn a_stop_is_told_of_what_is_sent_here() -> Result<()> {
    for as_payload in [false, true] {
        for id in [0, 1, 2, 13] {
            let mut end = writing_client()?;
            assert!(is_stopped(&mut end, id, as_payload)?, "{id}");
        }
        let mut end = writing_client()?;
        assert!(is_stopped(&mut end, 6, as_payload).is_err());
        assert_eq!(end.open(Dir::Uni)?, Some(stream_id(6)));
        assert!(is_stopped(&mut end, 6, as_payload)?);
    }
    Ok(())
}

const HIGHEST: &[Step] = &[
    Step::Data(3, GREATEST - 1, b"x", TAKEN),
    Step::Data(3, GREATEST, b"x", FLOW_CONTROL),
    Step::Counted(GREATEST),
];

#[test]
fn no_offset_is_above_the_greatest() -> Result<()> {
    run(&mut client(GREATEST, GREATEST)?, HIGHEST)
}

// What comes once 2048 pieces with gaps between them are held.
const CROWDED: &[Step] = &[
    Step::Final(3, 8193, b"gap", TOO_MANY),
    Step::Counted(8196),
    Step::Data(3, 8196, b"x", FINAL_SIZE),
    Step::Counted(8196),
    Step::Data(3, 0, b"x", TOO_MANY),
    Step::Read(3, 2, b"xgap", BLOCKED),
    Step::Counted(8196),
];

#[test]
fn too_many_pieces_are_kept_and_counted() -> Result<()> {
    let mut end = client(WINDOW, WINDOW)?;
    for index in 0..2048 {
        let answer = end.on_stream(stream_id(3), 1 + 4 * index, b"gap", false, 3);
        assert_eq!(answer_of(&mut end, answer)?, TAKEN, "{index}");
    }
    run(&mut end, CROWDED)
}

// Halves in each state: 0, 1 and 3 go on, 7 has its end, 11 is to be stopped, and 15 was reset.
const OPENED: &[Step] = &[
    Step::Data(0, 0, TEN, TAKEN),
    Step::Data(1, 0, TEN, TAKEN),
    Step::Data(3, 0, TEN, TAKEN),
    Step::Final(7, 0, TEN, TAKEN),
    Step::Data(11, 0, TEN, TAKEN),
    Step::Data(15, 0, TEN, TAKEN),
    Step::Reset(15, 10, Answer::Taken(true)),
];

// 60 bytes were received, and 20 of them consumed, of a window of 70; of each stream 100 are permitted.
const REFUSED: &[Step] = &[
    Step::Data(3, 95, TEN, FLOW_CONTROL),
    Step::Data(3, 10, THIRTY_ONE, FLOW_CONTROL),
    Step::Data(3, GREATEST, b"x", FLOW_CONTROL),
    // No frame has such an offset (RFC 9000 section 16).
    Step::Data(3, u64::MAX, b"x", ENCODING),
    Step::Final(3, 10, THIRTY_ONE, FLOW_CONTROL),
    Step::Final(3, 0, FIVE, FINAL_SIZE),
    Step::Final(3, 0, b"", FINAL_SIZE),
    Step::Reset(3, 9, FINAL_SIZE),
    Step::Reset(3, 41, FLOW_CONTROL),
    Step::Reset(3, 101, FLOW_CONTROL),
    Step::Reset(3, GREATEST, FLOW_CONTROL),
    Step::Data(7, 10, b"x", FINAL_SIZE),
    Step::Data(7, 0, ELEVEN, FINAL_SIZE),
    Step::Data(7, GREATEST, b"x", FLOW_CONTROL),
    Step::Final(7, 0, FIVE, FINAL_SIZE),
    Step::Final(7, 11, b"", FINAL_SIZE),
    Step::Reset(7, 9, FINAL_SIZE),
    Step::Reset(7, 11, FINAL_SIZE),
    Step::Data(11, 95, TEN, FLOW_CONTROL),
    Step::Data(11, 10, THIRTY_ONE, FLOW_CONTROL),
    Step::Final(11, 0, FIVE, FINAL_SIZE),
    Step::Reset(11, 9, FINAL_SIZE),
    Step::Reset(11, 41, FLOW_CONTROL),
    Step::Reset(15, 9, FINAL_SIZE),
    Step::Reset(15, 11, FINAL_SIZE),
    Step::Data(0, 95, TEN, FLOW_CONTROL),
    Step::Data(1, 95, TEN, FLOW_CONTROL),
    Step::Data(2, 0, b"x", STREAM_STATE),
    Step::Data(4, 0, b"x", STREAM_STATE),
    Step::Reset(2, 0, STREAM_STATE),
    Step::Reset(4, 0, STREAM_STATE),
    Step::Data(17, 0, b"x", STREAM_LIMIT),
    Step::Data(19, 0, b"x", STREAM_LIMIT),
    Step::Reset(19, 0, STREAM_LIMIT),
    Step::MaxStreamData(3, 50, STREAM_STATE),
    Step::MaxStreamData(4, 50, STREAM_STATE),
    Step::MaxStreamData(6, 50, STREAM_STATE),
    Step::MaxStreamData(17, 50, STREAM_LIMIT),
    // What only the peer sends on, and what this end has not opened (RFC 9000 section 19.5).
    Step::StopSending(3, STREAM_STATE),
    Step::StopSending(19, STREAM_STATE),
    Step::StopSending(6, STREAM_STATE),
    Step::StopSending(4, STREAM_STATE),
    // What only this end sends on, opened or not (RFC 9000 section 19.13).
    Step::StreamDataBlocked(2, STREAM_STATE),
    Step::StreamDataBlocked(6, STREAM_STATE),
    // Streams of the peer above the limit, in either direction (section 4.6).
    Step::StopSending(17, STREAM_LIMIT),
    Step::StreamDataBlocked(17, STREAM_LIMIT),
    Step::StreamDataBlocked(19, STREAM_LIMIT),
    Step::MaxStreams(Dir::Bi, (1 << 60) + 1, ENCODING),
    Step::MaxStreams(Dir::Uni, GREATEST, ENCODING),
    Step::MaxStreams(Dir::Uni, u64::MAX, ENCODING),
];

// Accepted without effect: late frames, limits that do not rise, and frames that say where the peer is blocked.
const IDLE: &[Step] = &[
    Step::Data(15, GREATEST, b"x", TAKEN),
    Step::Final(15, 0, TEN, TAKEN),
    Step::Reset(15, 10, TAKEN),
    Step::MaxStreamData(2, 10, TAKEN),
    Step::MaxStreamData(2, 0, TAKEN),
    Step::MaxStreams(Dir::Uni, 4, TAKEN),
    Step::MaxStreams(Dir::Bi, 0, TAKEN),
    Step::MaxData(0),
    Step::StreamDataBlocked(0, TAKEN),
    Step::StreamDataBlocked(1, TAKEN),
    Step::StreamDataBlocked(3, TAKEN),
];

// All of it goes on.
const AFTERWARDS: &[Step] = &[
    Step::Counted(60),
    Step::Read(3, 9, TEN, BLOCKED),
    Step::Read(7, 9, TEN, ENDED),
    Step::Read(0, 9, TEN, BLOCKED),
    Step::Read(1, 9, TEN, BLOCKED),
    Step::Read(15, 9, b"", Err(ReadError::Reset(VarInt::from_u32(7)))),
    Step::Data(3, 10, THIRTY_ONE, TAKEN),
    Step::Read(3, 9, THIRTY_ONE, BLOCKED),
];

/// A client of a window of 70 that opened the streams 2 and 0, and wrote on the first as much as is permitted. The peer
/// permits 4 streams of each direction, 100 bytes in all, and 10 on each stream.
fn writing_client() -> Result<StreamsState> {
    let mut end = client(70, 100)?;
    end.set_params(&limits(4, 100, 10))?;
    assert_eq!(end.open(Dir::Uni)?, Some(stream_id(2)));
    assert_eq!(end.open(Dir::Bi)?, Some(stream_id(0)));
    let mut half = end.send_stream(stream_id(2));
    assert_eq!(half.write(ELEVEN), Ok(10));
    assert_eq!(half.write(FIVE), Err(WriteError::Blocked));
    Ok(end)
}

/// A client with halves in each state, of which everything was told, and whose control frames wait.
fn busy_client() -> Result<StreamsState> {
    let mut end = writing_client()?;
    for step in OPENED {
        hand_in(&mut end, step).ok_or("no frame")?.0?;
    }
    let accepted: Vec<StreamId> = from_fn(|| end.accept(Dir::Uni).expect("memory")).collect();
    assert_eq!(accepted, [3, 7, 11, 15].map(stream_id));
    end.recv_stream(stream_id(11)).stop(varint(9))?;
    for _ in 0..20 {
        end.poll();
    }
    assert_eq!(end.poll(), None);
    Ok(end)
}

#[test]
fn a_refused_frame_changes_nothing() -> Result<()> {
    run(&mut writing_client()?, OPENED)?;
    let mut end = busy_client()?;
    run(&mut end, REFUSED)?;
    for step in IDLE {
        take(&mut end, step, true)?;
    }
    assert_eq!(end.poll(), None);
    run(&mut end, AFTERWARDS)
}

/// Reads and writes on each stream, and takes out what is sent then. Tells all answers.
fn use_streams(end: &mut StreamsState, told: &mut Vec<String>) -> Result<()> {
    for id in (0..24).map(stream_id) {
        let reset = end.recv_stream(id).received_reset();
        let given = read(end, id, 9);
        let written = end.send_stream(id).write(ELEVEN);
        told.push(format!("{id}: {reset:?} {given:?} {written:?}"));
    }
    told.push(format!("{:?}", frames(end, Emit::default())?));
    told.push(format!("{:?}", ask_all(end)));
    Ok(())
}

/// What an end tells and sends from now on, where the calls are made that change it, too: which streams it opens and
/// accepts, what it reads and writes, and how far the peer may go on.
fn all_that_follows(end: &mut StreamsState) -> Result<Vec<String>> {
    let mut told = vec![format!("{:?}", ask_all(end))];
    told.push(format!("{:?}", frames(end, Emit::default())?));
    for dir in [Dir::Bi, Dir::Uni] {
        while let Some(id) = end.open(dir)? {
            told.push(format!("opened {id}"));
        }
        while let Some(id) = end.accept(dir).expect("memory") {
            told.push(format!("accepted {id}"));
        }
    }
    use_streams(end, &mut told)?;
    for id in [0, 1, 3, 7, 11, 15].map(stream_id) {
        let answer = end.on_stream(id, 10, ELEVEN, false, ELEVEN.len());
        told.push(format!("{id}: {answer:?}"));
    }
    for id in [5, 13, 17, 19, 21, 23, 27].map(stream_id) {
        let answer = end.on_stream(id, 0, b"x", false, 1);
        told.push(format!("{id}: {answer:?}"));
    }
    use_streams(end, &mut told)?;
    Ok(told)
}

#[test]
fn what_follows_a_refused_frame_is_as_without_it() -> Result<()> {
    let wanted = all_that_follows(&mut busy_client()?)?;
    for step in REFUSED.iter().chain(IDLE) {
        let mut end = busy_client()?;
        hand_in(&mut end, step).ok_or("no frame")?.0.ok();
        assert_eq!(all_that_follows(&mut end)?, wanted, "{step:?}");
    }
    Ok(())
}
