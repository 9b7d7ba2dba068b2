//! What one end takes of its peer, and what it refuses.

#![cfg(not(miri))] // it calls the library

mod one_end;

use one_end::steps::*;
use one_end::{config, Result, GREATEST, WINDOW};
use quic_streams::Config;

// A client that permits 128 streams of each direction, with windows of 2^20 bytes.
fn ample() -> Config {
    config(128, WINDOW, WINDOW)
}

// A number of 64 bits that no frame has is refused for what it is (RFC 9000 section 16).
const LIMITS: [Step; 5] = [
    Step::Data(3, 0, 9, FLOW_CONTROL),
    Step::Data(3, 0, 8, TAKEN),
    Step::Data(3, GREATEST, 1, FLOW_CONTROL),
    Step::Data(3, u64::MAX, 1, FRAME_ENCODING),
    Step::Is(0, 8),
];

const CONNECTION_LIMIT: [Step; 4] = [
    Step::Data(3, 0, 6, TAKEN),
    Step::Data(7, 0, 5, FLOW_CONTROL),
    Step::Data(7, 0, 4, TAKEN),
    Step::Reset(3, 0, 7, FLOW_CONTROL),
];

#[test]
fn no_more_than_permitted_is_taken() -> Result<()> {
    run(&config(128, 1000, 8), &LIMITS)?;
    run(&config(128, 10, 8), &CONNECTION_LIMIT)?;
    run(&ample(), &[Step::Reset(3, 0, GREATEST, FLOW_CONTROL)])
}

const LOW_END: [Step; 4] = [
    Step::Data(3, 0, 10, TAKEN),
    Step::Final(3, 0, 5, FINAL_SIZE),
    Step::Ordered(3, Reads(32, 2), Given(10, Last::Blocked, false)),
    Step::Is(10, 10),
];

const SECOND_SIZE: [Step; 6] = [
    Step::Final(3, 0, 5, TAKEN),
    Step::Data(3, 5, 1, FINAL_SIZE),
    Step::Final(3, 0, 4, FINAL_SIZE),
    Step::Reset(3, 0, 6, FINAL_SIZE),
    Step::Reset(3, 0, 5, TAKEN),
    Step::Reset(3, 0, 6, FINAL_SIZE),
];

// What is read as it comes has an end like what is read in order.
const UNORDERED_END: [Step; 4] = [
    Step::Data(3, 4, 4, TAKEN),
    Step::Unordered(3, Reads(100, 3), Given(4, Last::Blocked, false)),
    Step::Final(3, 0, 4, FINAL_SIZE),
    Step::Final(3, 0, 9, TAKEN),
];

#[test]
fn a_final_size_stays() -> Result<()> {
    run(&ample(), &LOW_END)?;
    run(&ample(), &SECOND_SIZE)?;
    run(&ample(), &UNORDERED_END)
}

const IDS: [Step; 6] = [
    Step::Data(7, 0, 1, STREAM_LIMIT),
    Step::Data(5, 0, 1, STREAM_LIMIT),
    Step::Data(2, 0, 1, STREAM_STATE),
    Step::Data(0, 0, 1, STREAM_STATE),
    Step::Reset(7, 0, 0, STREAM_LIMIT),
    Step::Reset(0, 0, 0, STREAM_STATE),
];

#[test]
fn ids_that_the_peer_may_not_use_are_refused() -> Result<()> {
    run(&config(1, WINDOW, WINDOW), &IDS)
}

const ONCE_AND_AGAIN: [Step; 7] = [
    Step::Data(3, 4096, 0, TAKEN),
    Step::Is(0, 4096),
    Step::Reset(3, 0, 4096, TAKEN),
    Step::Is(4096, 4096),
    Step::Reset(3, 7, 4096, TAKEN),
    // A frame on a stream that was reset is dropped, whatever its size.
    Step::Data(3, GREATEST, 1, TAKEN),
    Step::Is(4096, 4096),
];

const NOTHING_CAME: [Step; 4] = [
    Step::Reset(3, 0, 4096, TAKEN),
    Step::Is(4096, 4096),
    Step::Reset(3, 0, 4096, TAKEN),
    Step::Is(4096, 4096),
];

const STOPPED: [Step; 7] = [
    Step::Data(3, 0, 32, TAKEN),
    Step::Stop(3, true),
    Step::Is(32, 32),
    Step::Remote(128, 128, 1),
    Step::Final(3, 32, 16, TAKEN),
    Step::Is(48, 48),
    Step::Remote(128, 129, 1),
];

const RESET_AT_WHAT_CAME: [Step; 5] = [
    Step::Data(3, 0, 32, TAKEN),
    Step::Stop(3, true),
    Step::Reset(3, 0, 32, TAKEN),
    Step::Is(32, 32),
    Step::Remote(128, 129, 1),
];

const RESET_BEHIND_WHAT_CAME: [Step; 5] = [
    Step::Data(3, 0, 32, TAKEN),
    Step::Stop(3, true),
    Step::Reset(3, 0, 48, TAKEN),
    Step::Is(48, 48),
    Step::Remote(128, 129, 1),
];

const RESET_WHILE_READ: [Step; 7] = [
    Step::Data(3, 0, 2048, TAKEN),
    Step::Ordered(3, Reads(1024, 1), Given(1024, Last::Asked, false)),
    Step::Is(1024, 2048),
    Step::Reset(3, 8, 4096, TAKEN),
    Step::Is(4096, 4096),
    Step::Ordered(3, Reads(1024, 1), Given(0, Last::Reset(8), false)),
    Step::Is(4096, 4096),
];

// The end of the only stream that is permitted lets another be announced.
const READ_TO_THE_END: [Step; 5] = [
    Step::Final(3, 0, 2048, TAKEN),
    Step::Is(0, 2048),
    Step::Ordered(3, Reads(2048, 2), Given(2048, Last::Ended, true)),
    Step::Is(2048, 2048),
    Step::Remote(1, 2, 1),
];

#[test]
fn credit_and_what_was_received_are_counted() -> Result<()> {
    for steps in [
        ONCE_AND_AGAIN.as_slice(),
        NOTHING_CAME.as_slice(),
        STOPPED.as_slice(),
        RESET_AT_WHAT_CAME.as_slice(),
        RESET_BEHIND_WHAT_CAME.as_slice(),
        RESET_WHILE_READ.as_slice(),
    ] {
        run(&ample(), steps)?;
    }
    run(&config(1, WINDOW, WINDOW), &READ_TO_THE_END)
}
