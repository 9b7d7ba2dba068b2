//! How the pieces of a stream are put together: which chunks are read, in order and as they come.

#![cfg(not(miri))] // it calls the library

mod one_end;
mod pieces;

use one_end::steps::TAKEN;
use one_end::Result;
use pieces::*;

const IN_ORDER: &[Step] = &[
    Step::NoNext,
    Step::Put(0, "123"),
    Step::Part(1, 0, "1"),
    Step::Part(3, 1, "23"),
    Step::Put(3, "456"),
    Step::Next(3, "456"),
    Step::Put(6, "789"),
    Step::Put(9, "10"),
    Step::Next(6, "789"),
    Step::Next(9, "10"),
    Step::Read(11),
];

const AGAIN: &[Step] = &[
    Step::Put(0, "1234"),
    Step::Next(0, "1234"),
    Step::Put(0, "1234"),
    Step::NoNext,
    Step::Read(4),
];

const BELOW: &[Step] = &[
    Step::Put(0, "abc"),
    Step::Next(0, "abc"),
    Step::Put(0, "ab"),
    Step::Read(3),
    Step::Put(2, "cd"),
    Step::Next(3, "d"),
];

#[test]
fn assembles_in_order() -> Result<()> {
    run(&[IN_ORDER, AGAIN, BELOW])
}

const REPEAT: &[Step] = &[
    Step::Put(0, "123"),
    Step::Put(0, "123"),
    Step::Next(0, "123"),
    Step::NoNext,
];

const WITHIN: &[Step] = &[
    Step::Put(0, "12345"),
    Step::Put(1, "234"),
    Step::Next(0, "12345"),
    Step::NoNext,
];

const AROUND: &[Step] = &[
    Step::Put(1, "234"),
    Step::Put(0, "12345"),
    Step::Next(0, "12345"),
    Step::NoNext,
];

const MANY: &[Step] = &[
    Step::Put(0, "1"),
    Step::Put(2, "3"),
    Step::Put(4, "5"),
    Step::Put(0, "123456"),
    Step::Next(0, "123456"),
    Step::NoNext,
];

// Of two alike the first is given.
const ALIKE: &[Step] = &[
    Step::Put(0, "abc"),
    Step::Put(0, "xyz"),
    Step::Put(0, "uvw"),
    Step::Next(0, "abc"),
    Step::NoNext,
];

#[test]
fn assembles_what_overlaps() -> Result<()> {
    run(&[REPEAT, WITHIN, AROUND, MANY, ALIKE])
}

/// Takes lists of steps once more, with a compaction before their reads.
fn run_compacted(lists: &[&[Step]]) -> Result<()> {
    for steps in lists {
        let is_frame = |step: &Step| matches!(step, Step::Put(..) | Step::Keep(..));
        let (frames, reads): (Vec<_>, Vec<_>) = steps.iter().partition(|step| is_frame(step));
        run(&[&[frames, vec![Step::Compact], reads].concat()])?;
    }
    Ok(())
}

const OVERLAP: &[Step] = &[
    Step::Put(0, "123"),
    Step::Put(1, "234"),
    Step::Next(0, "1234"),
    Step::NoNext,
];

const JOINED: &[Step] = &[
    Step::Keep(0, "123", 4),
    Step::Keep(1, "234", 4),
    Step::Next(0, "1234"),
    Step::NoNext,
];

#[test]
fn compacts_what_overlaps() -> Result<()> {
    run_compacted(&[REPEAT, WITHIN, AROUND, MANY, OVERLAP, JOINED])
}

const NO_BEGINNING: &[Step] = &[Step::Put(3, "def"), Step::Compact, Step::Any(3, "def")];

const AFTER_COMPACTION: &[Step] = &[
    Step::Keep(3, "def", 4),
    Step::Keep(0, "abc", 4),
    Step::Keep(7, "hij", 4),
    Step::Keep(11, "lmn", 4),
    Step::Compact,
    Step::Next(0, "abcdef"),
    Step::Put(5, "fghijklmn"),
    Step::Next(6, "ghijklmn"),
    Step::Put(13, "nopq"),
    Step::Next(14, "opq"),
    Step::Put(15, "pqrs"),
    Step::Next(17, "rs"),
    Step::NoNext,
];

#[test]
fn reads_on_after_compaction() -> Result<()> {
    run(&[NO_BEGINNING, AFTER_COMPACTION])
}

const AS_IT_COMES: &[Step] = &[
    Step::NoAny,
    Step::Put(0, "abc"),
    Step::Any(0, "abc"),
    Step::NoAny,
    Step::Put(3, "def"),
    Step::Any(3, "def"),
    Step::NoAny,
];

const NO_REPEAT: &[Step] = &[
    Step::NoAny,
    Step::Put(0, "abcdefghi"),
    Step::Any(0, "abcdefghi"),
    Step::Put(8, "ijkl"),
    Step::Any(9, "jkl"),
    Step::NoAny,
    Step::Put(12, "mno"),
    Step::Any(12, "mno"),
    Step::Put(2, "cde"),
    Step::NoAny,
];

const ONCE: &[Step] = &[
    Step::Put(0, "abc"),
    Step::Put(0, "abc"),
    Step::Any(0, "abc"),
    Step::NoAny,
];

#[test]
fn gives_unordered_as_it_comes() -> Result<()> {
    run(&[AS_IT_COMES, NO_REPEAT, ONCE])
}

const FRAME: &str = "0123456789abcdef0123456789abcdef";

const NO_LOSS: &[Step] = &[Step::Fill(Places(0, 32, 4096), FRAME, 32, TAKEN)];

const WITH_GAPS: &[Step] = &[
    Step::Fill(Places(1, 4, 8192), "gap", 3, INTERNAL),
    Step::Chunks(false, 2049, 3 * 2049),
];

#[test]
fn takes_long_streams() -> Result<()> {
    run(&[NO_LOSS, WITH_GAPS])
}

const NEW_ALONE: &[Step] = &[
    Step::NoAny,
    Step::Put(3, "def"),
    Step::Any(3, "def"),
    Step::NoAny,
    Step::Put(0, "a"),
    Step::Put(0, "abcdefghi"),
    Step::Put(0, "abcd"),
    Step::Any(0, "a"),
    Step::Any(1, "bc"),
    Step::Any(6, "ghi"),
    Step::NoAny,
    Step::Put(8, "ijkl"),
    Step::Any(9, "jkl"),
    Step::NoAny,
    Step::Put(12, "mno"),
    Step::Any(12, "mno"),
    Step::NoAny,
    Step::Put(2, "cde"),
    Step::NoAny,
];

const READ_WITH_THE_MODE: &[Step] = &[
    Step::Put(0, "abcdef"),
    Step::Part(2, 0, "ab"),
    Step::AnyPart(1, 2, "c"),
    Step::Put(0, "abcdef"),
    Step::Any(3, "def"),
    Step::NoAny,
    Step::OrderedAgain,
];

const WITHOUT_BYTES: &[Step] = &[
    Step::Put(7, ""),
    Step::NoNext,
    Step::Read(0),
    Step::NoAny,
    Step::Put(7, ""),
    Step::NoAny,
];

#[test]
fn gives_each_byte_once() -> Result<()> {
    run(&[NEW_ALONE, READ_WITH_THE_MODE, WITHOUT_BYTES])
}

const OVERLAP_UNORDERED: &[Step] = &[
    Step::Put(0, "123"),
    Step::Put(1, "234"),
    Step::Any(0, "1234"),
    Step::NoAny,
];

const OVERLAP_READ: &[Step] = &[
    Step::Put(0, "123"),
    Step::Put(1, "234"),
    Step::Next(0, "1234"),
    Step::NoAny,
    Step::Read(4),
];

const IN_ITS_ORDER: &[Step] = &[
    Step::Put(3, "def"),
    Step::NoNext,
    Step::Put(0, "a"),
    Step::Keep(1, "bcdefghi", 9),
    Step::Put(0, "abcd"),
    Step::Next(0, "abcdefghi"),
    Step::NoNext,
    Step::Put(8, "ijkl"),
    Step::Next(9, "jkl"),
    Step::NoNext,
    Step::Put(12, "mno"),
    Step::Next(12, "mno"),
    Step::NoNext,
    Step::Put(2, "cde"),
    Step::NoNext,
];

const READ_IN_PARTS: &[Step] = &[
    Step::Put(0, "12"),
    Step::Put(1, "234"),
    Step::Next(0, "1234"),
    Step::NoNext,
    Step::Put(2, "34"),
    Step::Put(3, "4567"),
    Step::Put(9, "z"),
    Step::Part(2, 4, "56"),
    Step::Part(2, 6, "7"),
    Step::NoNext,
    Step::Read(7),
    Step::Any(9, "z"),
    Step::NoAny,
];

#[test]
fn overlapping_bytes_are_one_chunk() -> Result<()> {
    run(&[
        OVERLAP,
        OVERLAP_UNORDERED,
        OVERLAP_READ,
        IN_ITS_ORDER,
        READ_IN_PARTS,
    ])
}

const LOWER_STAYS: &[Step] = &[
    Step::Put(0, "aaa"),
    Step::Put(1, "bbb"),
    Step::Next(0, "aaab"),
    Step::Put(5, "bbb"),
    Step::Put(4, "aaa"),
    Step::Next(4, "abbb"),
    Step::NoNext,
    Step::NoAny,
];

const HIGHER_STAYS: &[Step] = &[
    Step::Put(1, "bbb"),
    Step::Put(0, "aaa"),
    Step::Next(0, "abbb"),
    Step::Read(4),
    Step::NoNext,
];

#[test]
fn where_two_bytes_meet_the_held_one_stays() -> Result<()> {
    run(&[LOWER_STAYS, HIGHER_STAYS])
}

const APART: &[Step] = &[
    Step::Keep(4, "efgh", 40),
    Step::Put(0, "ab"),
    Step::Put(2, "cd"),
    Step::Keep(20, "xyz", 900),
    Step::Next(0, "ab"),
    Step::Next(2, "cd"),
    Step::Next(4, "efgh"),
    Step::NoNext,
    Step::Any(20, "xyz"),
    Step::NoAny,
];

const COMPACTED: &[Step] = &[
    Step::Keep(4, "efgh", 40),
    Step::Put(0, "ab"),
    Step::Put(2, "cd"),
    Step::Keep(20, "xyz", 900),
    Step::Compact,
    Step::Part(3, 0, "abc"),
    Step::Part(30, 3, "defgh"),
    Step::NoNext,
    Step::AnyPart(2, 20, "xy"),
    Step::Any(22, "z"),
];

#[test]
fn keeps_what_touches_apart_until_it_is_compacted() -> Result<()> {
    run(&[APART, COMPACTED])
}

// What fills the gaps is a chunk of its own.
const IN_MAP_AND_ROW: &[Step] = &[
    Step::Put(2, "CD"),
    Step::Put(6, "GH"),
    Step::Put(10, "KL"),
    Step::Put(20, "UV"),
    Step::Put(0, "a"),
    Step::Put(3, "defghijk"),
    Step::Put(5, "??"),
    Step::Put(20, "??"),
    Step::Put(7, ""),
    Step::Next(0, "a"),
    Step::NoNext,
    Step::Put(1, "b"),
    Step::Put(12, "mnopqrst"),
    Step::Next(1, "b"),
    Step::Part(4, 2, "CDef"),
    Step::Part(40, 6, "GHijKL"),
    Step::Next(12, "mnopqrst"),
    Step::Part(40, 20, "UV"),
    Step::NoNext,
    Step::NoAny,
];

#[test]
fn joins_pieces_of_the_map_and_of_the_row() -> Result<()> {
    run(&[IN_MAP_AND_ROW])
}

// Overlaps in both directions, and repeats with other bytes. What is held is one piece all the time.
#[test]
fn hostile_overlaps_stay_one_piece() -> Result<()> {
    let mut subject = Subject::new()?;
    for turn in 0..200 {
        let (above, below) = (10_000 + 50 * turn, 10_000 - 50 * turn);
        for (offset, byte) in [(above, 7), (below, 7), (above, 8)] {
            assert_eq!(subject.put(offset, &[byte; 100], 100)?, TAKEN, "{turn}");
        }
    }
    assert_eq!(subject.put(0, &[6; 50], 50)?, TAKEN);
    assert_eq!(subject.chunk(ALL, true)?, Some((0, &[6; 50][..])));
    assert_eq!(subject.chunk(3, true)?, Some((50, &[7; 3][..])));
    assert_eq!(subject.chunk(ALL, true)?, Some((53, &[7; 19_997][..])));
    assert_eq!(subject.chunk(ALL, false)?, None);
    Ok(())
}
