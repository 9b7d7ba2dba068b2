//! Very many pieces of a stream: too many, too much memory, repeats, and pieces in any order.

#![cfg(not(miri))] // it calls the library

mod one_end;
mod pieces;

use one_end::steps::TAKEN;
use one_end::Result;
use pieces::*;

const TOO_MANY: &[Step] = &[
    Step::Fill(Places(1, 4, 2048), "gap", 3, TAKEN),
    Step::Fill(Places(8193, 0, 1), "gap", 3, INTERNAL),
    Step::Fill(Places(0, 0, 1), "", 0, INTERNAL),
    Step::Chunks(false, 2049, 3 * 2049),
];

const JUST_AS_MANY: &[Step] = &[
    Step::Fill(Places(1, 4, 2048), "gap", 3, TAKEN),
    Step::Chunks(false, 2048, 3 * 2048),
];

// What is read goes on where too many pieces are held.
const SCATTERED: &[Step] = &[
    Step::Fill(Places(1, 4, 2048), "gap", 3, TAKEN),
    Step::Fill(Places(8193, 0, 1), "gap", 3, INTERNAL),
    Step::Fill(Places(0, 0, 1), "x", 1, INTERNAL),
    Step::Next(0, "xgap"),
    Step::NoNext,
    Step::Chunks(false, 2048, 3 * 2048),
];

#[test]
fn refuses_too_many_pieces() -> Result<()> {
    run(&[TOO_MANY, JUST_AS_MANY, SCATTERED])
}

const LONG: &str = concat!(
    "0123456789abcdef0123456789abcdef0123456789abcdef0123456789abcdef",
    "0123456789abcdef0123456789abcdef0123456789abcdef0123456789abcdef",
);

const BYTES_33: &str = "xxxxxxxxxxxxxxxxxxxxxxxxxxxxxxxxx";

const LITTLE_MEMORY: &[Step] = &[
    Step::Fill(Places(0, 1, 32), "x", 1000, TAKEN),
    Step::Chunks(true, 32, 32),
];

const TOO_MUCH_MEMORY: &[Step] = &[
    Step::Fill(Places(0, 1, 33), "x", 1000, TAKEN),
    Step::Next(0, BYTES_33),
    Step::NoNext,
];

const MANY_TOUCH: &[Step] = &[
    Step::Fill(Places(0, 128, 1024), LONG, 128, TAKEN),
    Step::Put(131_072, "x"),
    Step::Chunks(true, 1025, 131_073),
];

const MANY_ARE_JOINED: &[Step] = &[
    Step::Fill(Places(0, 128, 1024), LONG, 128, TAKEN),
    Step::Put(131_072, "x"),
    Step::Compact,
    Step::Chunks(true, 1, 131_073),
];

const WASTE: &[Step] = &[
    Step::Keep(0, "abc", 4),
    Step::Keep(3, "def", 4),
    Step::Keep(9, "jkl", 4),
    Step::Keep(12, "mno", 4),
    Step::Compact,
    Step::Any(0, "abcdef"),
    Step::Any(9, "jklmno"),
];

#[test]
fn compacts_what_keeps_too_much_memory() -> Result<()> {
    run(&[
        LITTLE_MEMORY,
        TOO_MUCH_MEMORY,
        MANY_TOUCH,
        MANY_ARE_JOINED,
        WASTE,
    ])
}

/// 128 bytes and then one, 1015 times from offset 1 on, all touching and in their order, and then these steps.
fn touch_in_order(steps: &[Step]) -> Result<()> {
    let mut subject = Subject::new()?;
    for turn in 0..1015 {
        let start = 129 * turn + 1;
        assert_eq!(subject.put(start, LONG.as_bytes(), 128)?, TAKEN, "{turn}");
        assert_eq!(subject.put(start + 128, b"x", 1)?, TAKEN, "{turn}");
    }
    steps.iter().try_for_each(|step| subject.take(step))
}

// 2048 pieces are not compacted.
const ALL_APART: &[Step] = &[
    Step::Fill(Places(130_940, 2, 17), "x", 1, TAKEN),
    Step::Put(0, "y"),
    Step::Chunks(true, 2031, 130_936),
    Step::Chunks(false, 17, 17),
];

// One more is: those that touch are one piece then, beside 19.
const TOUCHING_JOINED: &[Step] = &[
    Step::Fill(Places(130_940, 2, 18), "x", 1, TAKEN),
    Step::Put(130_976, "x"),
    Step::Put(0, "y"),
    Step::Chunks(true, 2, 130_936),
    Step::Chunks(false, 19, 19),
];

#[test]
fn touching_pieces_in_their_order() -> Result<()> {
    touch_in_order(ALL_APART)?;
    touch_in_order(TOUCHING_JOINED)
}

const REPEATS: &[Step] = &[
    Step::Fill(Places(1, 4, 1024), "abc", 3, TAKEN),
    Step::Fill(Places(1, 0, 3072), "abc", 3, TAKEN),
    Step::Put(0, "x"),
    Step::Next(0, "x"),
    Step::Next(1, "abc"),
    Step::NoNext,
    Step::Chunks(false, 1023, 3 * 1023),
];

#[test]
fn repeats_are_taken_and_bounded() -> Result<()> {
    run(&[REPEATS])
}

// Pieces of which the last byte came before, each one lower than the one before it.
#[test]
fn overlaps_are_cut_and_bounded() -> Result<()> {
    let mut subject = Subject::new()?;
    subject.take(&Step::NoAny)?;
    subject.take(&Step::Put(1_000_000, "ab"))?;
    for turn in 0..4096 {
        let answer = subject.put(999_999 - turn, b"ab", 2)?;
        assert_eq!(answer, TAKEN, "{turn}");
    }
    let (chunks, bytes) = subject.chunks(false)?;
    assert!(chunks <= 2049, "{chunks} chunks");
    assert_eq!(bytes, 4098);
    Ok(())
}

// The bytes of a stream.
fn bytes_at(offset: u64, count: usize) -> Vec<u8> {
    (offset..offset + count as u64)
        .map(|at| ((at * 31 + (at >> 7)) % 251) as u8)
        .collect()
}

// How many pieces come, a prime, so that each step from piece to piece comes to all of them; and their length.
const PIECES: u64 = 257;
const LENGTH: u64 = 3;

#[test]
fn pieces_come_in_any_order() -> Result<()> {
    for step in 1..PIECES {
        let mut subject = Subject::new()?;
        for index in 0..PIECES {
            let offset = index * step % PIECES * LENGTH;
            let bytes = bytes_at(offset, LENGTH as usize);
            assert_eq!(subject.put(offset, &bytes, bytes.len())?, TAKEN, "{step}");
        }
        let mut given = Vec::new();
        while let Some((_, chunk)) = subject.chunk(ALL, true)? {
            given.extend_from_slice(chunk);
        }
        assert!(given == bytes_at(0, (PIECES * LENGTH) as usize), "{step}");
        subject.take(&Step::Read(PIECES * LENGTH))?;
    }
    Ok(())
}

// A number that looks random, from the one before.
fn next(seed: u64) -> u64 {
    let mixed = seed
        .wrapping_mul(6_364_136_223_846_793_005)
        .wrapping_add(1_442_695_040_888_963_407);
    mixed ^ (mixed >> 29)
}

/// A frame or a read that was drawn.
enum Drawn {
    /// The offset, the length and the memory.
    Put(u64, usize, usize),
    /// At most so many bytes.
    Read(usize),
}

// Pieces of 1 to 40 bytes that begin below `span`, with reads between them, and at the end all bytes below it.
fn draw(seed: u64, count: usize, span: u64) -> Vec<Drawn> {
    let numbers = std::iter::successors(Some(next(seed)), |number| Some(next(*number)));
    let mut steps: Vec<_> = numbers
        .take(count)
        .map(|number| {
            let length = ((number >> 40) % 40 + 1) as usize;
            let memory = length + ((number >> 48) % 3 * 700) as usize;
            match number % 5 {
                0 => Drawn::Read(((number >> 8) % 70) as usize),
                _ => Drawn::Put((number >> 16) % span, length, memory),
            }
        })
        .collect();
    steps.push(Drawn::Put(0, span as usize, span as usize));
    steps
}

// The bytes of a chunk are those of the stream, and none was given before.
fn note(offset: u64, chunk: &[u8], given: &mut [bool]) {
    assert_eq!(chunk, bytes_at(offset, chunk.len()));
    let start = offset as usize;
    for is_given in &mut given[start..start + chunk.len()] {
        assert!(!*is_given, "{offset}");
        *is_given = true;
    }
}

// Takes drawn steps, and reads what is left. Says which of so many bytes were given.
fn give(steps: &[Drawn], ordered: bool, count: usize) -> Result<Vec<bool>> {
    let (mut subject, mut given) = (Subject::new()?, vec![false; count]);
    if !ordered {
        subject.take(&Step::NoAny)?;
    }
    for step in steps {
        match *step {
            Drawn::Put(offset, length, memory) => {
                let bytes = bytes_at(offset, length);
                assert_eq!(subject.put(offset, &bytes, memory)?, TAKEN);
            }
            // A read of nothing changes nothing.
            Drawn::Read(0) => {}
            Drawn::Read(most) => {
                if let Some((offset, chunk)) = subject.chunk(most, ordered)? {
                    note(offset, chunk, &mut given);
                }
            }
        }
    }
    while let Some((offset, chunk)) = subject.chunk(ALL, ordered)? {
        note(offset, chunk, &mut given);
    }
    Ok(given)
}

#[test]
fn drawn_pieces_give_the_stream() -> Result<()> {
    for seed in 0..2000 {
        let (count, span) = (40 + 5 * (seed % 60), 200 + 40 * (seed % 60));
        let given = give(&draw(seed, count as usize, span), true, span as usize + 40)?;
        let read = given.iter().take_while(|is_given| **is_given).count();
        assert!(read >= span as usize, "seed {seed}");
        assert!(!given[read..].contains(&true), "seed {seed}");
    }
    Ok(())
}

#[test]
fn drawn_pieces_are_given_once_in_unordered_mode() -> Result<()> {
    for seed in 100..130 {
        let span = 200 + 20 * seed;
        let given = give(
            &draw(seed, 5 * seed as usize, span),
            false,
            span as usize + 40,
        )?;
        assert!(!given[..span as usize].contains(&false), "seed {seed}");
    }
    Ok(())
}
