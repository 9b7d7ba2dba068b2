"""The tool that finds where out-of-memory errors begin, on right bodies and on bodies that give up by their own choice."""
import os
import subprocess
import sys
import unittest

ROOT = os.path.join(os.path.dirname(os.path.abspath(__file__)), "..")
sys.path.insert(0, os.path.join(ROOT, "tools"))

import growth_errors  # noqa: E402

# The declarations that the snippets use.
BASE = """
pub struct OutOfMemory;
pub type Oom = OutOfMemory;
impl From<AllocError> for OutOfMemory {
    fn from(_error: AllocError) -> OutOfMemory { OutOfMemory }
}
pub enum WriteError { Blocked, OutOfMemory }
impl From<OutOfMemory> for WriteError {
    ghost from_gives = { λ _ error. error ≡ write_error.OutOfMemory };
    fn from(_error: OutOfMemory) -> WriteError { WriteError::OutOfMemory }
}
pub enum Mixed { Late, OutOfMemory }
pub const NO_MEMORY: i32 = -2;
pub enum Stop { NoPair, Failed }
impl From<io::Error> for Stop {
    fn from(_error: io::Error) -> Stop { Stop::Failed }
}
impl Lists {
    fn make_room(&mut self, n: usize) -> Result<(), OutOfMemory> { Ok(self.items.reserve(n)?) }
    fn grow(&mut self, n: u64) -> Result<Option<u64>, OutOfMemory> { self.items.reserve(1)?; Ok(Some(n)) }
    fn open(&mut self, n: u64) -> Result<u64, Mixed> { if n == 0 { return Err(Mixed::Late); } Ok(n) }
    fn check(&self, n: u64) -> Result<(), ()> { if n > 4294967296 { Err(()) } else { Ok(()) } }
    fn put_last(&mut self, item: Item) -> Result<(), Item> {
        if self.make_room(1).is_err() { return Err(item); }
        Ok(())
    }
}
"""

# Bodies of `fn write(&mut self, n: u64, fin: bool) -> Result<(), WriteError>` that may stand.
RIGHT = {
    "by ?": "self.items.reserve(1)?; Ok(())",
    "over a call of the library": "if self.items.reserve(1).is_err() { return Err(WriteError::OutOfMemory); } Ok(())",
    "over a call that can fail so": "match self.make_room(1) { Ok(()) => Ok(()), Err(_) => Err(WriteError::OutOfMemory) }",
    "beside another test": "if !fin && self.make_room(1).is_err() { return Err(WriteError::OutOfMemory); } Ok(())",
    "by map_err": "self.make_room(1).map_err(|_| WriteError::OutOfMemory)",
    "by or": "self.put_last(item()).or(Err(WriteError::OutOfMemory))",
    "in an arm of such an error": "match self.open(n) { Err(Mixed::OutOfMemory) => Err(WriteError::OutOfMemory), _ => Ok(()) }",
    "in an arm of two such errors": "match self.open(n) { Err(Mixed::OutOfMemory) | Err(Mixed::CompactionMemory) => Err(WriteError::OutOfMemory), _ => Ok(()) }",
    "of a call that gives back": "if let Err(item) = self.put_last(item()) { self.keep(item); return Err(WriteError::OutOfMemory); } Ok(())",
    "of a variable": "let made = self.make_room(1); self.tidy(); match made { Ok(()) => Ok(()), Err(_) => Err(WriteError::OutOfMemory) }",
    "behind let else": "let Ok(()) = self.make_room(1) else { return Err(WriteError::OutOfMemory); }; Ok(())",
    "behind let else with a name": "let Ok(made) = self.grow(n) else { return Err(WriteError::OutOfMemory); }; self.keep(made)",
    "behind let else with names in brackets": "let Ok((mut first, _)) = self.make_room(1).map(|()| (n, fin)) else { return Err(WriteError::OutOfMemory); }; first += 1; Ok(())",
    "for what is stored": "self.items.reserve(self.others.len() + 1)?; Ok(())",
    "for twice what is stored": "let twice = self.others.len() * 2; self.items.reserve(twice)?; Ok(())",
    "for a few": "const MOST: usize = 4 * 1_024; self.items.reserve(MOST)?; Ok(())",
    "a number that is no code": "if n as i64 - 2 > 7 { self.tidy(); } Ok(())",
    "a kind of error that is compared": "if error.kind() != ErrorKind::Interrupted { self.tidy(); } Ok(())",
    "a code of a failed growth": "match self.make_room(1) { Ok(()) => self.tell(0), Err(_) => self.tell(NO_MEMORY) }",
    "a stop of a failed growth": "let Ok(pair) = self.grow(n) else { return Err(Stop::NoPair); }; self.keep(pair)",
    "a comparison": "if self.last == WriteError::OutOfMemory { self.tidy(); } Ok(())",
    "a pattern": "if matches!(self.last, Err(WriteError::OutOfMemory)) { self.tidy(); } Ok(())",
    "a box": "match Box::new(self.alloc, n) { Ok(_) => Ok(()), Err(_) => Err(WriteError::OutOfMemory) }",
    "in words": "// gives OutOfMemory, as Err(OutOfMemory)\n let text = \"Err(OutOfMemory)\"; Ok(())",
}

# Bodies that give up by their own choice.
WRONG = {
    "above a number": "if n > 4294967296 { return Err(WriteError::OutOfMemory); } self.items.reserve(1)?; Ok(())",
    "at a code": "if n == 0 { Err(WriteError::OutOfMemory) } else { Ok(()) }",
    "at the second stream": "if self.count == 1 { return Err(WriteError::OutOfMemory); } Ok(())",
    "for FIN alone": "if fin { return Err(WriteError::OutOfMemory); } self.make_room(1)?; Ok(())",
    "always": "Err(WriteError::OutOfMemory)",
    "at the end": "self.items.reserve(1)?; Err(WriteError::OutOfMemory)",
    "in the arm of success": "match self.make_room(1) { Ok(()) => Err(WriteError::OutOfMemory), Err(_) => Ok(()) }",
    "in a guarded arm": "match self.make_room(1) { Ok(()) if n > 5 => Err(WriteError::OutOfMemory), Ok(()) => Ok(()), Err(_) => Ok(()) }",
    "in the arm of another error": "match self.open(n) { Err(Mixed::Late) => Err(WriteError::OutOfMemory), _ => Ok(()) }",
    "in an arm of either error": "match self.open(n) { Err(Mixed::OutOfMemory) | Err(Mixed::Late) => Err(WriteError::OutOfMemory), _ => Ok(()) }",
    "in the arm of any error": "match self.open(n) { Err(_) => Err(WriteError::OutOfMemory), Ok(_) => Ok(()) }",
    "in the arm of all else": "match self.make_room(1) { Ok(()) => Ok(()), _ => Err(WriteError::OutOfMemory) }",
    "behind a growth or a test": "if fin || self.items.reserve(1).is_err() { return Err(WriteError::OutOfMemory); } Ok(())",
    "where the growth went well": "if !self.items.reserve(1).is_err() { return Err(WriteError::OutOfMemory); } Ok(())",
    "where it went well, by is_ok": "if self.items.reserve(1).is_ok() { return Err(WriteError::OutOfMemory); } Ok(())",
    "in the other branch": "if self.items.reserve(1).is_err() { Ok(()) } else { Err(WriteError::OutOfMemory) }",
    "by a helper function": "fn no_memory() -> OutOfMemory { OutOfMemory } if n > 7 { return Err(no_memory().into()); } Ok(())",
    "by a helper that refuses": "match self.check(n) { Ok(()) => Ok(()), Err(_) => Err(WriteError::OutOfMemory) }",
    "by map_err over a helper that refuses": "self.check(n).map_err(|_| WriteError::OutOfMemory)",
    "by map_err over a conversion": "let small: u32 = n.try_into().map_err(|_| WriteError::OutOfMemory)?; Ok(())",
    "by ok_or": "self.map.get(&n).ok_or(WriteError::OutOfMemory)?; Ok(())",
    "by ok_or_else": "n.checked_add(1).ok_or_else(|| WriteError::OutOfMemory)?; Ok(())",
    "by a constant": "const NO: WriteError = WriteError::OutOfMemory; if n > 7 { return Err(NO); } Ok(())",
    "by a variable": "let refusal = WriteError::OutOfMemory; if n > 7 { return Err(refusal); } Ok(())",
    "by a variable of another answer": "let made = self.check(n); match made { Ok(()) => Ok(()), Err(_) => Err(WriteError::OutOfMemory) }",
    "by a variable that was given anew": "let made = self.make_room(1); let made = self.check(n); match made { Ok(()) => Ok(()), Err(_) => Err(WriteError::OutOfMemory) }",
    "by into": "if n > 7 { return Err(OutOfMemory.into()); } Ok(())",
    "by from": "if n > 7 { return Err(WriteError::from(OutOfMemory)); } Ok(())",
    "by another name": "use crate::WriteError::OutOfMemory as Late; if n > 7 { return Err(Late); } Ok(())",
    "by the library's error": "if n > 7 { return Err(OutOfMemory::from(AllocError).into()); } Ok(())",
    "by a closure": "let refuse = || Err(WriteError::OutOfMemory); if n > 7 { return refuse(); } Ok(())",
    "by a closure of a growth's name": "let reserve = |k: u64| if k > 7 { Err(()) } else { Ok(()) }; match reserve(n) { Ok(()) => Ok(()), Err(_) => Err(WriteError::OutOfMemory) }",
    "behind let else of another call": "let Some(_) = self.map.get(&n) else { return Err(WriteError::OutOfMemory); }; Ok(())",
    "in a loop": "for k in 0..n { if k == 1000000 { return Err(WriteError::OutOfMemory); } } Ok(())",
    "as an alternative of a growth": "match if n > 7 { Err(OutOfMemory) } else { self.make_room(1) } { Ok(()) => Ok(()), Err(_) => Err(WriteError::OutOfMemory) }",
    "behind let else where it was too much": "let Ok(true) = self.make_room(1).map(|()| n < 100000) else { return Err(WriteError::OutOfMemory); }; Ok(())",
    "behind let else where it gave none": "let Ok(Some(_)) = self.grow(n) else { return Err(WriteError::OutOfMemory); }; Ok(())",
    "behind let else of a few": "let Ok(0..=100000) = self.make_room(1).map(|()| n) else { return Err(WriteError::OutOfMemory); }; Ok(())",
    "behind let else of a constant": "const most: u64 = 7; let Ok(most) = self.make_room(1).map(|()| n) else { return Err(WriteError::OutOfMemory); }; Ok(())",
    "behind let else of a constant in capitals": "let Ok(LAST) = self.make_room(1).map(|()| n) else { return Err(WriteError::OutOfMemory); }; Ok(())",
    "by an error of the library's that was made here": "if n > 7 { return Err(TryReserveError.into()); } Ok(())",
    "by an error of the kit's that was made here": "if n > 7 { return Err(InsertFailed { key: n }.into()); } Ok(())",
    "in the arm of a constant": "const NoMemory: u64 = 7; match n { NoMemory => Err(WriteError::OutOfMemory), _ => Ok(()) }",
    "in the arm of a static": "static Oom: u64 = 7; match n { Oom => Err(WriteError::OutOfMemory), _ => Ok(()) }",
    "in an arm that takes any error": "match self.check(n) { Ok(()) => Ok(()), Err(NoMemory) => Err(WriteError::OutOfMemory) }",
    "in the arm of a name for another error": "use crate::Mixed::Late as Memory; match self.open(n) { Err(Memory) => Err(WriteError::OutOfMemory), _ => Ok(()) }",
    "by a growth for no list": "if n > 100000 { self.items.reserve(usize::MAX)?; } Ok(())",
    "by a growth for a constant": "const TOO_MANY: usize = 1 << 62; if n > 7 { self.items.reserve_exact(TOO_MANY)?; } Ok(())",
    "by a growth for a number": "if n > 7 { self.items.reserve(8_589_934_592)?; } Ok(())",
    "by a growth for a variable": "let most = u64::MAX; if n > 7 { self.items.reserve(most as usize)?; } Ok(())",
    "by a growth for a variable that was set": "let mut most = 1; if n > 7 { most = u64::MAX; } self.items.reserve(most as usize)?; Ok(())",
    "by a growth for a shifted number": "self.items.reserve((n << 40) as usize)?; Ok(())",
    "by a growth for a product": "self.items.reserve(n as usize * n as usize)?; Ok(())",
    "by a growth of its own": "if n > 7 { self.make_room(usize::MAX)?; } Ok(())",
    "by a list without need": "if n > 7 { let _list = vec![0; 1 << 40]?; } Ok(())",
    "by a list with room without need": "if n > 7 { let _list = Vec::<u64>::with_capacity(self.alloc, usize::MAX)?; } Ok(())",
    "by a code": "if n > 7 { return self.tell(NO_MEMORY); } self.tell(0)",
    "by the number of a code": "if n > 7 { return -2; } 0",
    "by a stop without a pair": "if n > 2305843009213693952 { return Err(Stop::NoPair); } Ok(())",
    "by a stop that failed": "for line in 0..n { if line == 1000000 { return Err(Stop::Failed); } } Ok(())",
    "by a failed write of its own": "if n > 7 { return Err(Stop::from(io::Error::from(ErrorKind::Other))); } Ok(())",
    "for compaction": "self.make_room(1)?; if n > 1024 { return Err(InsertError::CompactionMemory); } Ok(())",
}

# Items beside such a body that make such an error.
WRONG_ITEMS = {
    "a From of another error": "impl From<Late> for WriteError { fn from(_error: Late) -> WriteError { WriteError::OutOfMemory } }",
    "an error of itself": "impl OutOfMemory { pub fn new() -> Self { Self } }",
    "a macro": "macro_rules! refuse { () => { return Err(WriteError::OutOfMemory) }; }",
    "a default": "#[derive(Clone, Copy, Default)]\npub struct NoMemory;",
    "a default variant": "#[derive(Default)]\npub enum Refusal { Late, #[default] OutOfMemory }",
    "a type of another name": "pub type Nothing = OutOfMemory;",
    "another type of such a name": "pub type InsertFailed = u64;",
    "a constant of such a name": "impl Row { pub const Memory: u64 = 100000; }",
    "a code of another value": "pub const NO_MEMORY: i32 = CLOSED;",
    "an out-of-memory error of a failed read": "impl From<io::Error> for Late { fn from(_error: io::Error) -> Late { Late::OutOfMemory } }",
    "a stop without a pair of a failed read": "impl From<io::Error> for Early { fn from(_error: io::Error) -> Early { Stop::NoPair.into() } }",
    "a static": "static NO: OutOfMemory = OutOfMemory;",
    "a function that gives back by its own choice": "impl Row { fn put_first(&mut self, item: Item) -> Result<(), Item> { if self.len > 5 { return Err(item); } Ok(()) } }",
}


def wrong_places(text):
    name = os.path.join("crates", "snippet", "src", "lib.rt")
    return [(line, why) for _, line, allowed, why in growth_errors.places_of({name: text}, {}) if not allowed]


def with_body(body):
    return BASE + "impl Lists {\n    fn write(&mut self, n: u64, fin: bool) -> Result<(), WriteError>\n        ensures err { OnErr result (self.new ≡ self.old) }\n    {\n" + body + "\n    }\n}\n"


class GrowthErrors(unittest.TestCase):
    def test_what_stands_below_is_right(self):
        self.assertEqual(wrong_places(BASE), [])

    def test_right_bodies_pass(self):
        for name, body in RIGHT.items():
            with self.subTest(name):
                self.assertEqual(wrong_places(with_body(body)), [])

    def test_bodies_that_give_up_are_found(self):
        self.assertGreaterEqual(len(WRONG), 60)
        first = with_body("").split("\n").index("    {") + 2
        for name, body in WRONG.items():
            with self.subTest(name):
                lines = {line for line, _ in wrong_places(with_body(body))}
                self.assertEqual(lines, {first})

    def test_items_that_make_such_an_error_are_found(self):
        for name, item in WRONG_ITEMS.items():
            with self.subTest(name):
                self.assertEqual(len(wrong_places(BASE + item + "\n")), 1)

    def test_a_crate_sees_only_those_below_it(self):
        texts = {
            os.path.join("crates", "low", "src", "lib.rt"): "fn grow(n: u64) -> Result<(), OutOfMemory> { Ok(()) }",
            os.path.join("crates", "other", "src", "lib.rt"): "fn grow(n: u64) -> Result<(), ()> { Err(()) }",
            os.path.join("crates", "high", "src", "lib.rt"): "fn f() -> Result<(), E> { match grow(1) { Ok(()) => Ok(()), Err(_) => Err(E::OutOfMemory) } }",
        }
        self.assertEqual([p for p in growth_errors.places_of(texts, growth_errors.crates_below("high: low")) if not p[2]], [])
        self.assertEqual(len([p for p in growth_errors.places_of(texts, growth_errors.crates_below("high: low other")) if not p[2]]), 1)

    def test_the_repository_passes(self):
        run = subprocess.run([sys.executable, os.path.join(ROOT, "tools", "growth_errors.py")], stdout=subprocess.PIPE, universal_newlines=True)
        self.assertEqual((run.returncode, run.stdout[:3]), (0, "ok:"), run.stdout)


if __name__ == "__main__":
    unittest.main()
