#!/usr/bin/env python3
"""Lists where out-of-memory errors begin in the sources, and fails if one begins without a call that can run out of memory.

    tools/growth_errors.py [--list] [ROOT]

With --list it prints every place, else only those that no rule allows. Its status is 1 if there is one of those.

An out-of-memory error may be passed on by `?`, or be made by name if a call that can run out of memory has failed: by a `From` of
such an error, by `map_err` over the call, in an arm, an `if` or an `else` of its failure.

The codes and stops that stand for such an error count as well (`NO_MEMORY`, `NoPair`, `Failed`), and an `io::Error` that the code makes
itself. A growth for a large constant, rather than for what is stored, counts as an error that was chosen.
"""
import argparse
import os
import re
import sys

from source_tokens import Token, before_parameters, behind_parameters, closure_body, find, find_group, is_word, read, split, without_contracts

# Error types that mean only out of memory.
ERROR_TYPES = {"OutOfMemory", "Oom", "AllocError", "AllocFailed", "TryReserveError", "InsertFailed"}

# Constants that are the code of such an error. Such a number may not be written in digits where the constant is known.
CODES = {"NO_MEMORY"}

# Names that also say that a read or a write failed. They may be made of an `io::Error` too, or of an error of these types.
FAILURES = {"Failed"}
STREAM_ERRORS = {"StreamFailed"}

# The names of out-of-memory errors: types, variants of other errors, and codes.
NAMES = ERROR_TYPES | CODES | FAILURES | {"CompactionMemory", "NoMemory", "Memory", "NoPair"}

# Calls of the library that take memory, and fail only when it runs out.
LIBRARY_CALLS = {
    "reserve", "reserve_exact", "push", "push_back", "push_front", "push_str", "insert", "append", "extend_from_slice",
    "clone", "to_vec", "from_slice", "with_capacity", "resize",
}
LIBRARY_PATHS = {("Box", "new")}
LIBRARY_MACROS = {"vec", "format"}

# Why an error may be made in a `From`.
FROM_MEMORY, FROM_IO = "from", "from a failed read or write"

# Calls that take memory for as much as a number says, by words of their names.
SIZED = re.compile("reserve|room|capacity|resize|grow|repeat")

# The largest constant for which memory may be taken at once. A larger number has to come from what is stored.
MOST_AT_ONCE = 65536

# Functions that hand their argument back as the error where memory runs out. It counts as an out-of-memory error.
GIVES_BACK = {"put_new", "put_first", "put_last", "put_tidy", "join_last", "push_within", "merge", "merge_thin"}

# Places that stay as they are, each of them once: (file, line of text), below the reason.
ALLOWED = {
    # A report of a payload hands the payload back where memory ran out, and only there.
    ("crates/quic_session/src/settling.rt", "SettleError::OutOfMemory"),
    # The type of the error of an endpoint's `set_params` has out of memory alone.
    ("crates/quic_session/src/params.rt", "Err(_) => Err(ParamsError::OutOfMemory),"),
    # A report of a payload hands the payload back where memory ran out, and only there.
    ("crates/connection_loop/src/connection.rt", "self.streams.acked(sent).or(Err(OutOfMemory))?;"),
    ("crates/connection_loop/src/connection.rt", ".or(Err(OutOfMemory))?,"),
    # The reply of a step said that memory ran out: no other reply ends a settling so.
    ("crates/quic_pair/src/settle.rt", "None => Err(OutOfMemory),"),
    # The session says of a payload that it was cut, which it does only behind a frame for which memory ran out.
    ("crates/quic_pair/src/emitting.rt", "return Err(OutOfMemory);"),
    # Both answers fail only out of memory, and this arm is for all cases except two successes, so one of them is an error.
    ("crates/quic_exchange/src/replies.rt", "_ => Err(PairError::OutOfMemory),"),
    # A map of 2^62 entries fits into no memory. The test bounds the count for the proof.
    ("crates/block_map/src/edits.rt", "blocks.reserve(usize::MAX)?;"),
    # A closed stream as an `io::Error`. It says nothing of memory.
    ("crates/quic_sending/src/send.rt", "io::Error::from(io::ErrorKind::NotConnected)"),
}


def names(tokens):
    """The names of out-of-memory errors in tokens, at any depth."""
    for t in tokens:
        if t.inner is not None:
            yield from names(t.inner)
        elif t.text in NAMES:
            yield t


class Source:
    """Which errors the functions of a crate, and of the crates below it, answer."""

    def __init__(self):
        self.errors = {}
        self.constants = {}
        self.brought = set()
        self.variables = set()
        self.large = set()

    def join(self, other):
        for name, kinds in other.errors.items():
            self.errors.setdefault(name, set()).update(kinds)
        for name, values in other.constants.items():
            self.constants.setdefault(name, []).extend(values)

    def add(self, tokens):
        """Adds the functions of a file, each with the kind of error that it answers."""
        for i, t in enumerate(tokens):
            if t.inner is not None:
                self.add(t.inner)
            if t.text == "fn" and i + 1 < len(tokens) and is_word(tokens[i + 1]):
                body = i + 2
                while body < len(tokens) and tokens[body].text not in ("{", ";"):
                    body += 1
                self.errors.setdefault(tokens[i + 1].text, set()).add(error_of(tokens[i + 2:body]))
            if t.text in ("const", "static") and i + 2 < len(tokens) and tokens[i + 2].text == ":":
                value = tokens[find(tokens, "=", i) + 1:find(tokens, ";", i)]
                self.constants.setdefault(tokens[i + 1].text, []).append(value)

    def codes(self):
        """The codes of such errors, as numbers without their sign."""
        values = [value for name in CODES for value in self.constants.get(name, [])]
        return {value[1].text for value in values if len(value) == 2 and value[0].text == "-"}

    def is_large(self, tokens, seen=frozenset()):
        """Whether an expression may be a number above `MOST_AT_ONCE` that is no size of anything stored."""
        for i, t in enumerate(tokens):
            if t.inner is not None:
                if self.is_large(t.inner, seen):
                    return True
            elif t.text in ("MAX", "pow") or t.text in self.large or shifts(tokens, i) or multiplies(tokens, i):
                return True
            elif t.text[0].isdigit() and number_of(t.text) > MOST_AT_ONCE:
                return True
            elif is_constant(t.text) and t.text not in seen:
                values = self.constants.get(t.text)
                if values is None or any(self.is_large(value, seen | {t.text}) for value in values):
                    return True
        return False

    def is_growth(self, name):
        """Whether a variable holds the answer of a call that fails only out of memory."""
        return name in self.variables

    def can_fail(self, callee, path, is_method):
        """Whether a call of that name fails only out of memory."""
        if callee in self.errors:
            kinds = self.errors[callee] - {None}
            return bool(kinds) and all(kind == "memory" or callee in GIVES_BACK for kind in kinds)
        if path is not None:
            return (path, callee) in LIBRARY_PATHS or callee in LIBRARY_CALLS
        return is_method and callee in LIBRARY_CALLS


def is_constant(word):
    return len(word) > 1 and word.isupper() and (word[0].isalpha() or word[0] == "_")


def number_of(text):
    """The value of a number as the source has it: `4_096`, `0x10` or `64usize`."""
    plain = re.sub(r"(?:[iu](?:8|16|32|64|128|size)|f32|f64)$", "", text).replace("_", "")
    try:
        return int(plain, 0)
    except ValueError:
        return MOST_AT_ONCE + 1


def shifts(tokens, i):
    """Whether `<<` stands there, which is read as two signs."""
    return tokens[i].text == "<" and i + 1 < len(tokens) and tokens[i + 1].text == "<"


def multiplies(tokens, i):
    """Whether a product stands there of which neither factor is a number up to 64."""
    if tokens[i].text != "*" or i == 0 or i + 1 == len(tokens):
        return False
    sides = (tokens[i - 1], tokens[i + 1])
    if sides[0].inner is None and not re.match(r"[\w?]", sides[0].text) or sides[0].text in ("return", "in", "as"):
        return False
    return not any(it.inner is None and it.text[0].isdigit() and number_of(it.text) <= 64 for it in sides)


def error_of(signature):
    """`memory` where the error that a function answers is only out of memory, `other` for another error, else None."""
    at = find(signature, "->")
    if at == len(signature):
        return None
    answer = signature[at + 1:]
    where = find(answer, "where")
    words = [t.text for t in answer[:where]]
    if "Result" not in words:
        return None
    depth, last = 0, []
    for word in words[words.index("Result") + 1:]:
        if word == "<":
            depth += 1
        elif word == ">":
            depth -= 1
            if depth == 0:
                break
        elif word == "," and depth == 1:
            last = []
            continue
        last.append(word)
    plain = [w for w in last if w not in ("&", "<", ">", "_", ",")]
    if plain and "".join(plain).split("::")[-1].split("<")[0] in ERROR_TYPES or (plain and plain[0] in ERROR_TYPES):
        return "memory"
    return "other"


def is_chain(tokens):
    """Whether the tokens are a single chain of calls and fields, such as `&mut self.rest.put(x)?`."""
    if not tokens:
        return False
    depth = 0
    for i, t in enumerate(tokens):
        if t.text == "<" and i and tokens[i - 1].text in ("::",) or (depth and t.text == "<"):
            depth += 1
        elif t.text == ">" and depth:
            depth -= 1
        elif depth:
            continue
        elif t.inner is not None:
            if t.text == "{":
                return False
        elif t.text in ("&", "*", "mut"):
            if i and tokens[i - 1].text not in ("&", "*"):
                return False
        elif t.text in ("if", "match", "loop", "return", "else", "unsafe", "as"):
            return False
        elif not (is_word(t) or t.text in (".", "::", "?", "!") or re.match(r"\d", t.text)):
            return False
    return True


# What an item begins with.
ITEMS = ("fn", "struct", "enum", "impl", "use", "const", "static", "type")

# Methods that may follow a call, and are passed over.
PASSED_OVER = {"map", "map_err", "or", "or_else", "as_mut", "as_ref", "by_ref"}


def ends_in_growth(tokens, source):
    """Whether an expression is a call that fails only out of memory."""
    tokens = list(tokens)
    while len(tokens) == 1 and tokens[0].text == "(":
        tokens = tokens[0].inner
    if not is_chain(tokens):
        return False
    if len(tokens) == 1:
        return source.is_growth(tokens[0].text)
    if len(tokens) >= 3 and tokens[-1].inner is not None and tokens[-2].text == "!":
        return tokens[-3].text in LIBRARY_MACROS
    end = len(tokens)
    while True:
        if end < 2 or tokens[end - 1].text != "(":
            return False
        at = end - 2
        at = before_parameters(tokens, at)
        if at < 0 or not is_word(tokens[at]):
            return False
        callee = tokens[at].text
        before = tokens[at - 1].text if at else None
        if before == "." and callee in PASSED_OVER:
            end = at - 1
            continue
        path = tokens[at - 2].text if before == "::" and at >= 2 else None
        return source.can_fail(callee, path, before == ".")


def tells_failure(condition, source):
    """Whether a condition holds only where such a call failed: `call.is_err()`, alone or joined to others by `&&`."""
    if any(t.inner is None and t.text == "||" for t in condition):
        return False
    for part in split(condition, "&&"):
        if len(part) > 3 and part[-1].text == "(" and part[-2].text == "is_err" and part[-3].text == ".":
            if part[0].text != "!" and ends_in_growth(part[:-3], source):
                return True
    return False


def is_failure(pattern):
    """`Err(x)`, whichever error it is."""
    return len(pattern) == 2 and pattern[0].text == "Err" and pattern[1].text == "("


def takes_all(pattern, constants):
    """Whether a pattern takes every value: `()`, `_`, a name that is no constant, or several of these in brackets."""
    if len(pattern) == 1 and pattern[0].text == "(":
        return all(takes_all(part, constants) for part in split(pattern[0].inner, ",") if part)
    if len(pattern) == 2 and pattern[0].text in ("mut", "ref"):
        pattern = pattern[1:]
    if len(pattern) != 1 or pattern[0].text in ("true", "false") or pattern[0].text in constants:
        return False
    return re.match(r"[a-z_]\w*$", pattern[0].text) is not None


def is_memory(pattern, brought):
    """Whether every alternative of a pattern is an out-of-memory error. A bare name is one only where it was brought into scope."""
    while len(pattern) == 1 and pattern[0].text == "(":
        pattern = pattern[0].inner
        places = [part for part in split(pattern, ",") if part]
        if len(places) > 1:
            return any(is_memory(part, brought) for part in places)
    parts = split(pattern, "|")
    if len(parts) > 1:
        return all(is_memory(part, brought) for part in parts)
    if len(pattern) == 2 and pattern[0].text in ("Err", "Some") and pattern[1].text == "(":
        return is_memory(pattern[1].inner, brought)
    if not pattern or not is_path(pattern):
        return False
    path = pattern if pattern[-1].inner is None else pattern[:-1]
    return path[-1].text in NAMES and (len(path) > 1 or path[-1].text in brought)


def is_path(part):
    """`A::B`, or `A::B(..)`."""
    if part[-1].inner is not None:
        part = part[:-1]
    return bool(part) and part[-1].inner is None and all(is_word(t) or t.text == "::" for t in part)


class Reader:
    """Finds the places of a file where an out-of-memory error is made by name."""

    def __init__(self, source, places):
        self.source, self.places, self.gives_back = source, places, False
        self.own_type = False

    def items(self, tokens, from_memory=None):
        i = 0
        while i < len(tokens):
            t = tokens[i]
            if t.text in ("use", "struct", "enum", "trait", "mod", "impl", "type", "const", "static", "fn", "macro_rules"):
                i = self.item(tokens, i, from_memory)
            else:
                i += 1

    def item(self, tokens, i, from_memory):
        kind = tokens[i].text
        end = i
        while end < len(tokens) and tokens[end].text not in (";", "{"):
            end += 1
        header = tokens[i:end]
        if kind == "use":
            semi = find(tokens, ";", i)
            self.renames(tokens[i:semi])
            return semi + 1
        if kind == "type":
            self.alias(header)
            return end + 1
        if kind in ("const", "static"):
            return i + 1 if len(header) > 1 and header[1].text == "fn" else self.constant(tokens, i)
        if kind == "macro_rules":
            for t in names(tokens[end].inner if end < len(tokens) else []):
                self.note(t, "in a macro")
            return end + 1
        if end >= len(tokens) or tokens[end].text == ";":
            return end + 1
        body = tokens[end].inner
        if kind == "impl":
            outer, self.own_type = self.own_type, type_of(header) in ERROR_TYPES
            self.items(body, from_of(header))
            self.own_type = outer
        elif kind in ("trait", "mod"):
            self.items(body)
        elif kind == "fn":
            outer = self.gives_back, self.source.variables, self.source.large
            self.gives_back, self.source.variables = header[1].text in GIVES_BACK, answers_given(header)
            self.expression(body, [from_memory] if from_memory and header[1].text == "from" else [])
            self.gives_back, self.source.variables, self.source.large = outer
        elif kind in ("struct", "enum"):
            pass
        return end + 1

    def alias(self, header):
        """A name for another type is that of such an error where the other one is, and only there."""
        at = find(header, "=")
        if at < len(header) and any(True for _ in names(header[at:])) != (header[1].text in NAMES):
            self.note(header[1], "another name")

    def constant(self, tokens, i):
        semi = find(tokens, ";", i)
        name, value = tokens[i + 1], tokens[find(tokens, "=", i) + 1:semi]
        if name.text in CODES and len(value) == 2 and value[0].text == "-" and value[1].text.isdigit():
            return semi + 1
        self.expression(value, [])
        if name.text in NAMES:
            self.note(name, "a constant of such a name")
        return semi + 1

    def renames(self, tokens):
        for i, t in enumerate(tokens):
            if t.inner is not None:
                self.renames(t.inner)
            elif t.text == "as" and i and i + 1 < len(tokens) and (tokens[i - 1].text in NAMES or tokens[i + 1].text in NAMES):
                self.note(t, "another name")

    def note(self, token, why):
        self.places.append((token.line, False, why))

    def expression(self, tokens, why):
        i = start = 0
        while i < len(tokens):
            if tokens[i].inner is None and tokens[i].text in (";", ","):
                start = i + 1
            behind = self.construct(tokens, i, start, why)
            if behind is None:
                self.token(tokens, i, start, why)
                i += 1
            else:
                i, start = behind

    def construct(self, tokens, i, start, why):
        """Goes through a `match`, a branch, a loop, a `let`, an item, or what makes no value. Answers what stands behind it, and where the statement there begins."""
        t = tokens[i]
        before = tokens[i - 1].text if i else None
        if t.inner is not None:
            return None
        if t.text in ("match", "if", "while") and before != ".":
            return (self.match if t.text == "match" else self.branch)(tokens, i, why), start
        if t.text == "let":
            end = self.binding(tokens, i, why)
            return end, end
        if t.text == "for":
            return self.loop(tokens, i, why), start
        if t.text in ITEMS and (before in (None, ";", "}", "{", "pub") or i == start):
            end = self.item(tokens, i, None)
            return end, end
        if t.text == "|" and before in (None, "(", ",", "=", "move", "return", "=>", ";"):
            return closure_body(tokens, i), start
        if t.text == "::" and i + 1 < len(tokens) and tokens[i + 1].text == "<":
            return behind_parameters(tokens, i + 1), start
        if t.text == "matches" and i + 2 < len(tokens) and tokens[i + 1].text == "!" and tokens[i + 2].inner is not None:
            self.expression(tokens[i + 2].inner[: find(tokens[i + 2].inner, ",")], why)
            return i + 3, start
        return None

    def token(self, tokens, i, start, why):
        """Looks at a single token, or goes through what stands in its brackets."""
        t = tokens[i]
        if self.gives_back and t.text == "Err" and t.inner is None:
            self.places.append((t.line, bool(why), why[-1] if why else "gives back"))
        if t.inner is not None:
            self.group(tokens, i, start, why)
            if self.is_growth(tokens, i) and self.source.is_large(t.inner):
                self.note(t, "a growth without need")
        elif self.is_made(tokens, i):
            self.made(t, why, "by name")
        elif self.is_code(tokens, i):
            self.made(t, why, "by number")
        elif t.text == "ErrorKind" and i + 2 < len(tokens) and tokens[i + 1].text == "::" and not is_compared(tokens, i + 2):
            self.note(t, "a failed read or write of its own")
        elif t.text == "=" and i and is_word(tokens[i - 1]) and (i < 2 or tokens[i - 2].text in (";", "}", "{", "=>")):
            self.assign(tokens[i - 1].text, tokens[i + 1:find(tokens, ";", i)])

    def loop(self, tokens, i, why):
        group = find_group(tokens, i)
        self.expression(tokens[find(tokens, "in", i):group], why)
        if group < len(tokens):
            self.expression(tokens[group].inner, why)
        return group + 1

    def is_growth(self, tokens, i):
        """Whether the brackets have the size of a growth: the arguments of such a call, or what `vec!` is given."""
        if tokens[i].text == "(":
            return SIZED.search(self.called(tokens, i)) is not None
        return i >= 2 and tokens[i - 1].text == "!" and tokens[i - 2].text == "vec"

    def made(self, token, why, how):
        """An error is made here. Where an `io::Error` is turned into another, only a name that also stands for it may be made."""
        allowed = [it for it in why if it != FROM_IO or token.text in FAILURES]
        self.places.append((token.line, bool(allowed), allowed[-1] if allowed else how))

    def is_code(self, tokens, i):
        """Whether the number of such a code stands here, which is below 0."""
        if tokens[i].text != "-" or i + 1 == len(tokens) or tokens[i + 1].text not in self.source.codes():
            return False
        return i == 0 or tokens[i - 1].inner is None and not re.match(r"\w", tokens[i - 1].text) or tokens[i - 1].text in ("return", "{")

    def called(self, tokens, i):
        """The name of what is called with the arguments that stand there, or nothing."""
        at = before_parameters(tokens, i - 1)
        if at < 0 or not is_word(tokens[at]) or at and tokens[at - 1].text == "fn":
            return ""
        name = tokens[at].text
        known = name in LIBRARY_CALLS or name in self.source.errors and "memory" in self.source.errors[name] or name in ("try_reserve",)
        return name if known else ""

    def assign(self, name, value):
        """Keeps whether a variable may hold a number that is no size."""
        large = self.source.is_large(value)
        self.source.large = self.source.large | {name} if large else self.source.large - {name}

    def is_made(self, tokens, i):
        """Whether an error is made here by its name: the name is not compared with, nor called as in `OutOfMemory::from`."""
        behind = [t.text for t in tokens[i + 1:i + 3]]
        if tokens[i].text == "Self":
            return self.own_type and behind[:1] != ["::"]
        return tokens[i].text in NAMES and not is_compared(tokens, i) and behind != ["::", "from"]

    def group(self, tokens, i, start, why):
        """Goes through what stands in brackets, which may be the argument of `map_err` over a call that can run out of memory."""
        t = tokens[i]
        inner = why
        if t.text == "(" and i >= 3 and tokens[i - 1].text in ("map_err", "or", "or_else") and tokens[i - 2].text == ".":
            chain = self.chain_before(tokens, i - 2, start)
            if ends_in_growth(chain, self.source):
                inner = why + ["map_err"]
            elif tokens[i - 1].text == "map_err":
                inner = why + ["map_err"] if self.closure_takes_memory(t.inner) else why
        self.expression(t.inner, inner)

    def closure_takes_memory(self, tokens):
        """`|OutOfMemory| ..`"""
        return len(tokens) > 2 and tokens[0].text == "|" and tokens[1].text in NAMES & self.source.brought and tokens[2].text == "|"

    def chain_before(self, tokens, end, start):
        at = end
        while at > start:
            t = tokens[at - 1]
            if t.inner is not None and t.text != "{" or is_word(t) and t.text not in ("return", "match", "if", "else", "in", "move") or t.text in (".", "::", "?", "!", "<", ">"):
                at -= 1
            else:
                break
        return tokens[at:end]

    def match(self, tokens, i, why):
        group = find_group(tokens, i + 1)
        subject = tokens[i + 1:group]
        self.expression(subject, why)
        if group >= len(tokens):
            return group
        grows = ends_in_growth(subject, self.source)
        arms, at = tokens[group].inner, 0
        while at < len(arms):
            arrow = find(arms, "=>", at)
            pattern = arms[at:arrow]
            guard = find(pattern, "if")
            pattern, condition = pattern[:guard], pattern[guard + 1:]
            if pattern and pattern[0].text == "|":
                pattern = pattern[1:]
            self.expression(condition, why)
            end = arrow + 1
            if end < len(arms) and arms[end].text == "{":
                end += 1
            else:
                end = find(arms, ",", end)
            inner = why
            if pattern and is_memory(pattern, self.source.brought):
                inner = why + ["arm of such an error"]
            elif grows and is_failure(pattern):
                inner = why + ["arm of a failed growth"]
            self.expression(arms[arrow + 1:end], inner)
            at = end + 1 if end < len(arms) and arms[end].text == "," else end
        return group + 1

    def branch(self, tokens, i, why):
        group = find_group(tokens, i + 1)
        head = tokens[i + 1:group]
        inner = why
        whole = [] if any(t.inner is None and t.text == "||" for t in head) else split(head, "&&")
        for part in whole or [head]:
            if part and part[0].text == "let":
                equal = find(part, "=")
                pattern, subject = part[1:equal], part[equal + 1:]
                self.expression(subject, why)
                if whole and is_memory(pattern, self.source.brought):
                    inner = inner + ["arm of such an error"]
                elif whole and is_failure(pattern) and ends_in_growth(subject, self.source):
                    inner = inner + ["arm of a failed growth"]
            else:
                self.expression(part, why)
                if whole and tells_failure(part, self.source):
                    inner = inner + ["arm of a failed growth"]
        if group < len(tokens):
            self.expression(tokens[group].inner, inner)
        return group + 1

    def binding(self, tokens, i, why):
        """`let x: T = ..;`, and `let Ok(x) = .. else { .. };`."""
        semi = find(tokens, ";", i)
        equal = find(tokens, "=", i)
        if equal > semi:
            return semi
        rest = tokens[equal + 1:semi]
        otherwise = find(rest, "else")
        pattern = tokens[i + 1:equal]
        for t in pattern:
            self.source.variables = self.source.variables - {t.text}
        if len(pattern) == 1 and ends_in_growth(rest, self.source):
            self.source.variables = self.source.variables | {pattern[0].text}
        for t in pattern[:find(pattern, ":")]:
            if is_word(t) and t.text not in ("mut", "ref"):
                self.assign(t.text, rest)
        if otherwise < len(rest) and not any(t.text in ("if", "match") for t in rest[:otherwise]):
            subject = rest[:otherwise]
            self.expression(subject, why)
            is_ok = len(pattern) == 2 and pattern[0].text == "Ok" and pattern[1].text == "(" and takes_all(pattern[1:], self.source.constants)
            inner = why + ["arm of a failed growth"] if is_ok and ends_in_growth(subject, self.source) else why
            self.expression(rest[otherwise + 1:], inner)
            return semi
        return equal + 1


def answers_given(header):
    """The parameters of a function that hold answers of calls that fail only out of memory."""
    for t in header:
        if t.text == "(":
            return {part[0].text for part in parameters(t.inner) if error_of([Token("->", 0)] + part[2:]) == "memory"}
    return set()


def parameters(tokens):
    """The parameters `name: type`."""
    depth, part = 0, []
    for t in tokens:
        depth += (t.text == "<") - (t.text == ">")
        if t.text == "," and depth == 0:
            if len(part) > 2 and part[1].text == ":":
                yield part
            part = []
        else:
            part.append(t)
    if len(part) > 2 and part[1].text == ":":
        yield part


def is_compared(tokens, i):
    """Whether a name is an operand of `==` or `!=`, alone or as `A::B`."""
    first = i
    while first >= 2 and tokens[first - 1].text == "::" and is_word(tokens[first - 2]):
        first -= 2
    sides = (tokens[first - 1].text if first else None, tokens[i + 1].text if i + 1 < len(tokens) else None)
    return any(side in ("==", "!=") for side in sides)


def from_of(header):
    """Why such an error may be made in `impl From<E> for F`: E means only out of memory, or that a read or a write failed."""
    words = [t.text for t in header]
    if "From" not in words or "for" not in words:
        return None
    at = words.index("From")
    inner = words[at + 2:len(words) - 1 - words[::-1].index("for")]
    if inner and inner[0] in ERROR_TYPES:
        return FROM_MEMORY
    return FROM_IO if inner[:3] == ["io", "::", "Error"] or inner[:1] and inner[0] in STREAM_ERRORS else None


def brought_in(tokens):
    """The names of errors that a file brings into scope, by `use` or as a type of its own."""
    found = set()
    for i, t in enumerate(tokens):
        if t.text == "use":
            found |= {it.text for it in names(tokens[i:find(tokens, ";", i)])}
        elif t.text in ("struct", "type") and i + 1 < len(tokens) and tokens[i + 1].text in NAMES:
            found.add(tokens[i + 1].text)
        elif t.text in ("mod", "fn") and find_group(tokens, i) < len(tokens):
            found |= brought_in(tokens[find_group(tokens, i)].inner)
    return found


def type_of(header):
    """The type of an `impl`, without its crate and its parameters."""
    words = [t.text for t in header]
    rest = words[words.index("for") + 1:] if "for" in words else words[1:]
    path = []
    for word in rest:
        if word == "<" and path:
            break
        path.append(word)
    return path[-1] if path else ""


DEFAULTS = re.compile(r"#\[default\]\s*(?:%s)\b|derive\([^)]*\bDefault\b[^)]*\)\]\s*(?:#\[[^\n]*\s*)*pub (?:struct|enum) (?:%s)\b" % (("|".join(sorted(NAMES)),) * 2))


def defaults(text):
    """The lines where an out-of-memory error is a default."""
    return [text.count("\n", 0, m.end()) + 1 for m in DEFAULTS.finditer(text)]


def sources(root):
    """The sources of all crates, except crates of tests and crates that only tests use."""
    crates = os.path.join(root, "crates")
    with open(os.path.join(root, "crates.txt"), encoding="utf-8") as file:
        lines = [line.partition(":") for line in file if ":" in line and not line.startswith("#")]
    for crate in sorted(os.listdir(crates)):
        above = [head.split()[0] for head, _, names in lines if crate in names.split()]
        if all(it.endswith("_tests") for it in above or [crate]):
            continue
        for folder, folders, files in sorted(os.walk(os.path.join(crates, crate, "src"))):
            if "tests" in folders:
                folders.remove("tests")
            for name in sorted(files):
                if name.endswith(".rt") and name != "tests.rt":
                    yield os.path.join(folder, name)


def crates_below(text):
    """For each crate, itself and the crates that it depends on, by the lines of crates.txt."""
    direct = {}
    for line in text.split("\n"):
        if ":" in line and not line.startswith("#"):
            name, others = line.split(":", 1)
            direct[name.split()[0]] = others.split()
    below = {}
    for name in direct:
        seen, left = set(), [name]
        while left:
            crate = left.pop()
            if crate not in seen:
                seen.add(crate)
                left += direct.get(crate, [])
        below[name] = seen
    return below


def crate_of(name):
    return name.split(os.sep)[1]


def places_of(texts, below):
    """The places in some sources, by name, where an out-of-memory error begins: (name, line, allowed, why)."""
    trees = {name: without_contracts(read(text)) for name, text in texts.items()}
    own = {}
    for name, tree in trees.items():
        own.setdefault(crate_of(name), Source()).add(tree)
    found = []
    for name, tree in trees.items():
        source = Source()
        for crate in below.get(crate_of(name), {crate_of(name)}):
            source.join(own.get(crate, Source()))
        source.brought = brought_in(tree)
        places = []
        Reader(source, places).items(tree)
        places += [(line, False, "a default") for line in defaults(texts[name])]
        found += [(name, line, allowed, why) for line, allowed, why in places]
    return found


def main(arguments):
    parser = argparse.ArgumentParser(description=__doc__, formatter_class=argparse.RawDescriptionHelpFormatter)
    parser.add_argument("--list", action="store_true", help="print every place")
    parser.add_argument("root", nargs="?", default=os.path.join(os.path.dirname(os.path.abspath(__file__)), ".."), help="another checkout")
    asked = parser.parse_args(arguments)
    root = asked.root
    texts = {}
    for path in sources(root):
        with open(path, encoding="utf-8") as file:
            texts[os.path.relpath(path, root)] = file.read()
    with open(os.path.join(root, "crates.txt"), encoding="utf-8") as file:
        below = crates_below(file.read())
    found = places_of(texts, below)
    wrong, listed = [], set()
    for name, line, allowed, why in found:
        text = texts[name].split("\n")[line - 1].strip()
        if asked.list:
            print("%s:%d: %s: %s" % (name, line, why, text))
        if allowed:
            continue
        if (name, text) in ALLOWED and (name, text) not in listed:
            listed.add((name, text))
            continue
        wrong.append("%s:%d: %s: %s" % (name, line, why, text))
    for entry in sorted(set(ALLOWED) - listed):
        wrong.append("%s: no such place: %s" % entry)
    print("\n".join(wrong) if wrong else "ok: %d places, %d of them listed by hand" % (len(found), len(listed)))
    return 1 if wrong else 0


if __name__ == "__main__":
    sys.exit(main(sys.argv[1:]))
