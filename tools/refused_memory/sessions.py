#!/usr/bin/env python3
"""Sessions of streampair in which each request for memory is refused in turn.

    sessions.py PROGRAM FIRST LAST [FILE ..]

PROGRAM is streampair linked with allocator.c. The sessions are those of the files, two in which pieces are compacted,
and one of 100 steps for each seed from FIRST to LAST. A step that names want of memory is asked again, and the replies
are held against those of ample memory. The status is 0 where every run is as docs/security.md says.
"""
import bisect
import collections
import os
import random
import re
import subprocess
import sys
import tempfile

STEPS = 100
# After so many more turns everything was sent.
ROUNDS = 60
WINDOWS = (64, 200, 1000, 3000, 20000)
# How many fields follow the type of each frame that is no STREAM frame (RFC 9000 section 19).
FIELDS = {0x04: 3, 0x05: 2, 0x10: 1, 0x11: 2, 0x12: 1, 0x13: 1, 0x14: 1, 0x15: 2}
OTHER = {"a": "b", "b": "a"}
# A report that ran out of memory is asked again; one of the other kind is refused then, and changes nothing.
OTHER_REPORT = {"lose": "ack", "ack": "lose"}
# How many requests for memory a step of each kind makes at most, with those to read its line and to print its reply, and
# how many more for each part of it: a chunk that is offered or read, or a frame that is sent or accepted. A table of streams that grows
# makes four, one for each of its lists, and there is one for each side. A step that makes more takes memory that it does not
# need, or needs more than it did when these were counted.
MOST_REQUESTS = {
    "accept": (4, 0),
    "ack": (8, 0),
    "chunks": (11, 4),
    "deliver": (14, 0),
    "deliver-all": (3, 11),
    "early": (20, 0),
    "early-accept": (5, 0),
    "early-reject": (3, 0),
    "emit": (10, 2),
    "emit-part": (10, 2),
    "finish": (6, 0),
    "lose": (8, 0),
    "max-concurrent": (11, 0),
    "open": (7, 0),
    "poll": (4, 0),
    "priority": (4, 0),
    "read": (14, 2),
    "receive-window": (4, 0),
    "received-reset": (3, 0),
    "reset": (5, 0),
    "retry": (4, 0),
    "send-window": (4, 0),
    "stop": (9, 0),
    "write": (15, 0),
}
# Steps that write a payload.
EMITS = ("emit", "emit-part")
# Steps that also ask for memory that they can do without: room for a whole payload at once, or for a freed stream's state to be
# kept for the next stream. Without it the reply is the same.
CAN_DO_WITHOUT = {*EMITS, "read", "received-reset", "stop", "deliver", "deliver-all", "ack"}
# A step that is refused for one of these reasons says so, though memory for it was refused too.
OTHER_REASON = re.compile(r"closed|stopped")
NAMES_WANT = re.compile(r"\b(OutOfMemory|memory|CompactionMemory)\b")
Frame = collections.namedtuple("Frame", "kind id offset data fin")


class Program:
    """Runs the program many times."""

    def __init__(self, path, folder):
        self.input, self.output = f"{folder}/input", f"{folder}/output"
        self.loop = subprocess.Popen([path], stdin=subprocess.PIPE, stdout=subprocess.PIPE, text=True, bufsize=1)

    def end(self):
        self.loop.stdin.close()
        self.loop.wait()
        self.loop.stdout.close()

    def run(self, lines, refused=0):
        """Returns the exit status, how many requests for memory there were, and the replies."""
        with open(self.input, "w") as it:
            it.write("\n".join(lines) + "\n")
        self.loop.stdin.write(f"{refused} {self.input} {self.output}\n")
        status, requests = map(int, self.loop.stdout.readline().split())
        with open(self.output) as it:
            return status, requests, it.read().splitlines()


def bytes_of(field):
    return b"" if field == "-" else bytes.fromhex(field)


def number_at(data, at):
    """Reads a variable-length integer (RFC 9000 section 16)."""
    size = 1 << (data[at] >> 6)
    return int.from_bytes(data[at : at + size], "big") % (1 << (8 * size - 2)), at + size


def frames_of(payload):
    """Returns the frames that the hexadecimal payload spells."""
    data, at, found = bytes_of(payload), 0, []
    while at < len(data):
        kind, at = data[at], at + 1
        fields = []
        for _ in range(1 + bool(kind & 4) + bool(kind & 2) if 8 <= kind <= 15 else FIELDS[kind]):
            value, at = number_at(data, at)
            fields.append(value)
        if not 8 <= kind <= 15:
            found.append(Frame(kind, fields, 0, b"", False))
            continue
        size = fields[-1] if kind & 2 else len(data) - at
        found.append(Frame("STREAM", fields[0], fields[1] if kind & 4 else 0, data[at : at + size], bool(kind & 1)))
        at += size
    return found


def payloads(replies):
    """Returns the number and the frames of each payload."""
    return [(int(it.split()[1]), frames_of(it.split()[2])) for it in replies if it.startswith("payload")]


def mode_of(id):
    """Returns how a session reads a stream: in order, or as bytes come."""
    return "o" if id % 8 < 4 else "u"


class Draw:
    """Draws the lines of a session, each after the replies to those before it."""

    def __init__(self, program, seed):
        self.program, self.random = program, random.Random(seed)
        self.ids, self.payloads = {"a": [], "b": []}, []
        self.lines = [f"config {end} {self.count(4)} {self.count(4)} {self.window()} {self.window()} {self.window()}" for end in "ab"]

    def count(self, most):
        return self.random.randint(1, most)

    def window(self):
        return self.random.choice(WINDOWS)

    def size(self):
        return self.random.choice((26, 60, 200, 1200))

    def direction(self):
        return self.random.choice(("bi", "uni"))

    def data(self):
        return self.random.randbytes(self.random.choice((0, 1, 3, 17, 60, 200))).hex() or "-"

    def on_stream(self, end, id):
        chosen = self.random.choices(("write", "chunks", "finish", "reset", "stop", "priority", "read", "received-reset"), (14, 5, 3, 2, 2, 1, 14, 1))[0]
        rest = {
            "write": lambda: f" {self.data()}",
            "chunks": lambda: " " + ",".join(self.data() for _ in range(self.count(4))),
            "reset": lambda: f" {self.count(99)}",
            "stop": lambda: f" {self.count(99)}",
            "priority": lambda: f" {self.random.randint(-2, 2)}",
            "read": lambda: f" {mode_of(id)} {self.random.choice((1, 7, 100, 5000))} {self.count(9)}",
        }
        return f"{chosen} {end} {id}{rest.get(chosen, str)()}"

    def on_end(self, end):
        chosen = self.random.choices(("open", "accept", "send-window", "receive-window", "max-concurrent", "poll", "emit", "emit-part"), (8, 6, 1, 1, 1, 6, 11, 2))[0]
        rest = {
            "open": lambda: f" {self.direction()}",
            "accept": lambda: f" {self.direction()}",
            "send-window": lambda: f" {self.window()}",
            "receive-window": lambda: f" {self.window()}",
            "max-concurrent": lambda: f" {self.direction()} {self.count(6)}",
            "emit": lambda: f" {self.size()} {self.random.choice('fu')}",
            "emit-part": lambda: f" {self.size()} {self.random.choice('fu')} {self.random.choice(('control', 'streams'))}",
        }
        return f"{chosen} {end}{rest.get(chosen, str)()}"

    def on_payload(self):
        number, frames = self.random.choice(self.payloads[-6:] if self.random.random() < 0.8 else self.payloads)
        chosen = self.random.choices(("deliver", "lose", "ack"), (18, 4, 4))[0]
        if chosen != "deliver":
            return f"{chosen} {number}"
        return f"deliver {number} {self.random.choice(range(len(frames) or 1))}"

    def line(self):
        end = self.random.choice("ab")
        of_stream, of_end, of_payload = 40 * bool(self.ids[end]), 36, 26 * bool(self.payloads)
        chosen = self.random.choices("sep", (of_stream, of_end, of_payload))[0]
        return self.on_stream(end, self.random.choice(self.ids[end])) if chosen == "s" else self.on_end(end) if chosen == "e" else self.on_payload()

    def session(self):
        while len(self.lines) < STEPS + 2:
            self.lines.append(self.line())
            said, reply = self.lines[-1].split(), self.program.run(self.lines)[2][-1].split()
            if reply[0] == "id" and int(reply[1]) not in self.ids[said[1]]:
                self.ids[said[1]].append(int(reply[1]))
            if reply[0] == "payload":
                self.payloads.append((int(reply[1]), frames_of(reply[2])))
        return self.lines


def small_frames_of_large_payloads(order):
    """Returns a session in which pieces keep so much more memory than they use that they are compacted."""
    lines = [f"config {end} 4 4 1000000 1000000 1000000" for end in "ab"] + ["open a uni", "open a uni", "priority a 2 5"]
    for byte in range(4):
        lines += [f"write a 2 {bytes([byte] * 100).hex()}", f"write a 6 {bytes([9] * 40000).hex()}", "emit a 60000 f"]
    lines += ["deliver 1 0", "deliver 2 0", "deliver 3 0", "accept b uni", f"read b 2 {order} 100 9", "deliver 2 0", "deliver 0 0"]
    lines += [f"read b 2 {order} 50 9", f"read b 2 {order} 1000 9", "finish a 2", "emit a 100 f", "deliver 4 0", f"read b 2 {order} 100 9"]
    return lines + ["poll b", "deliver 0 1", "deliver 3 1", "deliver 2 1", "accept b uni", "read b 6 u 100000 9", "emit b 1000 f", "deliver 5 0"]


def without_cuts(line, reply):
    """Returns the reply to a read as the bytes of each offset and its other words, and any other reply but a payload's number."""
    if not line.startswith("read") or ":" not in reply:
        return re.sub(r"^payload \d+", "payload", reply)
    chunks = [it.split(":") for it in reply.split() if ":" in it]
    given = [(int(offset) + at, byte) for offset, data in chunks for at, byte in enumerate(bytes_of(data))]
    return given, [it for it in reply.split() if ":" not in it]


def given_bytes(lines, replies):
    """Returns the bytes that each end was given, a list for each end, stream and offset."""
    given = collections.defaultdict(list)
    for line, reply in zip(lines, replies):
        if line.startswith("read") and ":" in reply:
            for offset, byte in without_cuts(line, reply)[0]:
                given[(*line.split()[1:3], offset)].append(byte)
    return given


def written_bytes(lines, replies):
    written = collections.defaultdict(bytes)
    for line, reply in zip(lines, replies):
        if reply.startswith("wrote"):
            _, end, id, lists = line.split()
            written[end, id] += b"".join(map(bytes_of, lists.split(",")))[: int(reply.split()[1])]
    return written


def faults(lines, replies):
    """Says what is given twice, told twice, not as it was written, or lost, where the session was settled."""
    written, told = written_bytes(lines, replies), collections.Counter()
    for line, reply in zip(lines, replies):
        words = reply.split()
        if words[0] == "payload":
            for it in frames_of(words[2]):
                if it.kind == "STREAM" and written[line.split()[1], str(it.id)][it.offset :][: len(it.data)] != it.data:
                    yield f"{reply} carries what was not written"
        if words[0] in ("finished", "stopped") and line.startswith("poll"):
            told[line, words[0], words[1]] += 1
    yield from (f"{it} was told twice" for it, times in told.items() if times > 1)
    given = given_bytes(lines, replies)
    for (end, id, offset), bytes_there in given.items():
        if bytes_there != [*written[OTHER[end], id][offset : offset + 1]]:
            yield f"{end} was given of stream {id} at {offset} {bytes_there}"
    for (end, id), data in written.items():
        gave_up = re.compile(rf"reset {end} {id} |stop {OTHER[end]} {id} ")
        if not any(map(gave_up.match, lines)) and any((OTHER[end], id, at) not in given for at in range(len(data))):
            yield f"bytes of stream {id} are lost on the way from {end}"


def moved(lines, ample, at, reply):
    """Names frames as they were sent where a refused emit had sent the first of them: returns the lines, and the places of those after the emit.

    None where the next payload does not have exactly the rest."""
    number, whole, part = int(ample[at].split()[1]), frames_of(ample[at].split()[2]), frames_of(reply.split()[2])
    first = len(whole) - len(part)
    if int(reply.split()[1]) == number or first < 0 or whole[first:] != part:
        return None
    new, places = [*lines[: at + 1], lines[at]], []
    for line in lines[at + 1 :]:
        verb, *rest = line.split()
        if re.match("deliver|lose|ack", verb):
            payload, *frame = map(int, rest)
            if payload == number and not frame:
                new.append(line)
            if payload > number or payload == number and (not frame or frame[0] >= first):
                frame = [it - first * (payload == number) for it in frame]
                payload += 1
            line = " ".join(map(str, (verb, payload, *frame)))
        places.append(len(new))
        new.append(line)
    return new, places


def parts_of(line, reply):
    """How many chunks a step offers or reads, or frames it sends or accepts."""
    verb = line.split()[0]
    if verb == "chunks":
        return line.count(",") + 1
    if verb in EMITS and reply.startswith("payload"):
        return len(frames_of(reply.split()[2]))
    if verb == "deliver-all" and reply.startswith("accepted"):
        return int(reply.split()[1])
    return reply.count(":") if verb == "read" else 0


def most_requests(line, reply):
    """How many requests for memory a step may make."""
    least, for_each = MOST_REQUESTS[line.split()[0]]
    return least + for_each * parts_of(line, reply)


def asked_again(line, reply):
    """Returns the line that asks for what the reply lacks."""
    words = line.split()
    if words[0] == "read":
        words[5] = str(int(words[5]) - reply.count(":"))
    return " ".join(words)


class Check:
    def __init__(self, program):
        self.program, self.tally, self.wrong = program, collections.Counter(), []

    def session(self, name, lines):
        status, requests, ample = self.program.run(lines)
        self.tally.update(sessions=1, lines=len(lines))
        if status or any(map(NAMES_WANT.search, ample)):
            self.wrong.append(f"{name}: ample memory: status {status}, or a reply names want of memory")
        made = self.requests_up_to(lines)
        self.wrong += [f"{name}: {why}" for why in self.needless(lines, ample, made)]
        for refused in range(1, requests + 1):
            self.tally["runs"] += 1
            why = self.refused(lines, ample, refused, made)
            if why:
                self.wrong.append(f"{name}, request {refused}: {why}")

    def requests_up_to(self, lines):
        """Returns for each line how many requests for memory there were once it was answered."""
        return [self.program.run(lines[: at + 1])[1] for at in range(len(lines))]

    def needless(self, lines, ample, made):
        """Says which steps ask for memory more often than they need it."""
        for at in range(2, len(lines)):
            most, found = most_requests(lines[at], ample[at]), made[at] - made[at - 1]
            self.tally["steps whose requests were counted"] += 1
            if found > most:
                yield f"line {at + 1}, {lines[at][:60]}: {found} requests for memory, at most {most} are needed"

    def refused(self, lines, ample, refused, made):
        """Returns what is wrong where this request is refused, if anything is."""
        status, _, replies = self.program.run(lines, refused)
        step = [*lines, ""][bisect.bisect_left(made, refused)]
        named = [at for at, it in enumerate(replies) if NAMES_WANT.search(it)]
        if len(named) > 1:
            return "more than one reply names want of memory"
        at = named[0] if named else len(replies)
        if replies[:at] != ample[:at]:
            return "a reply before it is another one"
        if status == 1 and not named:
            self.tally["outside a step"] += 1
            return None
        if replies == ample and OTHER_REASON.match([*ample, ""][bisect.bisect_left(made, refused)]):
            self.tally["in a step that is refused for another reason"] += 1
            return None
        if status == 1 and replies[1:] == ["refused 5 OutOfMemory"]:
            self.tally["at the second line"] += 1
            return None
        if status == 1 and lines[2].startswith("early") and replies[2:] == ["refused 5 OutOfMemory"]:
            self.tally["at the third line"] += 1
            return None
        if replies == ample and not status and step.partition(" ")[0] in CAN_DO_WITHOUT:
            self.tally["in a step that can do without"] += 1
            return None
        if status or not named:
            return f"status {status}, and {len(named)} replies name want of memory"
        self.tally.update({"in a step": 1, f"in {lines[at].split()[0]}": 1})
        if "CompactionMemory" in replies[at]:
            self.tally["CompactionMemory"] += 1
            return self.differs(lines, replies, ample, at + 1)
        return self.again(lines, ample, refused, at, replies[at])

    def again(self, lines, ample, refused, at, reply):
        verb, *rest = lines[at].split()
        other = [" ".join((OTHER_REPORT[verb], *rest))] if verb in OTHER_REPORT else []
        again = [*lines[: at + 1], *other, asked_again(lines[at], reply), *lines[at + 1 :]]
        status, _, replies = self.program.run(again, refused)
        if status or sum(map(bool, map(NAMES_WANT.search, replies))) != 1:
            return "asked again, it is refused again"
        if other and replies.pop(at + 1) != "refused 6 AlreadySettled":
            return "a report of the other kind is not refused"
        if verb == "read":
            same = given_bytes(again, replies) == given_bytes(lines, ample)
            return self.differs(lines, replies[1:], ample, at + 1) if same else "reads give other bytes"
        if verb not in EMITS or not self.differs(lines, replies[1:], ample, at):
            return self.differs(lines, replies[1:], ample, at)
        as_sent = moved(lines, ample, at, replies[at + 1])
        if as_sent:
            again, places = as_sent
            status, _, replies = self.program.run(again, refused)
            if not status and not self.differs(lines, [*ample[: at + 1], *(replies[it] for it in places)], ample, at + 1):
                self.tally["emits in two payloads"] += 1
                return None
        self.tally["emits after which payloads have other lengths"] += 1
        return next(faults(*self.settled(again, replies, refused, ample[at])), None)

    def settled(self, lines, replies, refused, unseen):
        """Reports all payloads lost, and then emits, delivers, accepts and reads until nothing is left to be sent.

        A refused emit may have sent the first frames of the payload `unseen`, which no reply shows."""
        lines, sent = list(lines), payloads([*replies, unseen])
        lines += [f"lose {number}" for number, _ in sent]
        for _ in range(ROUNDS):
            lines += ["emit a 1200 f", "emit b 1200 f"]
            new = payloads(self.program.run(lines, refused)[2])[-2:]
            lines += [f"deliver {number} {at}" for number, frames in new for at in range(len(frames))]
            lines += [f"accept {end} {direction}" for end in "ab" for direction in ("bi", "uni") for _ in range(9)]
            replies = self.program.run(lines, refused)[2]
            ids = {(line.split()[1], int(it.split()[1])) for line, it in zip(lines, replies) if it.startswith("id ")}
            lines += [f"read {end} {id} {mode_of(id)} 5000 65535" for end, id in sorted(ids)]
            if not any(frames for _, frames in new):
                break
        return lines, self.program.run(lines, refused)[2]

    def differs(self, lines, replies, ample, start):
        for at in range(start, len(lines)):
            if without_cuts(lines[at], replies[at]) != without_cuts(lines[at], ample[at]):
                return f"line {at + 1}, {lines[at][:60]}: {replies[at][:80]}, and with ample memory {ample[at][:80]}"
        return None


def tried(path, seeds, files):
    """Tries the sessions of the files, two in which pieces are compacted, and one for each seed."""
    with tempfile.TemporaryDirectory() as folder:
        program = Program(os.path.abspath(path), folder)
        check = Check(program)
        for file in files:
            with open(file) as it:
                check.session(file, it.read().splitlines())
        for order in "ou":
            check.session(f"compaction, {order}", small_frames_of_large_payloads(order))
        for seed in seeds:
            check.session(f"seed {seed}", Draw(program, seed).session())
            print(f"seed {seed}: {check.tally['runs']} runs, {len(check.wrong)} wrong", file=sys.stderr)
        program.end()
    return check


def main(path, first, last, *files):
    check = tried(path, range(int(first), int(last) + 1), files)
    for name, times in check.tally.items():
        print(f"{name}: {times}")
    print(*check.wrong, f"wrong: {len(check.wrong)}", sep="\n")
    return bool(check.wrong)


if __name__ == "__main__":
    sys.exit(main(*sys.argv[1:]))
