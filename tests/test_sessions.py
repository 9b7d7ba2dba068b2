"""Sessions of `streampair` drawn from a seed; each reply is compared with the model of `pair_model`."""
import collections
import contextlib
import random
import subprocess
import threading
import unittest

from frames import DIRECTIONS, check, check_same
from pair_model import ENDS, Model
from test_programs import need, program

SESSIONS = 1000
STEPS = 200
# In all sessions together each kind has to come more often than this.
LEAST = {
    "ordered chunk": 1000,
    "unordered chunk": 1000,
    "blocked read": 1000,
    "end": 200,
    "reset": 40,
    "code": 10,
    "stopped": 40,
    "finished": 200,
    "blocked": 200,
    "closed": 200,
    "illegal": 40,
    "repeated delivery": 1000,
    "opened": 200,
    "readable": 1000,
    "writable": 100,
    "available": 40,
    "transmit": 300,
    "quiet": 500,
    "NoSuchPayload": 100,
    "NoSuchFrame": 200,
    "NotAccepted": 200,
    "UnknownId": 200,
    "AlreadySettled": 200,
    "lost payload": 1000,
    "acknowledged payload": 1000,
}


def setUpModule():
    need(__name__, "streampair")


class Draws:
    """Draws lines, each among those that may come next, once the replies to the lines before are known."""

    def __init__(self, seed, tally):
        self.random = random.Random(seed)
        self.configs = {name: self.config() for name in ENDS}
        self.model = Model(self.configs, tally)

    def of(self, *some):
        return self.random.choice(some)

    def end(self):
        return self.of(*ENDS)

    def once_in(self, times):
        return self.random.randrange(times) == 0

    def config(self):
        return (
            self.of(0, 1, 2, 3, 8, 20),
            self.of(0, 1, 2, 3, 8, 20),
            self.of(10, 60, 300, 2000, 100_000),
            self.of(16, 100, 1000, 5000, 100_000),
            self.of(8, 50, 200, 1000, 50_000),
        )

    def config_lines(self):
        return [f"config {name} {' '.join(map(str, config))}" for name, config in self.configs.items()]

    def data(self):
        bound = self.of(1, 400, *[60] * 6)
        return self.random.randbytes(self.random.randrange(bound)).hex() or "-"

    def direction(self):
        return self.of(*DIRECTIONS)

    def code(self):
        return self.random.randrange(1000)

    # -- what a line may name

    def stream(self, name, reads=False):
        """A stream that an end was given, and may write on, or read; now and then any id."""
        end = self.model.ends[name]
        halves = end.receive if reads else end.send
        ids = [id for id in end.known if id in halves]
        return self.random.choice(ids) if ids and not self.once_in(20) else self.random.randrange(24)

    def any_frame(self):
        """The numbers of a payload and of one of its frames; now and then they do not exist."""
        payloads = self.model.payloads
        if self.once_in(20):
            return self.random.randrange(len(payloads) + 1), self.random.randrange(3)
        numbers = [number for number, payload in enumerate(payloads) if payload.sent]
        if not numbers:
            return 0, 0
        number = self.random.choice(numbers)
        return number, self.random.randrange(len(payloads[number].sent))

    def frame(self, is_sought):
        """One of the first frames for which `is_sought` holds, or any."""
        skip = self.of(0, 0, 0, 1, 2, 5)
        if self.once_in(4):
            return self.any_frame()
        for number, payload in enumerate(self.model.payloads):
            for index, sent in enumerate(payload.sent):
                if is_sought(sent):
                    if skip == 0:
                        return number, index
                    skip -= 1
        return self.any_frame()

    def payload(self, is_sought):
        """One of the first payloads for which `is_sought` holds, or any; now and then it does not exist."""
        payloads = self.model.payloads
        if self.once_in(20):
            return self.random.randrange(len(payloads) + 1)
        found = [number for number, payload in enumerate(payloads) if is_sought(payload)]
        if not found or self.once_in(5):
            return self.random.randrange(len(payloads) or 1)
        return found[min(self.of(0, 0, 0, 1, 2, 5), len(found) - 1)]

    # -- lines

    def write(self, name):
        return f"write {name} {self.stream(name)} {self.data()}"

    def chunks(self, name):
        chunks = [self.data() for _ in range(self.of(1, 2, 3))]
        return f"chunks {name} {self.stream(name)} {','.join(chunks)}"

    def read(self, name):
        id = self.stream(name, reads=True)
        is_ordered = (id % 3 != 0) != self.once_in(10)
        return f"read {name} {id} {'o' if is_ordered else 'u'} {self.of(0, 1, 7, 50, 1000)} {self.of(1, 3, 20, 20)}"

    def emit(self, name):
        return f"emit {name} {self.of(0, 12, 26, 27, 30, 60, 200, 1200)} {self.of('f', 'u')}"

    def deliver(self, _name):
        number, index = self.frame(lambda sent: not sent.accepted)
        return f"deliver {number} {index}"

    def ack(self, _name):
        return f"ack {self.payload(lambda payload: payload.is_accepted() and not payload.settled)}"

    def lose(self, _name):
        return f"lose {self.payload(lambda payload: not payload.is_accepted() and not payload.settled)}"

    def poll(self, name):
        return f"poll {name}"

    def open(self, name):
        return f"open {name} {self.direction()}"

    def accept(self, name):
        return f"accept {name} {self.direction()}"

    def finish(self, name):
        return f"finish {name} {self.stream(name)}"

    def seldom(self, name):
        return self.of(
            lambda: f"reset {name} {self.stream(name)} {self.code()}",
            lambda: f"stop {name} {self.stream(name, reads=True)} {self.code()}",
            lambda: f"priority {name} {self.stream(name)} {self.of(-1, 0, 1, 2**31 - 1)}",
            lambda: f"received-reset {name} {self.stream(name, reads=True)}",
            lambda: f"send-window {name} {self.of(0, 30, 500, 20_000)}",
            lambda: f"receive-window {name} {self.of(10, 90, 900, 40_000)}",
            lambda: f"max-concurrent {name} {self.direction()} {self.random.randrange(6)}",
        )()

    EARLY = {
        emit: 12,
        deliver: 22,
        write: 11,
        chunks: 4,
        read: 12,
        ack: 7,
        lose: 4,
        poll: 5,
        open: 5,
        accept: 6,
        finish: 3,
        seldom: 9,
    }
    # the later steps are to deliver everything
    LATE = {emit: 15, deliver: 35, read: 15, ack: 15, poll: 8, finish: 7, lose: 2, seldom: 3}

    def line(self, step):
        name = self.end()
        if step < 12 and self.once_in(2):
            return self.open(name)
        weights = self.EARLY if step < 120 else self.LATE
        draw = self.random.choices(list(weights), weights.values())[0]
        return draw(self, name)


class DrawsOfParts(Draws):
    """The same, where many payloads have the frames of one part alone."""

    def line(self, step):
        line = super().line(step)
        is_whole = not line.startswith("emit ") or self.once_in(3)
        return line if is_whole else f"emit-part {line[5:]} {self.of('control', 'streams')}"


class DrawsOfWholes(Draws):
    """The same, where most payloads are handed in whole."""

    def line(self, step):
        line = super().line(step)
        is_frame = not line.startswith("deliver ") or self.once_in(3)
        return line if is_frame else f"deliver-all {line.split(' ')[1]}"


class Program:
    """A running `streampair`, which answers each line at once."""

    def __init__(self):
        self.ran = subprocess.Popen([program("streampair")], stdin=subprocess.PIPE, stdout=subprocess.PIPE)
        self.watchdog = threading.Timer(60, self.ran.kill)

    def __enter__(self):
        self.watchdog.start()
        return self

    def __exit__(self, *_):
        self.status()
        self.ran.stdout.close()

    def status(self):
        """Closes the input, and returns the status."""
        with contextlib.suppress(BrokenPipeError):
            self.ran.stdin.close()
        self.ran.wait()
        self.watchdog.cancel()
        return self.ran.returncode

    def reply_to(self, line):
        self.ran.stdin.write(f"{line}\n".encode())
        self.ran.stdin.flush()
        reply = self.ran.stdout.readline().decode()
        check(reply.endswith("\n"), "there is no reply")
        return reply[:-1]


def run_session(seed, tally, drawn=Draws):
    """Draws a session, and has the model check each reply."""
    draws = drawn(seed, tally)
    said = []
    with Program() as running:

        def reply_to(line):
            said.append(line)
            said.append(f"> {running.reply_to(line)}")
            return said[-1][2:]

        try:
            for line in draws.config_lines():
                check_same(reply_to(line), "ok")
            for step in range(STEPS):
                line = draws.line(step)
                draws.model.take(line, reply_to(line))
            check_same(running.status(), 0)
        except (AssertionError, LookupError, ValueError, BrokenPipeError) as wrong:
            raise AssertionError("\n".join([f"seed {seed}", *said, repr(wrong)])) from wrong


class SeededSessions(unittest.TestCase):
    def test_each_reply_of_a_session_is_as_the_model_says(self):
        tally = collections.Counter()
        for seed in range(SESSIONS):
            run_session(seed, tally)
        for kind, least in LEAST.items():
            self.assertGreater(tally[kind], least, kind)

    def test_so_is_each_reply_where_payloads_have_one_part(self):
        tally = collections.Counter()
        for seed in range(SESSIONS):
            run_session(seed, tally, DrawsOfParts)
        for kind, least in (LEAST | {"control alone": 1000, "streams alone": 1000}).items():
            self.assertGreater(tally[kind], least, kind)

    def test_so_is_each_reply_where_payloads_are_handed_in_whole(self):
        tally = collections.Counter()
        for seed in range(SESSIONS):
            run_session(seed, tally, DrawsOfWholes)
        for kind, least in (LEAST | {"accepted": 10_000, "payload of many frames": 1000}).items():
            self.assertGreater(tally[kind], least, kind)


if __name__ == "__main__":
    unittest.main()
