"""Sessions of two ends of the C library drawn from a seed; what each call returns and writes is compared with the model of `session_model`.

`QUIC_STREAMS_SESSIONS` says how many sessions there are (1,000 if it is not set), `QUIC_STREAMS_FIRST_SEED` the seed of the first. Where
`make` did not put the library into `build/lib` (or the folder that QUIC_STREAMS_LIB_DIR names), the tests that need it are skipped, with a
line that says so; in the gate they fail."""
import collections
import os
import unittest

import c_library
from c_host import Host
from frames import check_same
from session_draws import SessionDraws
from session_model import SessionModel
from worked_payloads import WORKED, differences
from wrong_sessions import WRONG_HOSTS, WRONG_MODELS

CASES = int(os.environ.get("QUIC_STREAMS_SESSIONS", "1000"))
FIRST = int(os.environ.get("QUIC_STREAMS_FIRST_SEED", "0"))
# Within so many sessions what is wrong has to be seen.
CASES_OF_WRONG = 60
# In a thousand sessions each kind has to come more often than this.
LEAST = {
    "frame": 8000,
    "repeated frame": 2000,
    "receive other": 1000,
    "receive refused": 800,
    "receive malformed": 150,
    "acknowledged payload": 3000,
    "lost payload": 1500,
    "lose unknown": 500,
    "accepted": 50,
    "rejected": 50,
    "retried": 50,
    "read piece": 1000,
    "read-many piece": 100,
    "read-lent piece": 100,
    "read end": 500,
    "read reset": 100,
    "read illegal": 40,
    "received-reset code": 5,
    "write blocked": 1000,
    "write stopped": 50,
    "stopped code": 5,
    "datagram-recv datagram": 700,
    "datagram-recv small": 200,
    "datagram-send blocked": 200,
    "datagram-send large": 500,
    "datagram-send off": 500,
    "poll datagram": 200,
    "poll datagram-room": 50,
    "poll writable": 200,
    "poll finished": 300,
    "poll stopped": 100,
    "poll available": 100,
    "poll closed": 100,
    "room room": 100,
    "user user": 100,
    "set-user ok": 100,
}


class StandIn:
    """The model in the place of the library."""

    def __init__(self, plan, model=SessionModel):
        self.model = model(plan, collections.Counter())

    def reply_to(self, line):
        try:
            return "ok" if line.split(" ")[0] in ("config", "limits") else self.model.answer(line)
        except AssertionError as wrong:
            raise RuntimeError("the stand-in is at fault") from wrong

    def free(self):
        """Has nothing to free."""


def play(seed, tally, host_of):
    """Plays the session of a seed, and has the model check what each call returned."""
    draws = SessionDraws(seed, tally)
    host = host_of(draws.plan)
    said = []

    def reply_to(line):
        said.append(line)
        said.append(f"> {host.reply_to(line)}")
        return said[-1][2:]

    try:
        for line in draws.first_lines():
            check_same(reply_to(line), "ok")
        for step in range(draws.calls):
            line = draws.line(step)
            draws.model.take(line, reply_to(line))
    except (AssertionError, LookupError, ValueError) as wrong:
        raise AssertionError("\n".join([f"seed {seed}", *said, repr(wrong)])) from wrong
    finally:
        host.free()


def library():
    """The library; the test is skipped where it is not there, or fails in the gate."""
    if not os.path.isfile(c_library.SHARED):
        if os.environ.get("IN_GATE"):
            raise AssertionError(f"{c_library.SHARED} is not there")
        raise unittest.SkipTest(f"{c_library.SHARED} is not there: `make` proves it and makes it")
    return c_library.Library()


def is_caught(host_of):
    """Whether one of the first sessions shows that what is called is wrong."""
    for seed in range(CASES_OF_WRONG):
        try:
            play(seed, collections.Counter(), host_of)
        except AssertionError:
            return True
    return False


class TheModel(unittest.TestCase):
    def test_its_payloads_are_those_that_were_worked_by_hand(self):
        self.assertGreater(len(WORKED), 40)
        for name, lines in WORKED.items():
            with self.subTest(name):
                self.assertEqual(differences(lines), [])

    def test_it_is_of_one_mind_with_itself(self):
        tally = collections.Counter()
        for seed in range(CASES_OF_WRONG):
            play(seed, tally, StandIn)

    def test_it_sees_a_wrong_one(self):
        for model in WRONG_MODELS:
            with self.subTest(model.__name__):
                self.assertTrue(is_caught(lambda plan, model=model: StandIn(plan, model)))


class SeededSessions(unittest.TestCase):
    def test_each_call_is_as_the_model_says(self):
        loaded, tally = library(), collections.Counter()
        for seed in range(FIRST, FIRST + CASES):
            play(seed, tally, lambda _plan: Host(loaded))
        for kind, least in LEAST.items():
            self.assertGreater(tally[kind], least * CASES // 1000, kind)

    def test_wrong_calls_are_seen(self):
        loaded = library()
        for host in WRONG_HOSTS:
            with self.subTest(host.__name__):
                self.assertTrue(is_caught(lambda _plan, host=host: host(loaded)))


if __name__ == "__main__":
    unittest.main()
