"""Sessions of `streampair` drawn from a seed, in which the client sends in 0-RTT, compared with the model of `early_model`."""
import unittest

from early_model import EarlyModel
from frames import check_same
from limits_model import limits_of
from test_programs import need
from test_sessions import Draws
from test_settling import answers, cut_off_session, play_all, settle_session

SESSIONS = 1000
# In all sessions together each kind has to come more often than this.
LEAST = {
    "accepted": 200,
    "rejected": 200,
    "retried": 200,
    "never decided": 100,
    "raised": 50,
    "Undecided": 1000,
    "Decided": 100,
    "LimitsBelow": 20,
    "NoSuchPayload": 500,
    "UnknownId": 500,
    "lost payload": 100,
    "acknowledged payload": 100,
}


def setUpModule():
    need(__name__, "streampair")


class EarlyDraws(Draws):
    """Draws lines. The third makes the client remember limits, and later ones may decide on 0-RTT."""

    # the deciding steps of a session, one of which may be drawn while 0-RTT is not decided
    PLANS = (
        ("early-accept",),
        ("early-reject",),
        ("retry", "early-accept"),
        ("retry", "early-reject"),
        ("retry",),
        (),
    )

    def __init__(self, seed, tally):
        super().__init__(seed, tally)
        self.remembered = [self.remember(number) for number in limits_of(self.configs["b"])]
        self.plan = self.of(*self.PLANS)
        self.model = EarlyModel(self.configs, self.remembered, tally)

    def remember(self, number):
        """A limit that is seldom above the one that the server gives."""
        if self.once_in(60):
            return number + 1
        return self.of(number, number, number // 2, number // 3, 0) if number > 3 else number

    def config_lines(self):
        return [*super().config_lines(), f"early a {' '.join(map(str, self.remembered))}"]

    def end(self):
        """Either end; most often the client, while 0-RTT is not decided."""
        return super().end() if self.model.is_decided or self.once_in(12) else "a"

    def line(self, step):
        if self.model.is_decided:
            return self.of("early-accept", "early-reject", "retry") if self.once_in(60) else super().line(step)
        return self.of(*self.plan) if self.plan and step > 10 and self.once_in(10) else super().line(step)


def run_session(seed, tally):
    """Draws a session, and settles it if 0-RTT is decided."""
    draws = EarlyDraws(seed, tally)
    lines = cut_off_session(draws, seed)
    if draws.model.is_decided:
        settle_session(draws.model, lines, tally)
        return
    tally["never decided"] += 1
    check_same(answers([*lines, "settle"])[len(lines) :], ["refused 8 Undecided"])


class EarlySessions(unittest.TestCase):
    def test_each_reply_is_as_the_model_says(self):
        play_all(self, run_session, SESSIONS, LEAST)


if __name__ == "__main__":
    unittest.main()
