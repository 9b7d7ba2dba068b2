"""Sessions of `streampair` drawn from a seed, cut off, and settled then: what is left of them is completed, as the model of
`pair_model` checks."""
import collections
import random
import unittest

from frames import check, check_same
from pair_model import ENDS, OTHER
from stream_halves import ACKNOWLEDGED
from test_programs import need, run
from test_sessions import STEPS, Draws, Program

SESSIONS = 1000
# In all settlings together each kind has to come more often than this.
LEAST = {
    "ordered chunk": 500,
    "unordered chunk": 20,
    "end": 1000,
    "reset": 200,
    "finished": 1000,
    "stopped": 200,
    "lost payload": 1000,
    "acknowledged payload": 1000,
    "UnknownId": 1000,
    "NotAccepted": 100,
    "stream with room": 1000,
    "connection with room": 1000,
    "direction with room": 1000,
}


def setUpModule():
    need(__name__, "streampair")


def check_completed(sends, receives):
    """All that was written on a stream is acknowledged and, unless the stream was stopped, read to its end; or its reset was told."""
    if sends.reset is not None:
        check(receives.is_closed(), "a reset that was not told")
        return
    check(sends.freed if sends.finished else sends.fates.count(ACKNOWLEDGED) == len(sends.fates), "not all is acknowledged")
    if receives.stop is None:
        check_same(bytes(receives.given), b"\1" * len(sends.written))
        check_same(receives.told, sends.finished)


def check_settled(model):
    """Nothing is left to be sent, reported, told or read."""
    check(all(payload.settled for payload in model.payloads), "a payload is not settled")
    for name in ENDS:
        end = model.ends[name]
        check(not end.has_rest(), "something is left to be sent")
        check_same(end.next_event(), "none")
        for id, sends in end.send.items():
            check_completed(sends, model.ends[OTHER[name]].receive[id])


def may_go_on(half, reader):
    """Whether a stream is neither finished, reset nor stopped."""
    return not half.is_over() and not half.freed and half.stopped is None and reader.stop is None


def check_room_of_streams(end, peer, tally):
    """Each stream that goes on has room for at least its reader's window less an eighth."""
    for id, half in end.send.items():
        if may_go_on(half, peer.receive[id]):
            tally["stream with room"] += 1
            least = peer.stream_window - peer.stream_window // 8
            check(half.limit - len(half.written) >= least, f"no room on stream {id}")


def check_room(end, peer, tally):
    """The connection has room for at least the peer's receive window less an eighth, or for the send window where that is less.
    It may have less while a window that the peer made smaller is not paid for."""
    if peer.debt == 0:
        tally["connection with room"] += 1
        least = min(peer.receive_window - peer.receive_window // 8, end.send_window)
        check(end.write_room() >= least, "no room on the connection")


def check_counts(end, peer, tally):
    """Where no stream of a direction is left, as many may be opened as the peer permits at a time, less an eighth."""
    for direction, remote in peer.remote.items():
        if len(remote.freed) == end.opened[direction]:
            tally["direction with room"] += 1
            least = remote.concurrent - remote.concurrent // 8
            check(end.counts[direction] - end.opened[direction] >= least, f"no room for a stream {direction}")


def check_goes_on(model, tally):
    """Nothing is stuck (RFC 9000 sections 4.1 and 4.6): as much may be written and opened as windows and counts leave."""
    for name in ENDS:
        end, peer = model.ends[name], model.ends[OTHER[name]]
        check_room_of_streams(end, peer, tally)
        check_room(end, peer, tally)
        check_counts(end, peer, tally)


def cut_off_session(draws, seed):
    """Draws some steps, has the model check the replies, and returns all lines."""
    steps = random.Random(-1 - seed).randrange(STEPS + 1)
    lines = draws.config_lines()
    with Program() as running:
        for line in lines:
            check_same(running.reply_to(line), "ok")
        for step in range(steps):
            lines.append(draws.line(step))
            draws.model.take(lines[-1], running.reply_to(lines[-1]))
    return lines


def answers(lines):
    """The replies to a session of these lines, one line each."""
    written, status = run("streampair", "".join(f"{line}\n" for line in lines))
    check_same(status, 0)
    return written.splitlines()


def settle_session(model, lines, tally):
    """Settles a session. The model checks each step with its reply; then the steps, played as lines, give the same replies."""
    model.tally = tally
    written = answers([*lines, "settle"])[len(lines) :]
    check_same(len(written) % 2, 0)
    steps, replies = written[::2], written[1::2]
    for line, reply in zip(steps, replies):
        model.take(line, reply)
    check_settled(model)
    check_same(answers([*lines, *steps])[len(lines) :], replies)


def run_session(seed, tally):
    draws = Draws(seed, collections.Counter())
    settle_session(draws.model, cut_off_session(draws, seed), tally)
    check_goes_on(draws.model, tally)


def play_all(case, run_one, sessions, least):
    """Runs a session for each seed, and checks that each kind of reply came often enough in all together."""
    tally = collections.Counter()
    for seed in range(sessions):
        try:
            run_one(seed, tally)
        except (AssertionError, LookupError, ValueError) as wrong:
            raise AssertionError(f"seed {seed}: {wrong!r}") from wrong
    for kind, count in least.items():
        case.assertGreater(tally[kind], count, kind)


class SettledSessions(unittest.TestCase):
    def test_all_that_was_written_is_read(self):
        play_all(self, run_session, SESSIONS, LEAST)


if __name__ == "__main__":
    unittest.main()
