"""The sessions of `tests/sessions`, whose payloads were worked by hand, played by the model of `session_model`: its payloads have to be
theirs, byte for byte."""
import collections

from datagram_model import DatagramLimits
from pair_model import ENDS
from session_model import CONTROL, STREAMS, Plan, SessionModel
from test_replies import all_sessions

NO_DATAGRAMS = DatagramLimits(None, 0, None)
# Lines whose replies are compared in `pair_model` alone, or that no session of the C library has
LEFT_OUT = ("settle", "chunks")
# Replies with which a line changed nothing
REFUSED = ("refused", "error", "malformed")
AS_THEY_ARE = {"open", "accept", "write", "finish", "reset", "stop", "priority", "received-reset", "send-window", "receive-window"}


def is_playable(lines):
    verbs = {line.split(" ")[0] for line, _ in lines}
    return "emit" in verbs and not verbs.intersection(LEFT_OUT)


WORKED = {name: lines for name, lines in all_sessions().items() if is_playable(lines)}


def plan_of(lines):
    """How a session begins, by its first lines."""
    fields = [line.split(" ") for line, _ in lines[:3]]
    configs = {name: tuple(map(int, fields[at][2:])) for at, name in enumerate(ENDS)}
    remembered = list(map(int, fields[2][2:])) if fields[2][0] == "early" else None
    return Plan(configs, dict.fromkeys(ENDS, NO_DATAGRAMS), remembered, dict.fromkeys(ENDS, False))


class Worked:
    """A session that is played."""

    def __init__(self, lines):
        self.model = SessionModel(plan_of(lines), collections.Counter())
        # for each payload of the session its number in the model, or None for one without frames
        self.numbers = []
        self.found = []

    def play(self, line, reply):
        verb, *fields = line.split(" ")
        if verb == "emit":
            self.emit(reply, *fields)
        elif verb == "deliver":
            self.deliver(*map(int, fields))
        elif verb == "deliver-all":
            self.deliver_all(int(fields[0]))
        elif verb in ("lose", "ack"):
            self.report(verb, int(fields[0]))
        elif verb == "read":
            self.read(reply, *fields)
        elif verb in ("poll", "max-concurrent", "early-accept", "early-reject", "retry", *AS_THEY_ARE):
            self.model.answer(line, reply)

    def emit(self, reply, name, most, fairness):
        """Compares a payload with the one that was worked."""
        wanted = reply.split(" ")[2]
        found = self.model.answer(f"emit {name} {CONTROL | STREAMS} {most} {fairness} copied", f"{reply} open")
        self.numbers.append(None if found == "none" else len(self.model.payloads) - 1)
        data = "-" if found == "none" else found.split(" ")[2]
        if data != wanted:
            self.found.append(f"{name} {most}: {data}, not {wanted}")

    def deliver(self, number, index):
        payload = self.model.payloads[self.numbers[number]]
        self.model.accept_sent("b" if payload.writer == "a" else "a", payload.sent[index])

    def deliver_all(self, number):
        if self.numbers[number] is not None:
            for index in range(len(self.model.payloads[self.numbers[number]].sent)):
                self.deliver(number, index)

    def report(self, verb, number):
        if self.numbers[number] is not None:
            self.model.answer(f"{verb} {self.numbers[number]}")

    def read(self, reply, name, id, order, most, _times):
        """Reads each piece. A session of the C library is asked for one byte where the worked one is asked for none at an end."""
        for piece in reply.split(" ")[:-1]:
            if piece != "more" and not piece.endswith(":-"):
                self.model.answer(f"read {name} {id} {order} {max(int(most), 1)}", piece)


def differences(lines):
    """In which payloads the model differs from a session."""
    played = Worked(lines)
    for line, reply in lines:
        if reply.split(" ")[0] not in REFUSED:
            played.play(line, reply)
    return played.found
