"""Sessions that are wrong in one place, which the tests of sessions have to notice: models that stand in for the library, and hosts that
call the library wrongly."""
from c_host import Flight, Host
from frame_bytes import Datagram, extras_of, kind_of
from session_model import ALL_PARTS, SessionModel

# -- models


class TwoDatagrams(SessionModel):
    """A datagram is delivered twice."""

    def accept_sent(self, name, sent):
        super().accept_sent(name, sent)
        if isinstance(sent.frame, Datagram):
            super().accept_sent(name, sent)


class OtherPayload(SessionModel):
    """A token reports another payload than its own."""

    def lose(self, number):
        ours = [it for it, payload in enumerate(self.payloads) if not payload.settled]
        return super().lose(ours[0] if ours and self.is_kept(number) else number)


class LeftOut(SessionModel):
    """Parts alone leave out the stops."""

    def emit(self, name, parts, most, fairness, how):
        if int(parts) == ALL_PARTS:
            return super().emit(name, parts, most, fairness, how)
        pending = self.ends[name].pending
        stops, pending.stops = pending.stops, []
        reply = super().emit(name, parts, most, fairness, how)
        pending.stops = stops
        return reply


class LastForgotten(SessionModel):
    """The last frame of a payload that is handed over whole is forgotten, where there are others."""

    forgotten = None

    def receive(self, number, how, field):
        payload = self.payloads[int(number)]
        self.forgotten = payload.sent[-1] if len(payload.sent) > 1 else None
        return super().receive(number, how, field)

    def accept_sent(self, name, sent):
        if sent is not self.forgotten:
            super().accept_sent(name, sent)


class OneMore(SessionModel):
    """The window of each stream is one byte larger."""

    def __init__(self, plan, tally):
        super().__init__(plan, tally)
        for end in self.ends.values():
            end.stream_window += 1


class BehindForgotten(SessionModel):
    """What stands in a payload behind a frame of the host is forgotten."""

    forgotten = ()

    def receive(self, number, how, field):
        others = [index for index, data in extras_of(field) if kind_of(data) == "other"]
        self.forgotten = self.payloads[int(number)].sent[min(others) :] if others else []
        return super().receive(number, how, field)

    def accept_sent(self, name, sent):
        if all(sent is not it for it in self.forgotten):
            super().accept_sent(name, sent)


class OverTooEarly(SessionModel):
    """A stream is over once its send side is gone."""

    def poll(self, name):
        end = self.ends[name]
        end.is_over = lambda id: id in end.send and end.send[id].freed
        try:
            return super().poll(name)
        finally:
            del end.is_over


class OtherWord(SessionModel):
    """The word of a stream is that of the one before it."""

    def set_user(self, name, id, user):
        before = str(int(id) - 4)
        return super().set_user(name, before if int(before) in self.ends[name].users else id, user)


class AlwaysTracks(SessionModel):
    """Streams are tracked although the host did not ask for it."""

    def __init__(self, plan, tally):
        super().__init__(plan, tally)
        for end in self.ends.values():
            end.tracks = True


WRONG_MODELS = [TwoDatagrams, OtherPayload, LeftOut, LastForgotten, OneMore, BehindForgotten, OverTooEarly, OtherWord, AlwaysTracks]

# -- hosts


class HandsInTwice(Host):
    """Hands a payload with a datagram in twice."""

    def receive(self, number, how, field):
        if any(piece[0] == 0x31 for piece in self.flights[int(number)].pieces):
            super().receive(number, "copied", field)
        return super().receive(number, how, field)


class ReportsAnother(Host):
    """Reports the loss of a payload with the token of the one before it."""

    def lose(self, number):
        writer = self.flights[int(number)].writer if int(number) < len(self.flights) else None
        others = [it for it in range(int(number)) if self.flights[it].writer == writer]
        return super().lose(others[-1] if others else number)


class CutsLast(Host):
    """Says of a part alone that it has one frame less."""

    def emit(self, name, parts, most, fairness, how):
        reply = super().emit(name, parts, most, fairness, how)
        if int(parts) == ALL_PARTS or reply == "none" or len(self.flights[-1].pieces) < 2:
            return reply
        flight = self.flights[-1]
        self.flights[-1] = Flight(name, b"".join(flight.pieces[:-1]), flight.token)
        return f"payload {len(self.flights) - 1} {self.flights[-1].data.hex()} open"


class HandsInLess(Host):
    """Hands a payload in without its last frame, but says that it did."""

    def receive(self, number, how, field):
        flight = self.flights[int(number)]
        whole = flight.pieces
        if len(whole) < 2 or field != "-":
            return super().receive(number, how, field)
        flight.pieces = whole[:-1]
        super().receive(number, how, field)
        flight.pieces = whole
        return f"ok {len(flight.data)}"


class OpensOneMore(Host):
    """Gives the library a stream window one byte larger than it says."""

    def config(self, name, uni, bi, send, receive, stream, *others):
        return super().config(name, uni, bi, send, receive, str(int(stream) + 1), *others)


class NeverTracks(Host):
    """Asks for no word of its streams, but says that it did."""

    def config(self, name, uni, bi, send, receive, stream, *others):
        return super().config(name, uni, bi, send, receive, stream, *others[:2], "0")


class PassesOverClosed(Host):
    """Passes over each second event of a stream that is over."""

    over = 0

    def poll(self, name):
        reply = super().poll(name)
        self.over += reply.startswith("closed")
        return super().poll(name) if reply.startswith("closed") and self.over % 2 else reply


WRONG_HOSTS = [HandsInTwice, ReportsAnother, CutsLast, HandsInLess, OpensOneMore, NeverTracks, PassesOverClosed]
