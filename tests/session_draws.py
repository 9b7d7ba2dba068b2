"""Sessions of two ends of the C library, drawn from a seed: which call comes next, and over a network that loses, repeats and reorders
payloads. A session is a pure function of its seed and of what its model holds."""
import random

from datagram_model import OVERHEAD, DatagramLimits
from foreign_frames import Forger, foreign
from frame_bytes import GREATEST_NUMBER
from frames import DIRECTIONS
from limits_model import limits_of
from pair_model import ENDS, OTHER
from session_model import Plan, SessionModel
from test_sessions import Draws

LEAST_CALLS, MOST_CALLS = 60, 200
# Parts of a payload, as often as they are drawn: most often all of them
PARTS = (7, 7, 7, 7, 7, 1, 2, 3, 4, 4, 5, 6)
CAPS = (0, 10, 12, 18, 26, 27, 30, 34, 45, 60, 60, 60, 120, 120, 200, 200, 400, 400, 1200, 1200, 1200)
# Windows of received datagrams, and limits of those that are pending
WINDOWS = (None, 31, 32, 64, 100, 100, 200, 500, 500, 500, 500, 5000, 5000, 5000, 5000)
SEND_LIMITS = (0, 31, 32, 64, 150, 150, 150, 1000, 1000, 1000, 10_000, 10_000)


class SessionDraws(Draws):
    """Draws calls, each among those that may come next, once the returns of the calls before are known."""

    def __init__(self, seed, tally, model=SessionModel):
        self.random = random.Random(seed)
        self.calls = self.random.randrange(LEAST_CALLS, MOST_CALLS + 1)
        # an end may be closing by its last calls
        self.closes_at = self.calls - 15 if self.once_in(8) else None
        configs = {name: self.large_config() for name in ENDS}
        windows = {name: self.of(*WINDOWS) for name in ENDS}
        self.greatest_datagram = {name: self.greatest_for(windows[OTHER[name]]) for name in ENDS}
        datagrams = {name: self.datagram_limits(name, windows[name]) for name in ENDS}
        remembered = [self.remember(it) for it in limits_of(configs["b"])] if self.once_in(4) else None
        self.plan = Plan(configs, datagrams, remembered, {name: not self.once_in(4) for name in ENDS})
        # the steps that decide on 0-RTT, where it is not decided
        self.decisions = list(self.of(("early-accept",), ("early-reject",), ("retry", "early-accept"), ("retry", "early-reject"), ()))
        self.model = model(self.plan, tally)
        self.forger = Forger(self.random, self.model)

    def large_config(self):
        """A config, whose windows are now and then the greatest ones."""
        config = self.config()
        return tuple(GREATEST_NUMBER if at > 2 and self.once_in(15) else number for at, number in enumerate(config))

    def greatest_for(self, window):
        """The length of the longest datagram that fits a peer's window, or None."""
        return None if window is None or window < OVERHEAD else window - OVERHEAD

    def datagram_limits(self, name, receive):
        greatest = self.greatest_datagram[name]
        most = None if greatest is None or self.once_in(8) else self.of(greatest, greatest, min(greatest, 30))
        return DatagramLimits(receive, self.of(*SEND_LIMITS), most)

    def remember(self, number):
        """A limit that is not above the one that the server gives."""
        return self.of(number, number, number // 2, number // 3, 0) if number > 3 else number

    # -- how a session begins

    def limit_fields(self, name, limits):
        most = self.plan.datagrams[name].most
        return " ".join(map(str, [*limits, "off" if most is None else most]))

    def given_fields(self, name):
        return self.limit_fields(name, limits_of(self.plan.configs[OTHER[name]]))

    def first_lines(self):
        lines = []
        for name in ENDS:
            receive, send, _ = self.plan.datagrams[name]
            numbers = [*self.plan.configs[name], "off" if receive is None else receive, send, int(self.plan.tracks[name])]
            lines.append(" ".join(map(str, ["config", name, *numbers])))
        remembered = self.plan.remembered
        lines.append(f"limits a {self.given_fields('a') if remembered is None else self.limit_fields('a', remembered)}")
        return [*lines, f"limits b {self.given_fields('b')}"]

    # -- the network

    def emit(self, name):
        how = self.of("copied", "copied", "lent", "taken")
        return f"emit {name} {self.of(*PARTS)} {self.of(*CAPS)} {self.of('f', 'f', 'u')} {how}"

    def there(self):
        """The numbers of the payloads that are on their way."""
        return [number for number, payload in enumerate(self.model.payloads) if not payload.gone]

    def deliver(self, name):
        numbers = self.there()
        fresh = [it for it in numbers if not self.model.payloads[it].is_accepted()]
        if not numbers:
            return self.emit(name)
        number = self.random.choice(fresh[:4] if fresh and not self.once_in(5) else numbers)
        if self.once_in(6):
            return f"frame {number} {self.random.randrange(len(self.model.payloads[number].sent))}"
        extras = self.extras(number) if self.once_in(3) else []
        how = self.of("copied", "copied", "taken")
        return f"receive {number} {how} {','.join(f'{index}:{data.hex()}' for index, data in extras) or '-'}"

    def extras(self, number):
        """Frames of others in a payload, and now and then one that is refused, or bytes at its end that are none."""
        payload = self.model.payloads[number]
        places = len(payload.sent) + payload.is_open()
        extras = sorted((self.random.randrange(places), foreign(self.random)) for _ in range(self.of(0, 1, 1, 2, 3)))
        if self.once_in(4):
            extras.append((0, self.forger.at_a_limit(OTHER[payload.writer]) or foreign(self.random)))
        elif self.once_in(4):
            extras.append((self.random.randrange(places), self.forger.anywhere(OTHER[payload.writer])))
        elif payload.is_open() and self.once_in(4):
            extras.append((len(payload.sent), bytes.fromhex(self.of("04", "1140", "0b00", "3105aa"))))
        return extras

    def ack(self, name):
        if not self.model.is_decided:
            return self.lose(name)
        number = self.payload(lambda payload: payload.is_accepted() and not payload.settled)
        is_there = number < len(self.model.payloads)
        if is_there and not self.model.payloads[number].settled and not self.model.payloads[number].is_accepted():
            return f"lose {number}"
        return f"ack {number}"

    # -- streams

    def stream(self, name, reads=False):
        """A stream of an end; most often one on which there is something to read, or which may be written."""
        end = self.model.ends[name]
        if reads:
            hopeful = [id for id in end.known if id in end.receive and self.is_readable(end.receive[id])]
        else:
            hopeful = [id for id in end.known if end.is_held(id) and not end.send[id].finished]
        return self.random.choice(hopeful) if hopeful and not self.once_in(4) else super().stream(name, reads)

    def is_readable(self, half):
        return not half.is_closed() and (half.reset is not None or half.is_at_end() or half.has_more(not half.unordered))

    def accept(self, name):
        waiting = [direction for direction, it in self.model.ends[name].remote.items() if it.accepted < it.opened]
        return f"accept {name} {self.random.choice(waiting)}" if waiting else super().accept(name)

    def write(self, name):
        if self.once_in(5):
            pieces = ",".join(self.data() for _ in range(self.of(1, 2, 3)))
            return f"writev {name} {self.stream(name)} {pieces} {self.of('fin', 'more', 'more')}"
        return super().write(name)

    def read(self, name):
        id = self.stream(name, reads=True)
        if id % 3 and self.once_in(3):
            how, most = self.of(("many", self.of(0, 1, 50, 3000, 10_000, 10_000)), ("lent", self.of(0, 1, 2, 64, 64, 100)))
            return f"read-{how} {name} {id} {most}"
        half = self.model.ends[name].receive.get(id)
        is_ordered = (id % 3 != 0 and not (half and half.unordered)) != self.once_in(10)
        return f"read {name} {id} {'o' if is_ordered else 'u'} {self.of(0, 1, 7, 50, 50, 1000, 1000, 1000)}"

    def seldom(self, name):
        if self.once_in(3):
            return self.of(
                lambda: f"priority-of {name} {self.stream(name)}",
                lambda: f"stopped {name} {self.stream(name)}",
                lambda: f"room {name} {self.stream(name)}",
                lambda: f"user {name} {self.stream(name)}",
                lambda: f"set-user {name} {self.stream(name)} {self.of(1, 7, 2**64 - 1)}",
            )()
        return super().seldom(name)

    # -- datagrams, and what a session says

    def datagram_data(self, name):
        """The bytes of a datagram, seldom too many."""
        _, send, most = self.model.datagrams[name].limits
        fits = min(max(send - OVERHEAD, 0), most or 0, 300)
        size = self.random.randrange(fits + 1) if fits and not self.once_in(4) else self.of(0, 1, fits, fits + 1, 300)
        return self.random.randbytes(size).hex() or "-"

    def datagram(self, name):
        it = self.model.datagrams[name]
        if it.incoming and not self.once_in(3):
            return f"datagram-recv {name} {self.of(0, 5, 30, 1200, 1200, 1200)}"
        if self.once_in(6):
            return self.datagram_setting(name)
        if self.once_in(10):
            return f"datagram-recv {name} 1200"
        return f"datagram-send {name} {self.datagram_data(name)} {self.of('drop', 'keep', 'keep')}"

    def datagram_setting(self, name):
        greatest = self.greatest_datagram[name]
        if greatest is None or not self.model.is_decided or self.once_in(2):
            return self.of(f"datagram-size {name}", f"datagram-space {name}")
        return f"datagram-max {name} {self.of('off', 0, greatest // 2, greatest, greatest)}"

    def ask(self, name):
        return self.of(f"due {name}", f"info {name}")

    EARLY = {
        emit: 14,
        deliver: 22,
        write: 14,
        read: 14,
        ack: 7,
        Draws.lose: 4,
        Draws.poll: 6,
        Draws.open: 5,
        accept: 9,
        Draws.finish: 3,
        datagram: 10,
        ask: 4,
        seldom: 7,
    }
    # the later calls are to deliver everything
    LATE = {
        emit: 18,
        deliver: 28,
        accept: 4,
        read: 22,
        ack: 12,
        Draws.poll: 8,
        Draws.finish: 6,
        Draws.lose: 3,
        datagram: 9,
        ask: 4,
        seldom: 3,
    }

    # once an end is closing
    LAST = {write: 12, read: 12, Draws.poll: 8, ack: 4, Draws.lose: 3, Draws.open: 3, accept: 3, ask: 4, seldom: 4}

    def weights(self, step):
        if self.model.closing:
            return self.LAST
        if not self.model.is_decided:
            return {draw: weight for draw, weight in self.EARLY.items() if draw is not SessionDraws.deliver}
        return self.EARLY if step < 2 * self.calls // 3 else self.LATE

    def is_idle(self, draw, name):
        """Whether nothing may come of a call that is drawn."""
        end, datagrams = self.model.ends[name], self.model.datagrams[name]
        payloads = self.model.payloads
        if draw is SessionDraws.emit:
            return not (end.has_pending() or datagrams.outgoing or end.can_send_data())
        if draw is SessionDraws.read:
            return not any(id in end.receive and self.is_readable(end.receive[id]) for id in end.known)
        if draw is SessionDraws.deliver:
            return not any(it.sent and not it.is_accepted() for it in payloads)
        if draw is SessionDraws.ack:
            return not any(it.is_accepted() and not it.settled for it in payloads)
        if draw is Draws.lose:
            return all(it.settled for it in payloads)
        if draw is Draws.poll:
            opened = any(it.is_opening_due for it in end.remote.values())
            over = any(map(end.is_over, end.users))
            return not (end.events or opened or over or datagrams.is_one_due or datagrams.is_room_due)
        if draw is Draws.open:
            return all(end.opened[it] == end.counts[it] for it in DIRECTIONS)
        if draw is SessionDraws.accept:
            return all(it.accepted == it.opened for it in end.remote.values())
        return False

    def decision(self):
        """A step that decides on 0-RTT, with the limits that the server gives."""
        verb = self.decisions.pop(0)
        return verb if verb == "retry" else f"{verb} {self.given_fields('a')}"

    def line(self, step):
        is_decided = self.model.is_decided
        if not is_decided and self.decisions and step > 10 and self.once_in(12):
            return self.decision()
        name = self.end() if is_decided else "a"
        if step == self.closes_at:
            return f"close {name}"
        if step < 12 and self.once_in(2):
            return self.open(name)
        weights = self.weights(step)
        for _ in range(4):
            draw = self.random.choices(list(weights), weights.values())[0]
            if not self.is_idle(draw, name):
                break
        return draw(self, name)
