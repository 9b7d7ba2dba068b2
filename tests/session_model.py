"""A model of two sessions of the C library and the network between them. It takes the calls of `c_host` as lines, and says what each has to
return: whole payloads, parts alone, datagrams, and what a session says of itself, beside the calls on streams of `stream_calls`."""
import collections

from datagram_model import Datagrams
from frame_bytes import Datagram, FrameDecoder, compose, extras_of
from frames import DIRECTIONS, MaxStreamData, StopSending, Stream, StreamDataBlocked, check, check_same
from pair_model import ENDS, OTHER, Payload, Sent, bytes_of
from pending_model import Draft
from session_end import FRAME_ENCODING
from stream_calls import StreamCalls

# Bits of the parts of a payload
CONTROL, DATAGRAMS, STREAMS, ALL_PARTS = 1, 2, 4, 7
PROTOCOL_VIOLATION = 10
# Calls on a stream, which answer `closed` where the application was not given the stream
ON_STREAMS = {
    "write", "finish", "reset", "stop", "priority", "priority-of", "stopped", "received-reset", "room", "user", "set-user",
    "read", "read-many", "read-lent",
}
READS = {"read", "read-many", "read-lent"}
# Events that have a stream, and with it the host's word for the stream
STREAM_EVENTS = {"readable", "writable", "finished", "stopped"}

# How a session begins: for each end its config as in `streampair`, what it permits of datagrams, and the limits that the client
# remembers, or None; and for each end whether it tracks its streams
Plan = collections.namedtuple("Plan", "configs datagrams remembered tracks")


class SentPayload(Payload):
    """A payload with its bytes."""

    def __init__(self, writer, draft):
        super().__init__(writer, [Sent(frame) for _, frame in draft.frames])
        self.data = draft.data
        self.places = [at for at, _ in draft.frames]

    def pieces(self):
        """The bytes of each frame."""
        return [self.data[at:end] for at, end in zip(self.places, [*self.places[1:], len(self.data)])]

    def is_open(self):
        """Whether a frame may follow."""
        last = self.sent[-1].frame
        return not isinstance(last, Stream) or last.has_length


def wishes_of(hint):
    """The streams whose limits a payload tells, by the kind of the frame, in their order."""
    words = hint.split(" ")
    frames = FrameDecoder(bytes_of(words[2])).placed() if words[0] == "payload" else []
    kinds = (MaxStreamData, StreamDataBlocked)
    return {kind: [frame.id for _, frame in frames if isinstance(frame, kind)] for kind in kinds}


def before_malformed(parts):
    """The parts that are processed of a payload whose end is malformed: none of the run of frames of the library in which it stands."""
    if not parts or parts[-1].kind != "malformed":
        return parts, None
    runs = len(parts) - 1
    while runs and parts[runs - 1].kind == "own":
        runs -= 1
    return parts[:runs], parts[runs].at


class SessionModel(StreamCalls):
    """Two sessions and the network between them."""

    def __init__(self, plan, tally):
        super().__init__(plan.configs, plan.remembered, tally)
        self.datagrams = {name: Datagrams(plan.datagrams[name]) for name in ENDS}
        self.datagrams_sent = {name: set() for name in ENDS}
        for name, end in self.ends.items():
            end.tracks = plan.tracks[name]

    def take(self, line, reply):
        """Takes a call with what it returned. Raises AssertionError where that is wrong."""
        check_same(reply, self.answer(line, reply))
        verb, word = line.split(" ")[0], reply.split(" ")[0]
        self.tally[f"{verb} {'piece' if ':' in word else word}"] += 1

    def answer(self, line, hint=""):
        """What a call has to return. Where several answers are right, the hint is one of them, if it is right."""
        verb, *fields = line.split(" ")
        if verb in ON_STREAMS and int(fields[1]) not in self.ends[fields[0]].known:
            # of two reasons either may be told
            return "small" if verb in READS and fields[-1] == "0" and hint == "small" else "closed"
        self.hint = hint
        return getattr(self, verb.replace("-", "_"))(*fields)

    # -- the network

    def emit(self, name, parts, most, fairness, _how):
        end, parts = self.ends[name], int(parts)
        draft = Draft(int(most))
        if parts & CONTROL:
            end.write_control(draft, wishes_of(self.hint))
        if parts & DATAGRAMS:
            self.datagrams[name].write(draft)
        if parts & STREAMS:
            end.write_streams(draft, fairness == "f")
        if not draft.frames:
            return "none"
        check(len(draft.data) <= draft.most, "a payload is too long")
        self.payloads.append(SentPayload(name, draft))
        return f"payload {len(self.payloads) - 1} {draft.data.hex()} {self.how_ends(draft)}"

    def how_ends(self, draft):
        """Whether nothing may follow a payload: so where its last frame has no length, and maybe where data fill it."""
        last = draft.frames[-1][1]
        is_data = isinstance(last, Stream)
        may_end = is_data and len(draft.data) == draft.most and self.hint.endswith(" ends")
        return "ends" if is_data and not last.has_length or may_end else "open"

    def receive(self, number, how, field):
        """A payload is handed over whole, with frames of others in it: its frames are taken in order, up to the first that is refused."""
        payload = self.payloads[int(number)]
        name = OTHER[payload.writer]
        parts, malformed_at = before_malformed(compose(payload.pieces(), extras_of(field)))
        said = []
        for part in parts:
            if part.index is not None:
                self.accept_sent(name, payload.sent[part.index])
            elif part.kind == "own":
                code = self.refuse(name, FrameDecoder(part.data).placed()[0][1])
                # of a buffer that was taken it is not said where
                at = 0 if how == "taken" and self.hint.endswith(" 0") else part.at
                return " ".join([*said, f"refused {code} {at}"])
            elif part.kind == "other":
                said.append(f"other {part.at}")
        if malformed_at is not None:
            return " ".join([*said, f"malformed {FRAME_ENCODING} {malformed_at}"])
        return " ".join([*said, f"ok {parts[-1].end() if parts else 0}"])

    def frame(self, number, index):
        """One frame is handed over, decoded."""
        payload = self.payloads[int(number)]
        self.accept_sent(OTHER[payload.writer], payload.sent[int(index)])
        return "ok"

    def accept_sent(self, name, sent):
        """An end takes a frame of the other."""
        end = self.ends[name]
        self.tally["repeated frame" if sent.accepted else "frame"] += 1
        sent.accepted = True
        if isinstance(sent.frame, Datagram):
            self.datagrams[name].accept(sent.frame.data)
            return
        if end.accept(sent.frame):
            end.pending.credit = True
        end.queue_counts()

    def refuse(self, name, frame):
        """The code of a frame that was drawn to be refused; no library answers with that of one that is not. MAX_STREAMS that is due is
        queued by each frame of which a check of ids in front of the streams does not know that it is wrong."""
        code = self.refusal_of(name, frame)
        if not isinstance(frame, (Datagram, StopSending, StreamDataBlocked)):
            self.ends[name].queue_counts()
        return "nothing" if code is None else code

    def refusal_of(self, name, frame):
        if isinstance(frame, Datagram):
            return PROTOCOL_VIOLATION if self.datagrams[name].is_refused(frame.data) else None
        return self.ends[name].refusal_of(frame)

    def is_kept(self, number):
        """Whether a payload was not reported yet."""
        return int(number) < len(self.payloads) and not self.payloads[int(number)].settled

    def lose(self, number):
        return super().lose(number) if self.is_kept(number) else "unknown"

    def ack(self, number):
        if not self.is_kept(number):
            return "unknown"
        reply = super().ack(number)
        self.ends[self.payloads[int(number)].writer].queue_counts()
        return reply

    # -- 0-RTT

    def early_accept(self, *_limits):
        return super().early_accept()

    def early_reject(self, *_limits):
        reply = super().early_reject()
        self.client.begin_anew()
        return reply

    def retry(self):
        """All that was sent has to be sent again; then each payload is reported lost, for its control frames."""
        self.tally["retried"] += 1
        client = self.client
        for id in self.own_streams():
            was_due = client.is_due(id)
            client.send[id].send_again()
            if client.is_due(id):
                client.queue(id, was_due)
        for number in range(len(self.payloads)):
            self.lose(number)
            self.payloads[number].leave()
        return "ok"

    # -- datagrams

    def datagram_send(self, name, field, drop):
        reply = self.datagrams[name].send(bytes_of(field), drop == "drop")
        if reply == "ok":
            self.datagrams_sent[name].add(bytes_of(field))
        return reply

    def datagram_recv(self, name, room):
        datagrams = self.datagrams[name]
        reply = datagrams.receive(int(room))
        check(datagrams.is_honest(self.datagrams_sent[OTHER[name]]), "a datagram that was not sent, or once too often")
        return reply

    def datagram_max(self, name, most):
        self.datagrams[name].set_most(None if most == "off" else int(most))
        return "ok"

    def datagram_size(self, name):
        most = self.datagrams[name].limits.most
        return "off" if most is None else f"size {most}"

    def datagram_space(self, name):
        return f"space {self.datagrams[name].send_space()}"

    # -- what a session says

    def poll(self, name):
        """The next event. The order between those of streams and those of datagrams is not said."""
        datagrams = self.datagrams[name]
        if self.hint.startswith("datagram"):
            event = datagrams.take_event(self.hint)
            if event:
                return event
        end = self.ends[name]
        event = end.next_event()
        if event == "none":
            return datagrams.take_event("datagram") or end.next_closed(self.hint)
        word, *fields = event.split(" ")
        return f"{event} user {end.users.get(int(fields[0]), 0)}" if word in STREAM_EVENTS else event

    def due(self, name):
        end = self.ends[name]
        return f"due {end.has_pending():d} {bool(self.datagrams[name].outgoing):d} {end.can_send_data():d}"

    def info(self, name):
        end = self.ends[name]
        remotes = [end.remote[direction] for direction in DIRECTIONS]
        counts = [it.permitted - len(it.freed) for it in remotes] + [it.permitted for it in remotes] + [it.opened for it in remotes]
        counts += [max(it.opened - len(it.freed), 0) for it in remotes]
        data = [end.credit, sum(half.highest for half in end.receive.values()), max(end.write_room(), 0)]
        sends = sum(self.is_held(name, id) for id in end.known)
        payloads = sum(it.writer == name and not it.settled for it in self.payloads)
        numbers = [*counts, *data, sends, payloads, end.can_send_data(), end.has_pending()]
        return " ".join(["info", *(f"{it:d}" for it in numbers)])
