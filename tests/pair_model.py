"""A model of two ends and the network between them, as `streampair` has them. It keeps what was written, sent,
delivered, acknowledged and read, and knows by docs/rules.md and RFC 9000 how each line may be answered."""
import collections

from frame_bytes import GREATEST_NUMBER
from frames import (
    DIRECTIONS,
    GREATEST_HEAD,
    DataBlocked,
    Decoder,
    MaxData,
    MaxStreamData,
    MaxStreams,
    ResetStream,
    StopSending,
    Stream,
    StreamDataBlocked,
    check,
    check_same,
)
from limits_model import Remote, limits_of
from stream_halves import ReceiveHalf, SendHalf

ENDS = ("a", "b")
OTHER = {"a": "b", "b": "a"}
ON_STREAMS = ("write", "chunks", "finish", "reset", "stop", "priority", "read", "received-reset")
REFUSALS = {
    "NoSuchPayload": "refused 1 NoSuchPayload",
    "NoSuchFrame": "refused 2 NoSuchFrame",
    "NotAccepted": "refused 3 NotAccepted",
    "UnknownId": "refused 4 UnknownId",
    "AlreadySettled": "refused 6 AlreadySettled",
    "LimitsBelow": "refused 7 LimitsBelow",
    "Undecided": "refused 8 Undecided",
    "Decided": "refused 9 Decided",
}
# The steps that decide on 0-RTT
DECISIONS = ("early-accept", "early-reject", "retry")


def bytes_of(field):
    return b"" if field == "-" else bytes.fromhex(field)


# ---- stream ids (RFC 9000 section 2.1)


def stream_id(opener, direction, index):
    return 4 * index + 2 * DIRECTIONS.index(direction) + ENDS.index(opener)


def opener_of(id):
    return ENDS[id % 2]


def direction_of(id):
    return DIRECTIONS[id // 2 % 2]


class Sent:
    """A frame of a payload, and whether the other end accepted it."""

    def __init__(self, frame):
        self.frame = frame
        self.accepted = False


class Payload:
    """A payload: the end that wrote it, its frames, and whether it was reported lost or acknowledged."""

    def __init__(self, writer, sent):
        self.writer = writer
        self.sent = sent
        self.settled = False
        self.gone = False

    def leave(self):
        """The payload leaves the network."""
        self.sent, self.settled, self.gone = [], True, True

    def is_accepted(self):
        return all(sent.accepted for sent in self.sent)


def unreadable(half, ordered):
    """The reason why a receive half, or one that is not there, may not be read, or None."""
    if half is None or half.is_closed():
        return "closed"
    return "illegal" if ordered and half.unordered else None


# ---- the two ends


class End:
    """One end: its streams, the limits that it gives, and those that it was given (RFC 9000 section 4)."""

    def __init__(self, name, config, limits):
        self.name = name
        unidirectional, bidirectional, self.send_window, self.receive_window, self.stream_window = config
        self.remote = {"uni": Remote(unidirectional), "bi": Remote(bidirectional)}
        self.credit, self.debt = self.receive_window, 0
        self.credit_sent = self.receive_window
        self.hold(limits)
        # whether a count of streams was set
        self.is_adjusted = False
        self.opened = {"uni": 0, "bi": 0}
        self.known = []
        self.send, self.receive = {}, {}
        # events, except openings, and except streams that are writable after the connection or the send window blocked them
        self.events = collections.deque()
        # streams on which the connection or the send window blocked a write
        self.blocked = []

    def hold(self, limits):
        """Takes the first limits of the peer."""
        self.counts = {"uni": limits.uni, "bi": limits.bi}
        self.limit, self.first = limits.data, limits

    def first_limit(self, id):
        if direction_of(id) == "uni":
            return self.first.stream_uni
        return self.first.stream_remote if opener_of(id) == self.name else self.first.stream_local

    def add_stream(self, id):
        if direction_of(id) == "bi" or opener_of(id) == self.name:
            self.send[id] = SendHalf(self.first_limit(id))
        if direction_of(id) == "bi" or opener_of(id) != self.name:
            self.receive[id] = ReceiveHalf(self.stream_window)

    def has_data(self):
        """Whether bytes or ends have to be sent."""
        return any(half.has_rest() for half in self.send.values())

    def has_control(self):
        """Whether resets or stops have to be sent."""
        return any(half.resets_due for half in self.send.values()) or any(half.stops_due for half in self.receive.values())

    def has_rest(self, part=None):
        """Whether any of these have, or those that a part of a payload is for."""
        return part != "control" and self.has_data() or part != "streams" and self.has_control()

    def bytes_written(self):
        return sum(len(half.written) for half in self.send.values())

    def write_room(self):
        retained = sum(half.retained() for half in self.send.values())
        return min(self.limit - self.bytes_written(), self.send_window - retained)

    def block(self, id):
        if id not in self.blocked:
            self.blocked.append(id)

    def unblocked(self):
        """The stream that was blocked last, of those that may be written on again. Those that may not leave the list."""
        while self.blocked:
            id = self.blocked.pop()
            half = self.send[id]
            if not half.freed and not half.is_over() and half.limit > len(half.written):
                return id
        return None

    def next_event(self):
        for direction, remote in self.remote_in_order():
            if remote.is_opening_due:
                remote.is_opening_due = False
                return f"opened {direction}"
        id = self.unblocked() if self.write_room() > 0 else None
        if id is not None:
            return f"writable {id}"
        return self.events.popleft() if self.events else "none"

    def remote_in_order(self):
        return [(direction, self.remote[direction]) for direction in DIRECTIONS]

    def is_credit_due(self):
        """Whether MAX_DATA is due: the limit rose by an eighth of the window. Above the greatest number there is no more to say."""
        return self.credit <= GREATEST_NUMBER and self.credit >= self.credit_sent + self.receive_window // 8

    def stream_limit(self, id):
        """The limit that a stream has now."""
        return min(self.receive[id].read + self.stream_window, GREATEST_NUMBER)

    def is_limit_due(self, id):
        """Whether MAX_STREAM_DATA is due: the limit rose by an eighth of the window."""
        half = self.receive[id]
        return half.goes_on() and self.stream_limit(id) - half.limit_sent >= self.stream_window // 8

    def has_news(self, id):
        """Whether a limit is due after a read of a stream."""
        is_count_due = any(remote.is_count_due() for remote in self.remote.values())
        return is_count_due or self.is_credit_due() or self.is_limit_due(id)

    def consume(self, count):
        """Consumed bytes first pay what is owed since the window was made smaller, and then raise the limit."""
        paid = min(self.debt, count)
        self.debt -= paid
        self.credit += count - paid

    def set_receive_window(self, window):
        self.credit += max(window - self.receive_window, 0)
        self.debt += max(self.receive_window - window, 0)
        self.receive_window = window

    def is_over(self, id):
        """Whether both halves of a stream are freed, those that it has (RFC 9000 sections 3.1 and 3.2)."""
        sends, receives = self.send.get(id), self.receive.get(id)
        return (sends is None or sends.freed) and (receives is None or receives.is_freed())

    def free_if_over(self, id):
        """Frees a stream that the peer opened, once it is over."""
        if opener_of(id) != self.name and self.is_over(id):
            self.remote[direction_of(id)].free(id)

    def free(self, id):
        """Frees the send half of a stream, of which nothing is left to be acknowledged."""
        self.send[id].freed = True
        self.send[id].resets_due = 0
        self.free_if_over(id)

    def tell_end(self, id):
        """The end or the reset of a stream was told to its reader."""
        self.receive[id].told = True
        self.free_if_over(id)

    # -- reports of frames that were sent

    def lose(self, frame):
        if isinstance(frame, Stream):
            half = self.send[frame.id]
            if half.is_held_for_data():
                half.lose(frame)
        elif isinstance(frame, ResetStream):
            self.send[frame.id].resets_due += not self.send[frame.id].freed
        elif isinstance(frame, StopSending):
            self.receive[frame.id].stops_due += 1

    def acknowledge(self, frame):
        if isinstance(frame, Stream):
            half = self.send[frame.id]
            if half.is_held_for_data():
                half.acknowledge(frame)
                if half.is_acknowledged():
                    self.events.append(f"finished {frame.id}")
                    self.free(frame.id)
        elif isinstance(frame, ResetStream):
            self.free(frame.id)

    # -- frames that are received

    def accept(self, frame):
        """Takes a frame of the peer. DATA_BLOCKED and STREAM_DATA_BLOCKED change nothing. Whether MAX_DATA is due after it."""
        accept = {
            Stream: self.accept_data,
            ResetStream: self.accept_reset,
            StopSending: self.accept_stop,
            MaxData: self.accept_limit,
            MaxStreamData: self.accept_stream_limit,
            MaxStreams: self.accept_count,
        }.get(type(frame))
        return bool(accept and accept(frame))

    def note_opened(self, id):
        """Notes a frame on a stream. Whether it opened the stream."""
        return opener_of(id) != self.name and self.remote[direction_of(id)].open_up_to(id // 4)

    def tell_readable(self, id):
        """Queues `readable` for a frame, unless the frame opened the stream."""
        if not self.note_opened(id):
            self.events.append(f"readable {id}")

    def accept_data(self, frame):
        half = self.receive[frame.id]
        if half.is_freed() or half.reset is not None:
            return False
        end = frame.offset + len(frame.data)
        fresh = max(end - half.highest, 0)
        half.highest += fresh
        if frame.fin:
            half.final_size = end
        if half.stop is None:
            half.arrive(frame.offset, end)
            self.tell_readable(frame.id)
            return False
        self.consume(fresh)
        self.free_if_over(frame.id)
        return self.is_credit_due()

    def accept_reset(self, frame):
        half = self.receive[frame.id]
        if half.is_freed() or half.reset is not None:
            return False
        if half.stop is None:
            self.tell_readable(frame.id)
        rest = frame.final_size - (half.read if half.stop is None else half.highest)
        self.consume(rest)
        half.highest = half.final_size = frame.final_size
        half.reset = frame.code
        self.free_if_over(frame.id)
        return rest > 0 and self.is_credit_due()

    def accept_stop(self, frame):
        half = self.send[frame.id]
        if not half.freed and half.stopped is None:
            self.note_opened(frame.id)
            half.stopped = frame.code
            self.events.append(f"stopped {frame.id} {frame.code}")

    def accept_limit(self, frame):
        self.limit = max(self.limit, frame.limit)

    def raise_limit(self, id, limit):
        """Raises the limit of a stream. One that was written up to its limit is writable then, or waits for the connection."""
        half = self.send[id]
        rises = not half.freed and not half.is_over() and limit > half.limit
        if rises and len(half.written) == half.limit:
            if self.write_room() > 0:
                self.events.append(f"writable {id}")
            else:
                self.block(id)
        half.limit = max(half.limit, limit)

    def accept_stream_limit(self, frame):
        self.raise_limit(frame.id, frame.limit)
        self.note_opened(frame.id)

    def accept_count(self, frame):
        if frame.count > self.counts[frame.direction]:
            self.counts[frame.direction] = frame.count
            self.events.append(f"available {frame.direction}")

    # -- frames that are sent, which have to be true

    def emit(self, frame):
        {
            Stream: self.emit_data,
            ResetStream: self.emit_reset,
            StopSending: self.emit_stop,
            MaxData: self.emit_limit,
            MaxStreamData: self.emit_stream_limit,
            MaxStreams: self.emit_count,
            DataBlocked: self.emit_blocked,
            StreamDataBlocked: self.emit_stream_blocked,
        }[type(frame)](frame)

    def emit_data(self, frame):
        self.send[frame.id].send(frame)

    def emit_reset(self, frame):
        half = self.send[frame.id]
        check(half.resets_due > 0, "a reset that is not due")
        half.resets_due -= 1
        check_same((frame.code, frame.final_size), (half.reset, len(half.written)))

    def emit_stop(self, frame):
        half = self.receive[frame.id]
        check(half.stops_due > 0, "a stop that is not due")
        half.stops_due -= 1
        check_same(frame.code, half.stop)

    def emit_limit(self, frame):
        check_same(frame.limit, min(self.credit, GREATEST_NUMBER))
        self.credit_sent = frame.limit

    def emit_stream_limit(self, frame):
        half = self.receive[frame.id]
        check(half.goes_on(), "a limit where no more is to come")
        check_same(frame.limit, self.stream_limit(frame.id))
        half.limit_sent = frame.limit

    def emit_count(self, frame):
        remote = self.remote[frame.direction]
        check_same(frame.count, remote.permitted)
        remote.permitted_sent = frame.count

    def emit_blocked(self, frame):
        check_same(frame.limit, self.limit)

    def emit_stream_blocked(self, frame):
        half = self.send[frame.id]
        check(not half.is_over() and half.stopped is None, "blocked on a stream that is over")
        check_same(frame.limit, half.limit)


def front_of(chunks, count):
    """The first bytes of some chunks, cut where the chunks are, and how many chunks are taken whole."""
    pieces = []
    for whole, chunk in enumerate(chunks):
        if len(chunk) > count:
            return [*pieces, chunk[:count]], whole
        pieces.append(chunk)
        count -= len(chunk)
    return pieces, len(chunks)


class Model:
    """Two ends and the network between them. Takes the lines of a session with their replies."""

    def __init__(self, configs, tally):
        self.ends = {name: End(name, configs[name], limits_of(configs[OTHER[name]])) for name in ENDS}
        self.payloads = []
        self.tally = tally
        # the replies that the model does not predict word for word
        self.judges = {
            "read": self.take_read,
            "emit": self.take_emit,
            "emit-part": self.take_emit_part,
        }

    # -- refusals

    def is_there(self, number):
        return number < len(self.payloads) and not self.payloads[number].gone

    def refusal_of_frame(self, number, index):
        if not self.is_there(number):
            return "NoSuchPayload"
        return None if index < len(self.payloads[number].sent) else "NoSuchFrame"

    def refusal_of_report(self, verb, number):
        if not self.is_there(number):
            return "NoSuchPayload"
        payload = self.payloads[number]
        if payload.settled:
            return "AlreadySettled"
        return "NotAccepted" if verb == "ack" and not payload.is_accepted() else None

    def refusal(self, verb, fields):
        if verb in DECISIONS:
            return "Decided"
        if verb in ON_STREAMS:
            return None if int(fields[1]) in self.ends[fields[0]].known else "UnknownId"
        if verb == "deliver":
            return self.refusal_of_frame(*map(int, fields))
        if verb == "deliver-all":
            return None if self.is_there(int(fields[0])) else "NoSuchPayload"
        if verb in ("lose", "ack"):
            return self.refusal_of_report(verb, *map(int, fields))
        return None

    def take(self, line, reply):
        """Takes a line with its reply. Raises AssertionError where the reply is wrong."""
        verb, *fields = line.split(" ")
        refusal = self.refusal(verb, fields)
        take = None if refusal else self.judges.get(verb)
        if take:
            take(reply, *fields)
            return
        wanted = REFUSALS[refusal] if refusal else getattr(self, verb.replace("-", "_"))(*fields)
        self.tally[refusal or wanted.split(" ")[0]] += 1
        check_same(reply, wanted)

    # -- streams

    def open(self, name, direction):
        end = self.ends[name]
        if end.opened[direction] == end.counts[direction]:
            return "none"
        id = stream_id(name, direction, end.opened[direction])
        end.opened[direction] += 1
        end.known.append(id)
        for each in self.ends.values():
            each.add_stream(id)
        return f"id {id}"

    def accept(self, name, direction):
        end = self.ends[name]
        remote = end.remote[direction]
        if remote.accepted == remote.opened:
            return "none"
        id = stream_id(OTHER[name], direction, remote.accepted)
        remote.accepted += 1
        end.known.append(id)
        return f"id {id}"

    def max_concurrent(self, name, direction, count):
        self.ends[name].remote[direction].set_concurrent(int(count))
        self.ends[name].is_adjusted = True
        return "ok"

    def poll(self, name):
        return self.ends[name].next_event()

    # -- writers

    def unwritable(self, end, id):
        """Why nothing may be written, if there is a reason. The reasons are looked for in this order."""
        half = end.send.get(id)
        if half is None or half.freed:
            return "closed"
        if end.write_room() <= 0:
            end.block(id)
            return "blocked"
        if half.is_over():
            return "closed"
        if half.stopped is not None:
            return f"stopped {half.stopped}"
        return None if half.limit > len(half.written) else "blocked"

    def written(self, name, id, chunks):
        """How many bytes and whole chunks are written, or why none."""
        end = self.ends[name]
        why_not = self.unwritable(end, id)
        if why_not:
            return None, None, why_not
        half = end.send[id]
        count = min(sum(map(len, chunks)), end.write_room(), half.limit - len(half.written))
        pieces, whole = front_of(chunks, count)
        half.write(pieces)
        return count, whole, None

    def write(self, name, id, field):
        count, _, why_not = self.written(name, int(id), [bytes_of(field)])
        return why_not or f"wrote {count}"

    def chunks(self, name, id, fields):
        count, whole, why_not = self.written(name, int(id), [bytes_of(field) for field in fields.split(",")])
        return why_not or f"wrote {count} chunks {whole}"

    def finish(self, name, id):
        half = self.ends[name].send.get(int(id))
        if half is None or half.freed:
            return "closed"
        if half.stopped is not None:
            return f"stopped {half.stopped}"
        if half.is_over():
            return "closed"
        half.finished = True
        return "ok"

    def reset(self, name, id, code):
        half = self.ends[name].send.get(int(id))
        if half is None or half.freed or half.reset is not None:
            return "closed"
        half.reset = int(code)
        half.resets_due = 1
        return "ok"

    def priority(self, name, id, _priority):
        half = self.ends[name].send.get(int(id))
        return "closed" if half is None or half.freed else "ok"

    def send_window(self, name, window):
        self.ends[name].send_window = int(window)
        return "ok"

    # -- readers

    def stop(self, name, id, code):
        end, id = self.ends[name], int(id)
        half = end.receive.get(id)
        if half is None or half.is_closed():
            return "closed"
        half.stop = int(code)
        if half.reset is None:
            half.stops_due = 1
            end.consume(half.highest - half.read)
        end.free_if_over(id)
        return "ok"

    def received_reset(self, name, id):
        end, id = self.ends[name], int(id)
        half = end.receive.get(id)
        if half is None or half.is_closed():
            return "closed"
        if half.reset is None:
            return "none"
        end.tell_end(id)
        return f"code {half.reset}"

    def receive_window(self, name, window):
        end = self.ends[name]
        is_larger = int(window) > end.receive_window
        end.set_receive_window(int(window))
        return "expanded" if is_larger else "not expanded"

    def take_read(self, reply, name, id, order, most, times):
        end, id, ordered = self.ends[name], int(id), order == "o"
        half = end.receive.get(id)
        why_not = unreadable(half, ordered)
        if why_not:
            self.tally[why_not] += 1
            check_same(reply, why_not)
            return
        half.unordered = not ordered
        *chunks, transmit = reply.split(" ")
        count = sum(":" in chunk for chunk in chunks)
        check(count <= int(times), "more chunks than were asked for")
        for chunk in chunks[:count]:
            self.take_chunk(end, id, ordered, int(most), chunk)
        self.take_last(end, id, ordered, " ".join(chunks[count:]), count == int(times))
        wanted = "transmit" if end.has_news(id) else "quiet"
        self.tally[wanted] += 1
        check_same(transmit, wanted)

    def take_chunk(self, end, id, ordered, most, chunk):
        self.tally["ordered chunk" if ordered else "unordered chunk"] += 1
        offset, field = chunk.split(":")
        data = bytes_of(field)
        check(min(most, 1) <= len(data) <= most, f"a chunk of {len(data)} bytes")
        half = end.receive[id]
        check(half.reset is None, "a chunk behind a reset")
        half.give(int(offset), data, ordered, self.ends[OTHER[end.name]].send[id].written)
        end.consume(len(data))

    def take_last(self, end, id, ordered, last, is_full):
        """Checks how a read ended."""
        half = end.receive[id]
        if is_full:
            check_same(last, "more")
        elif half.reset is not None:
            self.tally["reset"] += 1
            check_same(last, f"reset {half.reset}")
            end.tell_end(id)
        elif half.is_at_end():
            self.tally["end"] += 1
            check_same(last, "end")
            end.tell_end(id)
        else:
            self.tally["blocked read"] += 1
            check_same(last, "blocked")
            check(not half.has_more(ordered), "a read is blocked where there is something to read")

    # -- the network

    def take_emit_part(self, reply, name, most, fairness, part):
        """A payload with the frames of one part alone."""
        self.take_emit(reply, name, most, fairness, part)
        is_stream = [isinstance(sent.frame, Stream) for sent in self.payloads[-1].sent]
        check(not any(is_stream) if part == "control" else all(is_stream), "a frame of the other part")
        self.tally[f"{part} alone"] += bool(is_stream)

    def take_emit(self, reply, name, most, _fairness, part=None):
        end = self.ends[name]
        kind, number, field = reply.split(" ")
        data = bytes_of(field)
        check_same((kind, int(number)), ("payload", len(self.payloads)))
        check(len(data) <= int(most), "a payload is too long")
        frames = Decoder(data).frames()
        for frame in frames:
            end.emit(frame)
        is_stream = [isinstance(frame, Stream) for frame in frames]
        check(is_stream == sorted(is_stream), "a STREAM frame before one of another kind")
        has_length = not any(is_stream) or frames[-1].has_length
        check(has_length or len(data) == int(most), "a frame without a length does not fill its payload")
        is_full = int(most) - len(data) <= GREATEST_HEAD
        check(is_full or not end.has_rest(part), "what fits is not sent")
        self.payloads.append(Payload(name, [Sent(frame) for frame in frames]))

    def deliver(self, number, index):
        payload = self.payloads[int(number)]
        sent = payload.sent[int(index)]
        self.tally["repeated delivery"] += sent.accepted
        sent.accepted = True
        transmits = self.ends[OTHER[payload.writer]].accept(sent.frame)
        self.tally["credit at once"] += transmits
        return "ok transmit" if transmits else "ok"

    def deliver_all(self, number):
        """A whole payload: its frames in their order. Each is accepted, since the other end sent it."""
        frames = len(self.payloads[int(number)].sent)
        for index in range(frames):
            self.deliver(number, index)
        self.tally["payload of many frames"] += frames > 1
        return f"accepted {frames}"

    def lose(self, number):
        payload = self.payloads[int(number)]
        payload.settled = True
        for sent in payload.sent:
            self.ends[payload.writer].lose(sent.frame)
        self.tally["lost payload"] += 1
        return "ok"

    def ack(self, number):
        payload = self.payloads[int(number)]
        payload.settled = True
        for sent in payload.sent:
            self.ends[payload.writer].acknowledge(sent.frame)
        self.tally["acknowledged payload"] += 1
        return "ok"
