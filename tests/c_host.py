"""The host of two sessions of the C library: makes the call that a line names, keeps the payloads that are on their way with their tokens,
and says in words what the call returned, as `session_model` does."""
import c_library as c
from c_library import FILL, UNWRITTEN, Connection
from frame_bytes import Datagram, FrameDecoder, compose, extras_of
from frames import DIRECTIONS, MaxData, MaxStreamData, MaxStreams, ResetStream, StopSending, Stream, check, check_same
from pair_model import ENDS, OTHER, bytes_of, direction_of

PLAIN = {c.OK: "ok", c.DONE: "none", c.NO_STREAM: "closed", c.BLOCKED: "blocked", c.ORDER: "illegal", c.TOO_SMALL: "small"}
REPORTS = {c.OK: "ok", c.TOKEN: "unknown"}
EVENTS = {1: "opened", 2: "readable", 3: "writable", 4: "finished", 5: "stopped", 6: "available", 7: "datagram", 8: "datagram-room", 9: "closed"}
STOPPED_EVENT, OF_STREAMS = 5, (2, 3, 4, 5, 9)
DATAGRAM_REPLIES = {c.OK: "ok", c.BLOCKED: "blocked", c.DATAGRAMS_OFF: "off", c.TOO_LARGE: "large"}
ON_FRAMES = {ResetStream: "reset_stream", StopSending: "stop_sending", MaxData: "max_data", MaxStreamData: "max_stream_data"}
READS = {"o": "read", "u": "read_unordered"}
# A token that no payload has
NO_TOKEN = 2**50


def plain(result):
    check(result in PLAIN, f"return value {result}")
    return PLAIN[result]


def told(result, value, code=None):
    """A return value in words, with a code where it has one. What the call did not name it must not have written."""
    if result == code:
        return f"{'stopped' if code == c.STOPPED else 'code'} {value}"
    check_same(value % 2**32, UNWRITTEN % 2**32)
    return plain(result)


def number_or_none(field, word):
    return c.NONE if field == word else int(field)


def on_frame(frame, size):
    """The call of a frame that stood in a payload of so many bytes, with its fields; None for those that have no call."""
    if isinstance(frame, Stream):
        return "stream", frame.id, frame.offset, c.bytes_in(frame.data), len(frame.data), int(frame.fin), size
    if isinstance(frame, Datagram):
        return "datagram", c.bytes_in(frame.data), len(frame.data)
    if isinstance(frame, MaxStreams):
        return "max_streams", DIRECTIONS.index(frame.direction), frame.count
    name = ON_FRAMES.get(type(frame))
    return name and (name, *frame)


class Flight:
    """A payload that was written: by whom, its bytes, its frames and the bytes of each, and its token."""

    def __init__(self, writer, data, token):
        self.writer, self.data, self.token = writer, data, token
        placed = FrameDecoder(data).placed()
        self.frames = [frame for _, frame in placed]
        places = [at for at, _ in placed]
        self.pieces = [data[at:end] for at, end in zip(places, [*places[1:], len(data)])]


class Host:
    """Two sessions, called by lines."""

    def __init__(self, library):
        self.ends = {name: Connection(library) for name in ENDS}
        self.flights = []
        self.tokens = {name: set() for name in ENDS}

    def free(self):
        for end in self.ends.values():
            end.free()

    def reply_to(self, line):
        verb, *fields = line.split(" ")
        return getattr(self, verb.replace("-", "_"))(*fields)

    # -- what a session begins with

    def config(self, name, uni, bi, send, receive, stream, *others):
        datagrams = [number_or_none(others[0], "off"), int(others[1])]
        numbers = [ENDS.index(name), *map(int, (uni, bi, send, receive, stream)), *datagrams, int(others[2])]
        return plain(self.ends[name].configure("conn_open", numbers))

    def limits(self, name, *fields):
        return plain(self.ends[name].configure("set_peer_limits", [number_or_none(it, "off") for it in fields]))

    def early_accept(self, *fields):
        return self.limits("a", *fields)

    def early_reject(self, *fields):
        check_same(self.ends["a"].call("zero_rtt_rejected"), c.OK)
        return self.limits("a", *fields)

    def retry(self):
        check_same(self.ends["a"].call("retransmit_all_for_0rtt"), c.OK)
        for flight in self.flights:
            check(self.ends["a"].call("lost", flight.token) in (c.OK, c.TOKEN), "a loss that is refused")
        return "ok"

    def close(self, name):
        return plain(self.ends[name].call("conn_close"))

    # -- streams

    def open(self, name, direction, call="stream_open"):
        result, id = self.ends[name].call_out(call, DIRECTIONS.index(direction))
        return f"id {id}" if result == c.OK else told(result, id)

    def accept(self, name, direction):
        return self.open(name, direction, "stream_accept")

    def write(self, name, id, field):
        result, written, code = self.ends[name].write(int(id), bytes_of(field))
        if result == c.OK:
            check_same(code, UNWRITTEN)
            return f"wrote {written}"
        check_same(written, UNWRITTEN)
        return told(result, code, c.STOPPED)

    def writev(self, name, id, pieces, fin):
        """As the header's qs_stream_writev."""
        total, listed = 0, [bytes_of(it) for it in pieces.split(",")]
        for at, piece in enumerate(listed):
            while piece:
                ends = fin == "fin" and at + 1 == len(listed)
                result, count, code = self.ends[name].write_fin(int(id), piece, ends)
                total += count
                if result != c.OK:
                    return f"wrote {total} {told(result, code, c.STOPPED)}"
                check_same(code, UNWRITTEN)
                check(count > 0, "a write of nothing")
                piece = piece[count:]
        if fin == "fin" and not listed[-1]:
            return f"wrote {total} {self.finish(name, id)}"
        return f"wrote {total} ok"

    def room(self, name, id):
        result, room = self.ends[name].call_out("stream_send_room", int(id))
        return f"room {room}" if result == c.OK else told(result, room)

    def set_user(self, name, id, user):
        return plain(self.ends[name].call("stream_set_user", int(id), int(user)))

    def user(self, name, id):
        result, user = self.ends[name].call_out("stream_user", int(id))
        return f"user {user}" if result == c.OK else told(result, user)

    def finish(self, name, id):
        return told(*self.ends[name].call_out("stream_finish", int(id)), c.STOPPED)

    def reset(self, name, id, code):
        return plain(self.ends[name].call("stream_reset", int(id), int(code)))

    def stop(self, name, id, code):
        return plain(self.ends[name].call("stream_stop", int(id), int(code)))

    def priority(self, name, id, priority):
        return plain(self.ends[name].call("stream_set_priority", int(id), int(priority)))

    def priority_of(self, name, id):
        result, priority = self.ends[name].call_out("stream_priority", int(id), out=c.I32)
        return f"priority {priority}" if result == c.OK else told(result, priority)

    def stopped(self, name, id):
        return told(*self.ends[name].call_out("stream_stopped", int(id)), c.OK)

    def received_reset(self, name, id):
        return told(*self.ends[name].call_out("stream_received_reset", int(id)), c.OK)

    def send_window(self, name, window):
        return plain(self.ends[name].call("set_send_window", int(window)))

    def receive_window(self, name, window):
        return plain(self.ends[name].call("set_receive_window", int(window)))

    def max_concurrent(self, name, direction, count):
        return plain(self.ends[name].call("set_max_concurrent", DIRECTIONS.index(direction), int(count)))

    # -- reads

    def read(self, name, id, order, most):
        result, data, count, offset, code = self.ends[name].read(READS[order], int(id), int(most))
        said = self.pieces_read(result, [data[:count]] if count else [], count, offset)
        check(set(data[count:]) <= {FILL} or count == UNWRITTEN, "bytes behind those that were read")
        return " ".join([*said, *([] if result == c.OK else [self.last_read(result, code)])])

    def read_many(self, name, id, most):
        result, data, count, offset, code = self.ends[name].read("read_many", int(id), int(most))
        said = self.pieces_read(result, [data[:count]] if count else [], count, offset)
        return " ".join([*said, self.last_read(result, code)])

    def read_lent(self, name, id, most):
        result, pieces, count, offset, code = self.ends[name].read_lent(int(id), int(most))
        check(count == UNWRITTEN or count <= min(int(most), c.GREATEST_SLICES), f"{count} slices")
        return " ".join([*self.pieces_read(result, pieces, count, offset), self.last_read(result, code)])

    def pieces_read(self, result, pieces, count, offset):
        """What was read, in words. The count is not written where the stream could not be read."""
        check_same(count == UNWRITTEN, result in (c.NO_STREAM, c.ORDER, c.TOO_SMALL))
        if count in (0, UNWRITTEN):
            check_same(offset, UNWRITTEN)
            return []
        return [f"{offset}:{b''.join(pieces).hex()}"]

    def last_read(self, result, code):
        if result == c.RESET:
            return f"reset {code}"
        check_same(code, UNWRITTEN)
        return {c.OK: "more", c.END: "end"}.get(result) or plain(result)

    # -- payloads

    def emit(self, name, parts, most, fairness, how):
        end, most = self.ends[name], int(most)
        call = {"copied": end.emit, "lent": end.emit_lent, "taken": end.emit_buffer}[how]
        result, data, (size, token, ends) = call(int(parts), int(fairness == "f"), most)
        if result != c.OK:
            check_same({size, token, ends}, {UNWRITTEN})
            return plain(result)
        check(set(data[size:]) <= {FILL}, "bytes behind a payload")
        check(token not in {0, *self.tokens[name]} and ends in (0, 1), f"the token {token}, which ends {ends}")
        self.tokens[name].add(token)
        self.flights.append(Flight(name, data[:size], token))
        return f"payload {len(self.flights) - 1} {data[:size].hex()} {'ends' if ends else 'open'}"

    def receive(self, number, how, field):
        flight = self.flights[int(number)]
        end = self.ends[OTHER[flight.writer]]
        parts = compose(flight.pieces, extras_of(field))
        data = b"".join(part.data for part in parts)
        if how == "taken":
            end.fill_buffer(data)
        ends = {part.at: part.end() for part in parts}
        said, start = [], 0
        while True:
            result, at, code = end.receive_buffer(len(data), start) if how == "taken" else end.receive(data, start)
            if result != c.OTHER_FRAME:
                return " ".join([*said, self.last_received(result, at, code)])
            said.append(f"other {at}")
            start = ends[at]

    def last_received(self, result, at, code):
        if result in (c.PROTOCOL, c.MALFORMED):
            return f"{'refused' if result == c.PROTOCOL else 'malformed'} {code} {at}"
        check_same(code, UNWRITTEN)
        return f"{plain(result)} {at}"

    def frame(self, number, index):
        """Hands one frame over, decoded."""
        flight = self.flights[int(number)]
        called = on_frame(flight.frames[int(index)], len(flight.data))
        return plain(self.ends[OTHER[flight.writer]].receive_frame(*called)) if called else "ok"

    def report(self, number, call):
        number = int(number)
        if number >= len(self.flights):
            return REPORTS[self.ends["a"].call(call, NO_TOKEN)]
        flight = self.flights[number]
        return REPORTS[self.ends[flight.writer].call(call, flight.token)]

    def lose(self, number):
        return self.report(number, "lost")

    def ack(self, number):
        return self.report(number, "acked")

    # -- datagrams

    def datagram_send(self, name, field, drop):
        data = bytes_of(field)
        return DATAGRAM_REPLIES[self.ends[name].call("datagram_send", c.bytes_in(data), len(data), int(drop == "drop"))]

    def datagram_recv(self, name, most):
        result, data, count = self.ends[name].receive_datagram(int(most))
        if result == c.OK:
            check(set(data[count:]) <= {FILL}, "bytes behind a datagram")
            return f"datagram {data[:count].hex() or '-'}"
        return f"small {count}" if result == c.TOO_SMALL else told(result, count)

    def datagram_max(self, name, most):
        return plain(self.ends[name].call("datagram_set_max_size", number_or_none(most, "off")))

    def datagram_size(self, name):
        result, size = self.ends[name].call_out("datagram_max_size", out=c.SIZE)
        return "off" if result == c.DATAGRAMS_OFF else f"size {size}"

    def datagram_space(self, name):
        return f"space {self.ends[name].call_out('datagram_send_space', out=c.SIZE)[1]}"

    # -- what a session says

    def poll(self, name):
        result, words = self.ends[name].words("poll", c.EVENT_WORDS)
        if result != c.OK:
            check_same(set(words), {UNWRITTEN})
            return plain(result)
        kind, dir, id, code, user = words
        word, is_of_stream = EVENTS[kind], kind in OF_STREAMS
        check(is_of_stream or id == user == 0, "an event with an id or a word")
        check(kind == STOPPED_EVENT or code == 0, "an event with a code")
        if is_of_stream:
            check_same(DIRECTIONS[dir], direction_of(id))
            return f"{word} {id}{f' {code}' if kind == STOPPED_EVENT else ''} user {user}"
        return word if kind in (7, 8) else f"{word} {DIRECTIONS[dir]}"

    def due(self, name):
        return self.numbers(name, "due", c.DUE_WORDS)

    def info(self, name):
        return self.numbers(name, "info", c.INFO_WORDS)

    def numbers(self, name, word, count):
        result, numbers = self.ends[name].words(f"get_{word}", count)
        check_same(result, c.OK)
        return " ".join([word, *map(str, numbers)])
