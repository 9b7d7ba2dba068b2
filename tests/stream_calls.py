"""A model of the calls on streams of two sessions of the C library. It stands on `early_model`, and differs where a session does: a stop is
told before a full window, a read gives one piece or several, and streams that were not given are closed."""
from early_model import EarlyModel
from limits_model import limits_of
from pair_model import ENDS, OTHER, bytes_of, unreadable
from session_end import SessionEnd

# More bytes than a read of slices gives
GREATEST_READ = 2**30


class StreamCalls(EarlyModel):
    """Two sessions, and the calls on their streams."""

    # of the answers that are right the one that the library gave, if it is one
    hint = ""

    def __init__(self, configs, remembered, tally):
        super().__init__(configs, remembered or limits_of(configs["b"]), tally)
        self.ends = {name: SessionEnd(name, configs[name], limits_of(configs[OTHER[name]])) for name in ENDS}
        self.client, self.server = self.ends["a"], self.ends["b"]
        self.client.hold(self.remembered)
        self.is_decided = remembered is None
        # the ends whose connection is closing
        self.closing = set()

    def close(self, name):
        self.closing.add(name)
        return "ok"

    # -- writers

    def open(self, name, direction):
        if name in self.closing:
            return "none"
        reply = super().open(name, direction)
        if reply != "none":
            self.ends[name].priorities.pop(int(reply[3:]), None)
            self.ends[name].know(int(reply[3:]))
        return reply

    def accept(self, name, direction):
        reply = super().accept(name, direction)
        if reply != "none":
            self.ends[name].know(int(reply[3:]))
        return reply

    def set_user(self, name, id, user):
        if int(id) not in self.ends[name].users:
            return "closed"
        self.ends[name].users[int(id)] = int(user)
        return "ok"

    def user(self, name, id):
        users = self.ends[name].users
        return f"user {users[int(id)]}" if int(id) in users else "closed"

    def is_held(self, name, id):
        half = self.ends[name].send.get(int(id))
        return half is not None and not half.freed

    def write(self, name, id, field):
        end = self.ends[name]
        was_due = self.is_held(name, id) and end.is_due(int(id))
        reply = super().write(name, id, field)
        if reply.startswith("wrote"):
            end.queue(int(id), was_due)
        return reply

    def unwritable(self, end, id):
        """Why nothing may be written, if there is a reason. The reasons are looked for in this order, but a stop is told before a block."""
        is_held = self.is_held(end.name, id)
        half = end.send.get(id)
        blocked = "blocked" if not is_held or half.stopped is None else f"stopped {half.stopped}"
        if end.name in self.closing:
            return blocked
        if not is_held:
            return "closed"
        if end.write_room() <= 0:
            end.note_blocked(id)
            return blocked
        if half.is_over() or half.stopped is not None:
            return "closed" if half.is_over() else blocked
        if half.limit <= len(half.written):
            end.note_stream_blocked(id)
            return blocked
        return None

    def room(self, name, id):
        """How many bytes one write takes now. Where there is no room for any stream, it does not matter that the stream is finished."""
        end, half = self.ends[name], self.ends[name].send.get(int(id))
        if name in self.closing:
            return "room 0"
        if not self.is_held(name, id) or half.is_over() and end.write_room() > 0:
            return "closed"
        room = 0 if half.stopped is not None else min(end.write_room(), half.limit - len(half.written))
        return f"room {max(room, 0)}"

    def writev(self, name, id, pieces, fin):
        """Several writes one after another, each until it is done, and then a finish."""
        total = 0
        for piece in map(bytes_of, pieces.split(",")):
            while piece:
                reply = self.answer(f"write {name} {id} {piece.hex()}")
                if not reply.startswith("wrote"):
                    return f"wrote {total} {reply}"
                count = int(reply.split(" ")[1])
                total, piece = total + count, piece[count:]
        return f"wrote {total} {self.answer(f'finish {name} {id}') if fin == 'fin' else 'ok'}"

    def finish(self, name, id):
        end, id = self.ends[name], int(id)
        was_due = self.is_held(name, id) and end.is_due(id)
        reply = super().finish(name, id)
        if reply == "ok":
            end.queue(id, was_due)
        return reply

    def reset(self, name, id, code):
        reply = super().reset(name, id, code)
        if reply == "ok":
            self.ends[name].pending.resets.append(int(id))
        return reply

    def priority(self, name, id, priority):
        if not self.is_held(name, id):
            return "closed"
        self.ends[name].priorities[int(id)] = int(priority)
        return "ok"

    def priority_of(self, name, id):
        return f"priority {self.ends[name].priorities[int(id)]}" if self.is_held(name, id) else "closed"

    def stopped(self, name, id):
        if not self.is_held(name, id):
            return "closed"
        code = self.ends[name].send[int(id)].stopped
        return "none" if code is None else f"code {code}"

    def stop(self, name, id, code):
        end = self.ends[name]
        reply = super().stop(name, id, code)
        if reply == "ok":
            if end.receive[int(id)].stops_due:
                end.pending.stops.append(int(id))
            end.queue_credit()
        end.queue_counts()
        return reply

    def received_reset(self, name, id):
        reply = super().received_reset(name, id)
        self.ends[name].queue_counts()
        return reply

    def receive_window(self, name, window):
        if super().receive_window(name, window) == "expanded":
            self.ends[name].pending.credit = True
        return "ok"

    def max_concurrent(self, name, direction, count):
        super().max_concurrent(name, direction, count)
        self.ends[name].queue_counts()
        return "ok"

    # -- reads

    def read(self, name, id, order, most):
        """One piece of at most so many bytes."""
        end, id, ordered = self.ends[name], int(id), order == "o"
        half = end.receive.get(id)
        why_not = self.unreadable(end, half, ordered, int(most))
        if why_not:
            return why_not
        half.unordered = not ordered
        start, run = self.run_at(half, ordered)
        if run:
            said = len(self.hint.partition(":")[2]) // 2
            reply = self.give(end, id, start, said if 0 < said <= min(int(most), run) else min(int(most), run), ordered)
        else:
            reply = self.last_of(end, id) or "blocked"
        end.note_read(id)
        return reply

    def unreadable(self, end, half, ordered, room):
        """Why a read with so much room gives nothing, or None. Where there is no room and another reason too, either may be told."""
        why_not = unreadable(half, ordered)
        if room == 0 and (why_not is None or self.hint == "small"):
            return "small"
        end.queue_counts()
        return why_not

    def run_at(self, half, ordered):
        """Where the bytes begin that are read next, and how many there are without a gap."""
        if half.reset is not None:
            return 0, 0
        there = bytes(came and not given for came, given in zip(half.arrived, half.given))
        start = half.ordered if ordered else max(there.find(1), 0)
        return start, len(there[start:]) - len(there[start:].lstrip(b"\1"))

    def give(self, end, id, start, count, ordered):
        data = bytes(self.ends[OTHER[end.name]].send[id].written[start : start + count])
        end.receive[id].give(start, data, ordered, self.ends[OTHER[end.name]].send[id].written)
        end.consume(count)
        return f"{start}:{data.hex()}"

    def last_of(self, end, id):
        """The end or the reset of a stream, which is told, or None."""
        half = end.receive[id]
        if half.reset is None and not half.is_at_end():
            return None
        end.tell_end(id)
        return "end" if half.reset is None else f"reset {half.reset}"

    def read_many(self, name, id, most):
        """Several pieces one behind another, at most so many bytes, and whether more follows."""
        return self.read_pieces(name, id, int(most), int(most))

    def read_lent(self, name, id, slices):
        """Pieces one behind another, at most so many, and whether more follows."""
        return self.read_pieces(name, id, int(slices), GREATEST_READ)

    def read_pieces(self, name, id, room, most):
        end, id = self.ends[name], int(id)
        half = end.receive.get(id)
        why_not = self.unreadable(end, half, True, room)
        if why_not:
            return why_not
        start, run = self.run_at(half, True)
        *chunks, last = self.hint.split(" ")
        said = len(chunks[0].partition(":")[2]) // 2 if chunks else 0
        is_cut = last == "more" and 0 < said <= min(run, most)
        given = [self.give(end, id, start, said if is_cut else min(run, most), True)] if run else []
        last = "more" if is_cut or run > most else self.last_of(end, id) or "none"
        end.note_read(id)
        return " ".join([*given, last])
