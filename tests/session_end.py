"""A model of one end of a session: what `pair_model` knows of an end, and beside it which control frames are pending, in which order
streams have their turns, and so the very bytes of the next payload (docs/rules.md; RFC 9000 sections 4, 13.3 and 19)."""
import collections

import frames
from frame_bytes import GREATEST_NUMBER, size_of
from pair_model import End, direction_of, opener_of
from pending_model import GREATEST, Pending, Turns, take_wished

# What is kept free for the length of a STREAM frame.
ROOM_FOR_LENGTH = 8
# Error codes (RFC 9000 section 20.1)
FLOW_CONTROL, STREAM_LIMIT, STREAM_STATE, FINAL_SIZE, FRAME_ENCODING = 3, 4, 5, 6, 7
MOST_STREAMS = 2**60


class SessionEnd(End):
    """One end of a session."""

    # whether the host's words of streams are kept, and streams that are over are told
    tracks = False

    def __init__(self, name, config, limits):
        super().__init__(name, config, limits)
        self.begin_anew()

    def begin_anew(self):
        """Nothing is pending."""
        self.pending, self.turns = Pending(), Turns()
        # the host's word of each stream that it was given and of which it was not told that it is over
        self.users = {}
        self.priorities = collections.Counter()
        # for which limits DATA_BLOCKED and STREAM_DATA_BLOCKED were queued
        self.blocked_at, self.stream_blocked_at = None, {}

    # -- turns of streams

    def is_held(self, id):
        return id in self.send and self.send[id].is_held_for_data()

    def is_due(self, id):
        """Whether bytes or the end of a stream are to be sent."""
        return self.send[id].has_rest()

    def queue(self, id, was_due):
        """Queues a stream that had nothing to send."""
        if not was_due:
            self.turns.push(id, self.priorities[id])

    def can_send_data(self):
        return any(self.is_held(id) for id in self.turns.ids())

    # -- streams that are over

    def know(self, id):
        """The host was given a stream."""
        if self.tracks:
            self.users[id] = 0

    def next_closed(self, hint):
        """That a stream is over. The order between several is not said: it is that of the hint, if that is one of them."""
        over = {f"closed {id} user {user}": id for id, user in self.users.items() if self.is_over(id)}
        if not over:
            return "none"
        event = hint if hint in over else next(iter(over))
        del self.users[over[event]]
        return event

    # -- pending frames

    def queue_counts(self):
        """Queues MAX_STREAMS where it is due."""
        self.pending.counts.update(direction for direction, remote in self.remote.items() if remote.is_count_due())

    def queue_credit(self):
        if self.is_credit_due():
            self.pending.credit = True

    def note_read(self, id):
        """A read is done: limits that rose are to be sent."""
        self.queue_credit()
        if self.is_limit_due(id):
            self.pending.add_stream(self.pending.stream_limits, id)
        self.queue_counts()

    def note_blocked(self, id):
        """A write found the connection or the send window without room."""
        self.block(id)
        if self.limit == self.bytes_written() and self.blocked_at != self.limit:
            self.blocked_at, self.pending.data_blocked = self.limit, True

    def note_stream_blocked(self, id):
        limit = self.send[id].limit
        if self.stream_blocked_at.get(id) != limit:
            self.stream_blocked_at[id] = limit
            self.pending.add_stream(self.pending.streams_blocked, id)

    def is_limit_of_use(self, id):
        return id in self.receive and self.receive[id].goes_on()

    def is_blocked_of_use(self, id):
        half = self.send[id]
        goes_on = not half.freed and not half.is_over() and half.stopped is None
        return goes_on and self.stream_blocked_at.get(id) == half.limit

    def has_pending(self):
        """Whether a control frame is to be sent."""
        it = self.pending
        streams = any(map(self.is_limit_of_use, it.stream_limits)) or any(map(self.is_blocked_of_use, it.streams_blocked))
        data = it.data_blocked and self.blocked_at == self.limit
        return bool(it.resets or it.stops or it.credit or it.counts or data or streams)

    # -- the writers

    def put(self, draft, frame):
        """Writes a frame, which has to be true as well."""
        self.emit(frame)
        draft.put(frame)

    def write_resets(self, draft):
        while self.pending.resets and draft.has_room(GREATEST[frames.ResetStream]):
            half = self.send[id := self.pending.resets.pop()]
            if not half.freed:
                self.put(draft, frames.ResetStream(id, half.reset, len(half.written)))
        while self.pending.stops and draft.has_room(GREATEST[frames.StopSending]):
            id = self.pending.stops.pop()
            self.put(draft, frames.StopSending(id, self.receive[id].stop))

    def write_limits(self, draft, wishes):
        it = self.pending
        if it.credit and draft.has_room(GREATEST[frames.MaxData]):
            it.credit = False
            self.put(draft, frames.MaxData(min(self.credit, GREATEST_NUMBER)))
        while it.stream_limits and draft.has_room(GREATEST[frames.MaxStreamData]):
            id = take_wished(it.stream_limits, wishes[frames.MaxStreamData])
            if self.is_limit_of_use(id):
                self.put(draft, frames.MaxStreamData(id, self.stream_limit(id)))
        for direction in frames.DIRECTIONS:
            if direction in it.counts and draft.has_room(GREATEST[frames.MaxStreams]):
                it.counts.remove(direction)
                self.put(draft, frames.MaxStreams(direction, self.remote[direction].permitted))

    def write_blocked(self, draft, wishes):
        it = self.pending
        if it.data_blocked and draft.has_room(GREATEST[frames.DataBlocked]):
            it.data_blocked = False
            if self.blocked_at == self.limit:
                self.put(draft, frames.DataBlocked(self.limit))
        while it.streams_blocked and draft.has_room(GREATEST[frames.StreamDataBlocked]):
            id = take_wished(it.streams_blocked, wishes[frames.StreamDataBlocked])
            if self.is_blocked_of_use(id):
                self.put(draft, frames.StreamDataBlocked(id, self.send[id].limit))

    def write_control(self, draft, wishes):
        """Writes pending control frames. The wishes say in which order streams come that have none."""
        self.write_resets(draft)
        self.write_limits(draft, wishes)
        self.write_blocked(draft, wishes)

    def next_stream_frame(self, id, room):
        """The next STREAM frame of a stream, with so much room behind the id: the lowest lost range, or what was never sent."""
        half = self.send[id]
        start = half.next_offset()
        fate = half.fates[start : start + 1]
        end = start + len(half.fates[start:]) - len(half.fates[start:].lstrip(fate)) if fate else start
        room -= size_of(start) if start else 0
        has_length = end - start < room
        end = min(end, start + room - (ROOM_FOR_LENGTH if has_length else 0))
        fin = half.finished and end == len(half.written)
        return frames.Stream(id, start, bytes(half.written[start:end]), fin, has_length)

    def write_streams(self, draft, is_fair):
        while draft.has_room(frames.GREATEST_HEAD):
            id = self.turns.pop()
            if id is None:
                return
            if not self.is_held(id):
                continue
            self.put(draft, self.next_stream_frame(id, draft.most - len(draft.data) - 1 - size_of(id)))
            if self.is_due(id) and is_fair:
                self.turns.push(id, self.priorities[id])
            elif self.is_due(id):
                self.turns.kept = id

    # -- reports

    def lose(self, frame):
        if isinstance(frame, frames.Stream):
            if self.is_held(frame.id):
                was_due = self.is_due(frame.id)
                super().lose(frame)
                self.queue(frame.id, was_due)
            return
        super().lose(frame)
        self.pending.add(frame)

    # -- frames of the peer that are refused

    def refusal_of_id(self, id, is_sent_here, is_read_here):
        """Why a frame names a stream that it may not name: one of this end that is not open, or has no such half; one of the peer
        beyond the limit (RFC 9000 sections 4.6 and 19)."""
        is_own, direction = opener_of(id) == self.name, direction_of(id)
        if direction == "uni" and (is_read_here if is_own else is_sent_here):
            return STREAM_STATE
        if is_own:
            return STREAM_STATE if id // 4 >= self.opened[direction] else None
        return STREAM_LIMIT if id // 4 >= self.remote[direction].permitted else None

    def refusal_of_data(self, frame):
        """Why a STREAM frame is refused, if it is (RFC 9000 sections 4.1, 4.5 and 19.8)."""
        half = self.receive.get(frame.id)
        if half is None or half.is_freed() or half.reset is not None:
            return None
        end = frame.offset + len(frame.data)
        if end > GREATEST_NUMBER:
            return FLOW_CONTROL
        size = half.final_size
        is_behind = size is not None and (end > size or frame.fin and end != size)
        if is_behind or frame.fin and end < half.highest:
            return FINAL_SIZE
        received = sum(half.highest for half in self.receive.values())
        is_above = end > half.limit_sent or received + max(end - half.highest, 0) > self.credit
        return FLOW_CONTROL if is_above else None

    def refusal_of(self, frame):
        """The code of the error that a frame of the peer is, or None."""
        if isinstance(frame, (frames.Stream, frames.ResetStream)):
            wrong = self.refusal_of_id(frame.id, is_sent_here=False, is_read_here=True)
            return wrong or (self.refusal_of_data(frame) if isinstance(frame, frames.Stream) else None)
        if isinstance(frame, (frames.StopSending, frames.MaxStreamData)):
            return self.refusal_of_id(frame.id, is_sent_here=True, is_read_here=False)
        if isinstance(frame, frames.StreamDataBlocked):
            is_own_bi = opener_of(frame.id) == self.name and direction_of(frame.id) == "bi"
            return None if is_own_bi else self.refusal_of_id(frame.id, is_sent_here=False, is_read_here=True)
        if isinstance(frame, frames.MaxStreams):
            return FRAME_ENCODING if frame.count > MOST_STREAMS else None
        return None
