"""What one end of a session has to send, as `session_end` has it: control frames, turns of streams, and the payload that is written."""
from frame_bytes import encode
from frames import DataBlocked, MaxData, MaxStreamData, MaxStreams, ResetStream, StopSending, StreamDataBlocked

# The greatest length of each control frame, of which more has to be left in a payload.
GREATEST = {
    ResetStream: 25,
    StopSending: 17,
    MaxData: 9,
    MaxStreamData: 17,
    MaxStreams: 9,
    DataBlocked: 9,
    StreamDataBlocked: 17,
}


class Draft:
    """A payload that is being written, of at most so many bytes."""

    def __init__(self, most):
        self.most = most
        self.data = b""
        self.frames = []

    def has_room(self, bound):
        """Whether more than so many bytes are left."""
        return len(self.data) + bound < self.most

    def put(self, frame):
        self.frames.append((len(self.data), frame))
        self.data += encode(frame)


class Turns:
    """Which stream is next: of the highest priority the one that was queued first, unless one was kept back to go on."""

    def __init__(self):
        self.queued = []
        self.kept = None

    def push(self, id, priority):
        self.queued.append((priority, id))

    def pop(self):
        """The next stream, or None."""
        if self.kept is not None:
            id, self.kept = self.kept, None
            return id
        if not self.queued:
            return None
        first = max(range(len(self.queued)), key=lambda at: (self.queued[at][0], -at))
        return self.queued.pop(first)[1]

    def ids(self):
        return [id for _, id in self.queued] + ([] if self.kept is None else [self.kept])


class Pending:
    """The control frames that are to be sent. Their contents are those of the time at which they are written."""

    def __init__(self):
        self.resets, self.stops = [], []
        self.credit = self.data_blocked = False
        self.stream_limits, self.streams_blocked = [], []
        self.counts = set()

    def add_stream(self, ids, id):
        if id not in ids:
            ids.append(id)

    def add(self, frame):
        """A frame was lost."""
        if isinstance(frame, ResetStream):
            self.resets.append(frame.id)
        elif isinstance(frame, StopSending):
            self.stops.append(frame.id)
        elif isinstance(frame, MaxData):
            self.credit = True
        elif isinstance(frame, MaxStreamData):
            self.add_stream(self.stream_limits, frame.id)
        elif isinstance(frame, MaxStreams):
            self.counts.add(frame.direction)
        elif isinstance(frame, DataBlocked):
            self.data_blocked = True
        elif isinstance(frame, StreamDataBlocked):
            self.add_stream(self.streams_blocked, frame.id)


def take_wished(ids, wishes):
    """Takes one of some ids, which have no order: the first that is wished for, or any."""
    id = next((id for id in wishes if id in ids), ids[0])
    ids.remove(id)
    return id
