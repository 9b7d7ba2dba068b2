"""The two halves of a stream, as `pair_model` has them: what one end sends on it, and what it receives (RFC 9000 section 3)."""
import bisect

from frames import check, check_same

UNSENT, SENT, LOST, ACKNOWLEDGED = range(4)
AFTER_LOSS = bytes.maketrans(bytes([SENT]), bytes([LOST]))


class SendHalf:
    """What one end sends on a stream (RFC 9000 section 3.1)."""

    def __init__(self, limit):
        self.limit = limit
        self.written = bytearray()
        # the state of each byte, and the offsets at which pieces of writes end
        self.fates = bytearray()
        self.cuts = [0]
        self.finished = False
        self.end_sent = False
        self.end_acknowledged = False
        self.reset = None
        # how many RESET_STREAM frames have to be sent
        self.resets_due = 0
        self.stopped = None
        self.freed = False

    def is_over(self):
        return self.finished or self.reset is not None

    def is_held_for_data(self):
        return not self.freed and self.reset is None

    def write(self, pieces):
        for piece in filter(None, pieces):
            self.written += piece
            self.cuts.append(len(self.written))
        self.fates.extend(bytes([UNSENT]) * (len(self.written) - len(self.fates)))

    def retained(self):
        """How many bytes are retained: those of the pieces that the acknowledged prefix does not cover wholly."""
        if not self.is_held_for_data():
            return 0
        prefix = len(self.fates) - len(self.fates.lstrip(bytes([ACKNOWLEDGED])))
        return len(self.written) - self.cuts[bisect.bisect_right(self.cuts, prefix) - 1]

    def has_rest(self):
        """Whether bytes or the end have to be sent."""
        if not self.is_held_for_data():
            return False
        end = self.finished and not self.end_sent and not self.end_acknowledged
        return end or UNSENT in self.fates or LOST in self.fates

    def next_offset(self):
        """The lowest offset that is lost or, where none is, the lowest that was never sent."""
        for fate in (LOST, UNSENT):
            if fate in self.fates:
                return self.fates.index(fate)
        return len(self.written)

    def send(self, frame):
        end = frame.offset + len(frame.data)
        check(self.is_held_for_data(), "a frame of a stream that was given up, or is done")
        check(end <= len(self.written), "a frame behind what was written")
        check_same(frame.data, bytes(self.written[frame.offset : end]))
        check_same(frame.fin, self.finished and end == len(self.written))
        check_same(frame.offset, self.next_offset())
        check(len(set(self.fates[frame.offset : end])) <= 1, "bytes are sent with others that were not lost")
        self.fates[frame.offset : end] = bytes([SENT]) * len(frame.data)
        self.end_sent = self.end_sent or frame.fin

    def lose(self, frame):
        end = frame.offset + len(frame.data)
        self.fates[frame.offset : end] = self.fates[frame.offset : end].translate(AFTER_LOSS)
        self.end_sent = self.end_sent and not frame.fin

    def acknowledge(self, frame):
        end = frame.offset + len(frame.data)
        self.fates[frame.offset : end] = bytes([ACKNOWLEDGED]) * len(frame.data)
        self.end_acknowledged = self.end_acknowledged or frame.fin

    def send_again(self):
        """All that was sent has to be sent again."""
        self.fates = bytearray([UNSENT]) * len(self.fates)
        self.end_sent = False

    def is_acknowledged(self):
        return self.end_acknowledged and self.fates.count(ACKNOWLEDGED) == len(self.fates)


class ReceiveHalf:
    """What one end receives on a stream (RFC 9000 section 3.2)."""

    def __init__(self, window):
        # the last limit that was announced
        self.limit_sent = window
        # for each offset, whether its byte arrived, and whether it was read
        self.arrived = bytearray()
        self.given = bytearray()
        self.highest = 0
        self.final_size = None
        self.reset = None
        self.read = 0
        # how many bytes ordered reads gave
        self.ordered = 0
        self.unordered = False
        self.stop = None
        # how many STOP_SENDING frames have to be sent
        self.stops_due = 0
        # whether the end or the reset was told
        self.told = False

    def is_closed(self):
        return self.stop is not None or self.told

    def is_freed(self):
        return self.told or self.stop is not None and self.final_size is not None

    def goes_on(self):
        """Whether more may come, which is read."""
        return self.final_size is None and not self.is_closed()

    def arrive(self, offset, end):
        more = bytes(max(end - len(self.arrived), 0))
        self.arrived += more
        self.given += more
        self.arrived[offset:end] = b"\1" * (end - offset)

    def give(self, offset, data, ordered, written):
        end = offset + len(data)
        check_same(data, bytes(written[offset:end]))
        check(0 not in self.arrived[offset:end] and end <= len(self.arrived), "bytes are read that did not come")
        check(1 not in self.given[offset:end], "bytes are read twice")
        if ordered:
            check_same(offset, self.ordered)
            self.ordered = end
        self.given[offset:end] = b"\1" * len(data)
        self.read += len(data)

    def is_at_end(self):
        return self.final_size is not None and self.given.count(1) == self.final_size

    def has_more(self, ordered):
        """Whether there is a byte to read next."""
        if ordered:
            return self.ordered < len(self.arrived) and self.arrived[self.ordered] == 1
        return self.arrived.count(1) > self.given.count(1)
