"""The limits of an end: those that it gives first, and how many streams the peer may open."""
import collections

# The limits that an end gives first: data of the connection, counts of streams, data of each stream. Of bidirectional streams `local` is
# for those that the end opens itself, and `remote` for the others (RFC 9000 section 18.2)
Limits = collections.namedtuple("Limits", "data bi uni stream_uni stream_local stream_remote")


def limits_of(config):
    unidirectional, bidirectional, _, window, stream_window = config
    return Limits(window, bidirectional, unidirectional, stream_window, stream_window, stream_window)


class Remote:
    """The streams of one direction that the peer may open (RFC 9000 section 4.6)."""

    def __init__(self, count):
        self.permitted = count
        self.permitted_sent = count
        self.concurrent = count
        self.freed = set()
        self.opened = 0
        self.accepted = 0
        self.is_opening_due = False

    def open_up_to(self, index):
        """Opens the streams up to an index. Whether the last of them was not open before."""
        if index < self.opened:
            return False
        self.opened = index + 1
        self.is_opening_due = True
        return True

    def is_count_due(self):
        return self.permitted - self.permitted_sent > self.concurrent // 8

    def set_concurrent(self, count):
        self.concurrent = count
        self.permitted = max(self.permitted, len(self.freed) + count)

    def free(self, id):
        """A stream is over. One more is permitted in its place, where fewer than `concurrent` are left to the peer."""
        if id not in self.freed:
            self.freed.add(id)
            self.permitted += self.permitted - len(self.freed) < self.concurrent
