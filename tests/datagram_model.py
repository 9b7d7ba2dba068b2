"""A model of the datagrams of one end (RFC 9221): two queues, each under a window in which a datagram counts its length and 32 bytes."""
import collections

from frame_bytes import Datagram, encode

OVERHEAD = 32
# A datagram is written while a frame with the longest header, of 9 bytes, would begin within the payload.
GREATEST_DATAGRAM_HEAD = 9

# receive: bytes that may be unread, None where datagrams are off; send: bytes that may be pending; most: the length of the longest that the
# peer accepts, None for none
DatagramLimits = collections.namedtuple("DatagramLimits", "receive send most")


def cost(data):
    return len(data) + OVERHEAD


class Datagrams:
    """The datagrams of one end."""

    def __init__(self, limits):
        self.limits = limits
        self.incoming, self.outgoing = collections.deque(), collections.deque()
        # whether `send` found no room, and whether the events are due
        self.is_blocked = False
        self.is_one_due = False
        self.is_room_due = False
        # how often each content was accepted, and was read
        self.accepted, self.given = collections.Counter(), collections.Counter()

    # -- sending

    def send_space(self):
        return max(self.limits.send - sum(map(cost, self.outgoing)) - OVERHEAD, 0)

    def send(self, data, drop):
        receive, send, most = self.limits
        if receive is None or most is None:
            return "off"
        if send < OVERHEAD or len(data) > min(most, send - OVERHEAD):
            return "large"
        while sum(map(cost, self.outgoing)) + cost(data) > send:
            if not drop:
                self.is_blocked = True
                return "blocked"
            self.outgoing.popleft()
        self.outgoing.append(data)
        return "ok"

    def tell_room(self):
        """Room was made among the pending ones."""
        self.is_room_due |= self.is_blocked
        self.is_blocked = False

    def set_most(self, most):
        self.limits = self.limits._replace(most=most)
        kept = [it for it in self.outgoing if most is None or len(it) <= most]
        if len(kept) < len(self.outgoing):
            self.outgoing = collections.deque(kept)
            self.tell_room()

    def write(self, draft):
        """Writes pending datagrams into a payload, the oldest first, while the next one fits."""
        some = False
        while self.outgoing and draft.has_room(GREATEST_DATAGRAM_HEAD):
            frame = Datagram(self.outgoing[0])
            if len(draft.data) + len(encode(frame)) > draft.most:
                break
            self.outgoing.popleft()
            draft.put(frame)
            some = True
        if some:
            self.tell_room()

    # -- receiving

    def is_refused(self, data):
        return self.limits.receive is None or cost(data) > self.limits.receive

    def accept(self, data):
        """Takes a datagram of the peer: the oldest ones go until it fits."""
        self.is_one_due |= not self.incoming
        while sum(map(cost, self.incoming)) + cost(data) > self.limits.receive:
            self.incoming.popleft()
        self.incoming.append(data)
        self.accepted[data] += 1

    def receive(self, room):
        """What the application reads into a buffer with so much room. One that is longer stays the oldest."""
        if not self.incoming:
            return "none"
        if len(self.incoming[0]) > room:
            return f"small {len(self.incoming[0])}"
        data = self.incoming.popleft()
        self.given[data] += 1
        return f"datagram {data.hex() or '-'}"

    def is_honest(self, peer_sent):
        """Whether each datagram that was read was sent by the peer, and read no more often than it was accepted."""
        return all(data in peer_sent and count <= self.accepted[data] for data, count in self.given.items())

    def take_event(self, wanted):
        """The event that is due, or the wanted one where both are; None where none is."""
        due = [name for name, is_due in (("datagram", self.is_one_due), ("datagram-room", self.is_room_due)) if is_due]
        if not due:
            return None
        event = wanted if wanted in due else due[0]
        if event == "datagram":
            self.is_one_due = False
        else:
            self.is_room_due = False
        return event
