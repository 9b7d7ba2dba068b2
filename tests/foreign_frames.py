"""Frames that a payload may have beside those that the peer's session wrote: of the host, skipped ones, and ones that are refused."""
from frame_bytes import GREATEST_NUMBER, Datagram, encode
from frames import MaxStreamData, MaxStreams, ResetStream, StopSending, Stream, StreamDataBlocked
from pair_model import OTHER, stream_id

# PADDING, PING and STREAMS_BLOCKED, which are skipped (RFC 9000 sections 19.1, 19.2, 19.14)
SKIPPED = ("00", "0000000000", "01", "1604", "1740ff", "16d000000000000000")
# ACK without and with ECN counts, CRYPTO, NEW_TOKEN, NEW_CONNECTION_ID, RETIRE_CONNECTION_ID, PATH_CHALLENGE, PATH_RESPONSE,
# CONNECTION_CLOSE, HANDSHAKE_DONE, and STREAM and PING whose type is encoded in two bytes (section 12.4)
OTHERS = (
    "0209000004",
    "030900000401000a",
    "0600026869",
    "0702abcd",
    "18010004deadbeef" + "5a" * 16,
    "1902",
    "1a0102030405060708",
    "1b0807060504030201",
    "1c0a0002626f",
    "1d4444026162",
    "1e",
    "400802",
    "4001",
)


def foreign(random):
    """A frame that is none of the library."""
    return bytes.fromhex(random.choice(random.choice((SKIPPED, OTHERS))))


def data_at(id, offset, fin=False):
    return Stream(id, offset, b"x", fin, True)


class Forger:
    """Makes frames that an end has to refuse."""

    def __init__(self, random, model):
        self.random, self.model = random, model

    def anywhere(self, name):
        """A frame that is refused whatever came before it in its payload."""
        peer = OTHER[name]
        many = 2**40 + self.random.randrange(2**40)
        own_uni, far_bi = stream_id(name, "uni", self.random.randrange(3)), stream_id(peer, "bi", many)
        frames = [
            data_at(own_uni, 0),
            data_at(stream_id(name, "bi", many), 0),
            data_at(far_bi, 0),
            ResetStream(own_uni, 3, 0),
            ResetStream(far_bi, 3, 0),
            StopSending(stream_id(peer, "uni", self.random.randrange(3)), 1),
            StopSending(stream_id(name, "uni", many), 1),
            StopSending(far_bi, 1),
            MaxStreamData(stream_id(peer, "uni", 0), 9),
            MaxStreamData(stream_id(name, "bi", many), 9),
            MaxStreamData(far_bi, 9),
            StreamDataBlocked(own_uni, 9),
            StreamDataBlocked(far_bi, 9),
            MaxStreams("bi", 2**60 + 1),
            MaxStreams("uni", 2**62 - 1),
        ]
        window = self.model.datagrams[name].limits.receive
        if window is None or window < 1000:
            frames.append(Datagram(b"d" * (0 if window is None else max(window - 31, 0))))
        return encode(self.random.choice(frames))

    def at_a_limit(self, name):
        """A frame that is refused now, by one byte or one stream, or None."""
        end = self.model.ends[name]
        frames = [data_at(stream_id(OTHER[name], direction, remote.permitted), 0) for direction, remote in end.remote.items()]
        received = sum(half.highest for half in end.receive.values())
        for id, half in end.receive.items():
            offsets = (half.limit_sent, half.highest + end.credit - received)
            frames += [data_at(id, offset) for offset in offsets if offset <= GREATEST_NUMBER]
            if half.highest > 1:
                frames.append(data_at(id, half.highest - 2, fin=True))
            if half.final_size is not None:
                frames.append(data_at(id, half.final_size))
        refused = [it for it in frames if self.model.refusal_of(name, it) is not None]
        return encode(self.random.choice(refused)) if refused else None
