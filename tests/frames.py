"""Frames of streams and their encoding (RFC 9000 sections 16 and 19), for tests that decode payloads themselves."""
import collections

DIRECTIONS = ("bi", "uni")


def check(holds, why):
    if not holds:
        raise AssertionError(why)


def check_same(found, wanted):
    check(found == wanted, f"found {found}, wanted {wanted}")


Stream = collections.namedtuple("Stream", "id offset data fin has_length")
ResetStream = collections.namedtuple("ResetStream", "id code final_size")
StopSending = collections.namedtuple("StopSending", "id code")
MaxData = collections.namedtuple("MaxData", "limit")
MaxStreamData = collections.namedtuple("MaxStreamData", "id limit")
MaxStreams = collections.namedtuple("MaxStreams", "direction count")
DataBlocked = collections.namedtuple("DataBlocked", "limit")
StreamDataBlocked = collections.namedtuple("StreamDataBlocked", "id limit")
CONTROL_FRAMES = {
    0x04: ResetStream,
    0x05: StopSending,
    0x10: MaxData,
    0x11: MaxStreamData,
    0x14: DataBlocked,
    0x15: StreamDataBlocked,
}
MAX_STREAMS = {0x12: "bi", 0x13: "uni"}
# The length of the longest head of a STREAM frame, and of the longest RESET_STREAM frame. No control frame is longer.
GREATEST_HEAD = 25


class Decoder:
    """Decodes the frames of a payload. Each number has to have its shortest encoding."""

    def __init__(self, data):
        self.data, self.at = data, 0

    def take(self, size):
        check(self.at + size <= len(self.data), "a payload ends within a frame")
        self.at += size
        return self.data[self.at - size : self.at]

    def number(self):
        first = self.take(1)
        size = 1 << (first[0] >> 6)
        number = int.from_bytes(first + self.take(size - 1), "big") % (1 << (8 * size - 2))
        check(size == 1 or number >= 1 << (4 * size - 2), f"{number} is spelled in {size} bytes")
        return number

    def stream(self, kind):
        id = self.number()
        offset = self.number() if kind & 4 else 0
        check(offset or not kind & 4, "an offset of 0 is spelled")
        size = self.number() if kind & 2 else len(self.data) - self.at
        return Stream(id, offset, self.take(size), bool(kind & 1), bool(kind & 2))

    def frame(self):
        kind = self.number()
        if 0x08 <= kind <= 0x0F:
            return self.stream(kind)
        if kind in MAX_STREAMS:
            return MaxStreams(MAX_STREAMS[kind], self.number())
        check(kind in CONTROL_FRAMES, f"a frame of type {kind}")
        frame = CONTROL_FRAMES[kind]
        return frame(*(self.number() for _ in frame._fields))

    def frames(self):
        found = []
        while self.at < len(self.data):
            found.append(self.frame())
        return found
