"""Frames with their bytes: DATAGRAM beside those of `frames` (RFC 9221 section 4), where each frame of a payload begins, and how each is
encoded (RFC 9000 sections 16 and 19)."""
import collections

from frames import (
    CONTROL_FRAMES,
    MAX_STREAMS,
    Decoder,
    MaxStreams,
    Stream,
)

Datagram = collections.namedtuple("Datagram", "data")

GREATEST_NUMBER = 2**62 - 1
# The types of frames that the library processes, and of those that it skips: PADDING, PING, STREAMS_BLOCKED.
OWN_TYPES = {*CONTROL_FRAMES, *MAX_STREAMS, *range(0x08, 0x10), 0x30, 0x31}
SKIPPED_TYPES = {0x00, 0x01, 0x16, 0x17}
TYPES = {kind: number for number, kind in CONTROL_FRAMES.items()}


class FrameDecoder(Decoder):
    """Decodes the frames of a payload that the library wrote, datagrams too, each with a length."""

    def frame(self):
        if self.data[self.at] == 0x31:
            self.at += 1
            return Datagram(self.take(self.number()))
        return super().frame()

    def placed(self):
        """The frames, each with the offset at which it begins."""
        found = []
        while self.at < len(self.data):
            found.append((self.at, self.frame()))
        return found


def is_well_formed(data):
    """Whether bytes are frames of the library, and nothing else."""
    try:
        FrameDecoder(data).placed()
    except (AssertionError, IndexError):
        return False
    return True


def size_of(number):
    """How many bytes the shortest encoding of a number has (RFC 9000 section 16)."""
    return next(size for size in (1, 2, 4, 8) if number < 1 << (8 * size - 2))


def encode_number(number):
    size = size_of(number)
    return (number | (size.bit_length() - 1) << (8 * size - 2)).to_bytes(size, "big")


def encode_stream(frame):
    """The bytes of a STREAM frame, whose offset is left out where it is 0 (RFC 9000 section 19.8)."""
    kind = 0x08 | (4 if frame.offset else 0) | (2 if frame.has_length else 0) | (1 if frame.fin else 0)
    fields = [frame.id, *([frame.offset] if frame.offset else []), *([len(frame.data)] if frame.has_length else [])]
    return bytes([kind]) + b"".join(map(encode_number, fields)) + frame.data


def encode(frame):
    """The bytes of a frame."""
    if isinstance(frame, Stream):
        return encode_stream(frame)
    if isinstance(frame, Datagram):
        return b"\x31" + encode_number(len(frame.data)) + frame.data
    if isinstance(frame, MaxStreams):
        kind = next(kind for kind, direction in MAX_STREAMS.items() if direction == frame.direction)
        return bytes([kind]) + encode_number(frame.count)
    return bytes([TYPES[type(frame)]]) + b"".join(map(encode_number, frame))


class Part(collections.namedtuple("Part", "at data index kind")):
    """A part of a composed payload: its offset, its bytes, the index of the frame of the payload that it is or None, and what
    `qs_receive` makes of it: `own`, `skipped`, `other`, or `malformed`."""

    def end(self):
        return self.at + len(self.data)


def kind_of(data):
    if data[0] in SKIPPED_TYPES:
        return "skipped"
    if data[0] in OWN_TYPES:
        return "own" if is_well_formed(data) else "malformed"
    return "other"


def extras_of(field):
    """The frames that a line adds to a payload: for each the index of the frame in front of which it stands, and its bytes."""
    if field == "-":
        return []
    pairs = [it.split(":") for it in field.split(",")]
    return [(int(index), bytes.fromhex(data)) for index, data in pairs]


def compose(frames, extras):
    """The parts of a payload of these encoded frames, with the added ones between them."""
    parts, at = [], 0

    def add(data, index):
        nonlocal at
        parts.append(Part(at, data, index, kind_of(data) if index is None else "own"))
        at += len(data)

    for index in range(len(frames) + 1):
        for place, data in extras:
            if place == index:
                add(data, None)
        if index < len(frames):
            add(frames[index], index)
    return parts
