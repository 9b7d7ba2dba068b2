"""Sessions of `streampair` whose network loses payloads, carries very many of them, or leaves gaps."""
import collections
import random
import unittest

from frames import Decoder, check_same
from pair_model import ENDS, Model, stream_id
from test_programs import need
from test_sessions import Program
from test_streampair import CONFIGS, Sessions, var_int

WIDE = "5000 0 1000000 1000000 1000000"
WIDE_CONFIGS = f"config a {WIDE}\nconfig b {WIDE}\n"


def setUpModule():
    need(__name__, "streampair")


class Limits(Sessions):
    """The server read 40 bytes of a stream, and sent MAX_DATA and MAX_STREAM_DATA, both of 140."""

    NUMBERS = bytes(range(40)).hex()
    LIMITS = "10408c1102408c"
    LINES = (
        "config a 4 4 100 100 100\nconfig b 4 4 100 100 100\n"
        f"open a uni\nwrite a 2 {NUMBERS}\nemit a 100 f\ndeliver 0 0\n"
        "accept b uni\nread b 2 o 100 9\nemit b 100 f\n"
    )
    REPLIES = (
        f"ok\nok\nid 2\nwrote 40\npayload 0 0a0228{NUMBERS}\nok\n"
        f"id 2\n0:{NUMBERS} blocked transmit\npayload 1 {LIMITS}\n"
    )

    def test_lost_limits_go_again(self):
        self.gives(
            self.LINES + "ack 1\nlose 1\nemit b 100 f\ndeliver 2 0\nack 2\ndeliver 2 1\n"
            "ack 2\nack 1\nemit b 100 f\n",
            self.REPLIES + f"refused 3 NotAccepted\nok\npayload 2 {self.LIMITS}\nok\nrefused 3 NotAccepted\nok\n"
            "ok\nrefused 6 AlreadySettled\npayload 3 -\n",
        )

    def test_limits_that_came_permit_more(self):
        # 140 are permitted, of which 40 were sent
        self.gives(
            self.LINES + f"ack 0\ndeliver 1 0\ndeliver 1 1\nwrite a 2 {'07' * 200}\n",
            self.REPLIES + "ok\nok\nok\nwrote 100\n",
        )


class Resets(Sessions):
    """The client wrote two bytes and reset the stream. A payload of 25 bytes has no room for the RESET_STREAM, one of 26 has."""

    RESET = "04020702"
    LINES = CONFIGS + "open a uni\nwrite a 2 6869\nreset a 2 7\nemit a 25 f\nemit a 26 f\n"
    REPLIES = f"ok\nok\nid 2\nwrote 2\nok\npayload 0 -\npayload 1 {RESET}\n"

    def test_a_reset_goes_again_until_it_is_acknowledged(self):
        self.gives(
            self.LINES + "ack 1\ndeliver 1 0\nlose 1\nemit a 100 f\nack 1\nlose 2\nemit a 100 f\n"
            "deliver 3 0\nack 3\nlose 3\nemit a 100 f\n",
            self.REPLIES + f"refused 3 NotAccepted\nok\nok\npayload 2 {self.RESET}\nrefused 6 AlreadySettled\nok\n"
            f"payload 3 {self.RESET}\nok\nok\nrefused 6 AlreadySettled\npayload 4 -\n",
        )

    def test_a_reset_that_came_is_told_with_its_code(self):
        self.gives(
            self.LINES + "deliver 1 0\naccept b uni\nreceived-reset b 2\n",
            self.REPLIES + "ok\nid 2\ncode 7\n",
        )


class ManyFrames(Sessions):
    STREAMS = 5000
    # MAX_STREAMS is due once more than an eighth of them is over
    BEFORE_DUE = STREAMS // 8
    # how many pieces with gaps between them are held, at most
    PIECES = 2048
    WRITTEN = 100_000

    def gives_all(self, steps):
        """Plays pairs of a line and its reply, after the two configs."""
        lines = "".join(f"{line}\n" for line, _ in steps)
        replies = "".join(f"{reply}\n" for _, reply in steps)
        self.gives(WIDE_CONFIGS + lines, "ok\nok\n" + replies)

    def streams(self):
        """The ids of the streams, and the byte that is written on each, in hexadecimal."""
        return [(stream_id("a", "uni", index), f"{index % 256:02x}") for index in range(self.STREAMS)]

    def writers(self):
        for id, byte in self.streams():
            yield "open a uni", f"id {id}"
            yield f"write a {id} {byte}", "wrote 1"
            yield f"finish a {id}", "ok"
        frames = "".join(f"0b{var_int(id)}01{byte}" for id, byte in self.streams())
        yield "emit a 100000 f", f"payload 0 {frames}"

    def network(self):
        for frame in range(self.STREAMS):
            yield "ack 0", "refused 3 NotAccepted"
            yield f"deliver 0 {frame}", "ok"
        yield f"deliver 0 {self.STREAMS}", "refused 2 NoSuchFrame"
        yield "ack 0", "ok"

    def readers(self):
        for index, (id, byte) in enumerate(self.streams()):
            transmit = "quiet" if index < self.BEFORE_DUE else "transmit"
            yield "accept b uni", f"id {id}"
            yield f"read b {id} o 100 9", f"0:{byte} end {transmit}"
            yield "poll a", f"finished {id}"

    def test_five_thousand_frames_of_one_payload_come_across(self):
        self.gives_all([*self.writers(), *self.network(), *self.readers()])

    def small_payloads(self, count):
        """Payloads of one frame without a length, which fills the payload. Returns the offset behind the last."""
        offset = 0
        for number in range(count):
            head = f"0c02{var_int(offset)}" if offset else "0802"
            size = 26 - len(head) // 2
            yield "emit a 26 f", f"payload {number} {head}{'07' * size}"
            offset += size
        return offset

    def too_many_pieces(self, last):
        """As many pieces are held as may be; the payload `last` has one more. Returns the offset behind it."""
        yield "open a uni", "id 2"
        yield f"write a 2 {'07' * self.WRITTEN}", f"wrote {self.WRITTEN}"
        offset = yield from self.small_payloads(last + 1)
        for number in range(1, last, 2):
            yield f"deliver {number} 0", "ok"
        return offset

    def test_too_many_pieces_are_a_fault(self):
        last = 2 * self.PIECES + 1
        self.gives_all(
            [
                *self.too_many_pieces(last),
                (f"deliver {last} 0", "error INTERNAL_ERROR"),
                (f"ack {last}", "refused 3 NotAccepted"),
            ]
        )

    def whole_payloads(self, last):
        """Payloads that are handed in whole: one whose only frame is rejected, and one whose first of two is accepted."""
        offset = yield from self.too_many_pieces(last)
        yield f"deliver-all {last}", "accepted 0 INTERNAL_ERROR"
        yield "open a uni", "id 6"
        yield "priority a 6 1", "ok"
        yield "write a 6 61", "wrote 1"
        yield "emit a 40 f", f"payload {last + 1} 0a0601610c02{var_int(offset)}{'07' * 30}"
        yield f"deliver-all {last + 1}", "accepted 1 INTERNAL_ERROR"
        yield f"ack {last + 1}", "refused 3 NotAccepted"
        yield "accept b uni", "id 2"
        yield "accept b uni", "id 6"
        yield "read b 6 o 100 9", "0:61 blocked quiet"

    def test_a_whole_payload_is_accepted_up_to_a_fault(self):
        self.gives_all(list(self.whole_payloads(2 * self.PIECES + 1)))


class Progress:
    """What was done with one stream of the client."""

    LENGTH = 300

    def __init__(self, index):
        self.id = stream_id("a", "uni", index)
        self.content = bytes((17 * index + 3 * offset) % 251 for offset in range(self.LENGTH))
        self.written = 0
        self.finished = False
        self.read = b""
        self.ended = False
        self.told = False

    def is_drained(self):
        return self.read == self.content and self.ended and self.told


class Network:
    """Every third payload is reported lost, though every second of its frames arrives. The others are delivered and acknowledged."""

    # four streams at a time; 90 bytes of each may be unread, and 250 of all together
    CONFIG = (4, 0, 10_000, 250, 90)
    STREAMS = 20

    def __init__(self, running):
        self.running = running
        self.model = Model({name: self.CONFIG for name in ENDS}, collections.Counter())
        self.streams = [Progress(index) for index in range(self.STREAMS)]
        self.opened = 0
        self.accepted = 0
        self.carried = 0
        self.lost = 0
        for name in ENDS:
            check_same(running.reply_to(f"config {name} {' '.join(map(str, self.CONFIG))}"), "ok")

    def take(self, line):
        """The reply to a line, checked by the model."""
        reply = self.running.reply_to(line)
        self.model.take(line, reply)
        return reply

    def write_all(self):
        """The client opens as many streams as it may, and writes as much as it may."""
        for index, stream in enumerate(self.streams):
            if index == self.opened:
                if self.take("open a uni") == "none":
                    return
                self.opened += 1
            if not stream.finished:
                self.write(stream)

    def write(self, stream):
        reply = self.take(f"write a {stream.id} {stream.content[stream.written:].hex()}")
        if reply.startswith("wrote "):
            stream.written += int(reply.split(" ")[1])
        if stream.written == len(stream.content):
            self.take(f"finish a {stream.id}")
            stream.finished = True

    def carry(self, name):
        """Payloads of an end go across, ten at most, until it has nothing more to send."""
        for _ in range(10):
            _, number, field = self.take(f"emit {name} 120 f").split(" ")
            if field == "-":
                return
            self.carry_payload(int(number))

    def carry_payload(self, number):
        self.carried += 1
        is_lost = self.carried % 3 == 0
        self.lost += is_lost
        frames = range(len(self.model.payloads[number].sent))
        for index in frames[1::2] if is_lost else frames:
            self.take(f"deliver {number} {index}")
        self.take(f"lose {number}" if is_lost else f"ack {number}")

    def read_all(self):
        """The server accepts the streams that came, and reads what is there."""
        for index, stream in enumerate(self.streams):
            if index == self.accepted:
                if self.take("accept b uni") == "none":
                    return
                self.accepted += 1
            if not stream.ended:
                self.read(stream)

    def read(self, stream):
        *chunks, last, _ = self.take(f"read b {stream.id} o 50 1000").split(" ")
        stream.read += b"".join(bytes.fromhex(chunk.split(":")[1]) for chunk in chunks)
        stream.ended = last == "end"

    def poll_all(self):
        """The client is told which streams are finished."""
        for event in iter(lambda: self.take("poll a"), "none"):
            for stream in self.streams:
                stream.told |= event == f"finished {stream.id}"

    def is_drained(self):
        return all(stream.is_drained() for stream in self.streams)

    def round(self):
        self.write_all()
        self.carry("a")
        self.read_all()
        self.carry("b")
        self.poll_all()


class Sizes(unittest.TestCase):
    """Streams of as many bytes as each power of two, one less and one more, in payloads of at most 1200 bytes."""

    PAYLOADS = 100

    def test_bytes_of_every_size_come_across(self):
        for power in range(17):
            for size in (2**power - 1, 2**power, 2**power + 1):
                with self.subTest(size), Program() as running:
                    self.carry(running.reply_to, size)

    def gives(self, reply_to, *steps):
        for line, reply in steps:
            self.assertEqual(reply_to(line), reply, line[:100])

    def carry(self, reply_to, size):
        content = random.Random(size).randbytes(size)
        self.gives(
            reply_to,
            ("config a 4 4 100000 100000 100000", "ok"),
            ("config b 4 4 100000 100000 100000", "ok"),
            ("open a uni", "id 2"),
            (f"write a 2 {content.hex() or '-'}", f"wrote {size}"),
            ("finish a 2", "ok"),
        )
        for number in range(self.PAYLOADS):
            _, numbered, payload = reply_to("emit a 1200 f").split(" ")
            self.assertEqual(numbered, str(number))
            if payload == "-":
                break
            self.assertLessEqual(len(payload), 2 * 1200)
            frames = Decoder(bytes.fromhex(payload)).frames()
            self.gives(reply_to, *((f"deliver {number} {index}", "ok") for index in range(len(frames))), (f"ack {number}", "ok"))
        self.gives(reply_to, ("accept b uni", "id 2"))
        *chunks, last, _ = reply_to("read b 2 o 1000000 1000").split(" ")
        self.assertEqual(b"".join(bytes.fromhex(chunk.split(":")[1]) for chunk in chunks), content)
        self.assertEqual(last, "end")
        self.gives(reply_to, ("poll a", "finished 2"), ("poll a", "none"))


class TwentyStreams(unittest.TestCase):
    ROUNDS = 200

    def test_they_are_drained_though_every_third_payload_is_lost(self):
        with Program() as running:
            network = Network(running)
            for _ in range(self.ROUNDS):
                network.round()
                if network.is_drained():
                    break
            self.assertEqual(running.status(), 0)
        for stream in network.streams:
            with self.subTest(stream.id):
                self.assertEqual(stream.read, stream.content)
                self.assertTrue(stream.ended)
                self.assertTrue(stream.told)
        # 6,000 bytes in payloads of 120 are more than 50 payloads
        self.assertGreater(network.lost, 50 // 3)


if __name__ == "__main__":
    unittest.main()
