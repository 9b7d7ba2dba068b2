"""Whole sessions of `streampair`, as `rt ci` builds it: the replies to lines, and the status."""
import os
import random
import socket
import subprocess
import unittest

from test_programs import need, program, run

CONFIGS = "config a 4 4 1000 1000 1000\nconfig b 4 4 1000 1000 1000\n"


def setUpModule():
    need(__name__, "streampair")


class Sessions(unittest.TestCase):
    def gives(self, lines, replies, status=0):
        written, ended = run("streampair", lines)
        self.assertEqual(written, replies)
        self.assertEqual(ended, status)

    def session_gives(self, lines, replies, status=0):
        """The same after the two configs and their `ok`."""
        self.gives(CONFIGS + lines, "ok\nok\n" + replies, status)


class Configs(Sessions):
    def test_the_first_line_is_the_config_of_a(self):
        self.gives("", "")
        self.gives("config a 4 4 1000 1000 1000\n", "ok\n")
        for line in ["config b 4 4 1000 1000 1000\n", "open a uni\n", "config a 4 4 1000 1000\n"]:
            self.gives(line, "malformed 1\n", 2)
        self.gives("config a 4 4 1 1 1\nconfig a 4 4 1 1 1\n", "ok\nmalformed 2\n", 2)

    def test_the_numbers_of_a_config_have_limits(self):
        for numbers in ["1152921504606846977 4 1 1 1", "4 4 1 4611686018427387904 1", "4 4 1 1 4611686018427387904"]:
            self.gives(f"config a {numbers}\n", "malformed 1\n", 2)
        self.gives("config a 1152921504606846976 4 18446744073709551615 4611686018427387903 1\n", "ok\n")


class Lines(Sessions):
    NO_STEPS = [
        b"opens a uni",
        b"open  a uni",
        b"open a uni ",
        b" open a uni",
        b"open a uni\r",
        b"open c uni",
        b"open a both",
        b"open a",
        b"",
        b"config a 4 4 1000 1000 1000",
        b"write a 2 AA",
        b"write a 2 a",
        b"write a 2 0",
        b"write a 2 ",
        b"write a 2 gg",
        b"write a 02 00",
        b"write a +2 00",
        b"write a 4611686018427387904 00",
        b"chunks a 2 00,,00",
        b"read b 2 o 1 0",
        b"read b 2 o 1 65536",
        b"read b 2 x 1 1",
        b"read b 2 o 18446744073709551616 1",
        b"priority a 2 -0",
        b"priority a 2 2147483648",
        b"priority a 2 -2147483649",
        b"priority a 2 --1",
        b"emit a 30 g",
        b"emit-part a 30 f",
        b"emit-part a 30 f datagrams",
        b"emit-part a 30 g streams",
        b"emit-part c 30 f streams",
        b"emit a 30 f streams",
        b"max-concurrent a uni 1152921504606846977",
        b"deliver 0",
        b"deliver 0 18446744073709551616",
        b"deliver-all",
        b"deliver-all ",
        b"deliver-all a",
        b"deliver-all 00",
        b"deliver-all +0",
        b"deliver-all 0 0",
        b"deliver-all 0 ",
        b"deliver-all  0",
        b" deliver-all 0",
        b"deliver-All 0",
        b"deliver-all 0\r",
        b"deliver-all \xff",
        b"deliver-all 18446744073709551616",
        b"lose",
        b"lose a",
        b"lose 0 0",
        b"ack 00",
        b"ack 18446744073709551616",
        # (a payload is reported whole)
        b"lose-stream 0 0",
        b"ack-stream 0 0",
        b"lose-control 0",
        b"ack-control 0",
        "open a un\u00ef".encode(),
        b"open a un\xff",
        b"early-accept a",
        b"early-accept ",
        b"early-reject 0",
        b"early",
        b"retry a",
        # six numbers, of the client only: counts are at most 2^60, the others below 2^62
        b"early a 1 1 1 1 1",
        b"early a 1 1 1 1 1 1 1",
        b"early a 1 1 1 1 1 1 ",
        b"early b 1 1 1 1 1 1",
        b"early a 4611686018427387904 1 1 1 1 1",
        b"early a 1 1152921504606846977 1 1 1 1",
        b"early a 1 1 1152921504606846977 1 1 1",
        b"early a 1 1 1 4611686018427387904 1 1",
        b"early a 1 1 1 1 4611686018427387904 1",
        b"early a 1 1 1 1 1 4611686018427387904",
        b"early a 01 1 1 1 1 1",
    ]

    def test_lines_out_of_the_grammar_are_malformed(self):
        for line in self.NO_STEPS:
            with self.subTest(line):
                self.gives(CONFIGS.encode() + line + b"\n", "ok\nok\nmalformed 3\n", 2)

    def test_the_last_line_may_lack_its_line_feed(self):
        self.session_gives("open a uni", "id 2\n")

    def test_what_was_answered_stays_before_a_malformed_line(self):
        self.session_gives("open a uni\nopen a uni x\nopen a uni\n", "id 2\nmalformed 4\n", 2)

    def test_the_greatest_numbers_are_taken(self):
        self.session_gives(
            "open a uni\nemit a 18446744073709551615 u\npriority a 2 -2147483648\npriority a 2 2147483647\n"
            "deliver 18446744073709551615 18446744073709551615\nfinish a 4611686018427387903\n",
            "id 2\npayload 0 -\nok\nok\nrefused 1 NoSuchPayload\nrefused 4 UnknownId\n",
        )

    def test_each_refusal_has_its_number_and_name(self):
        self.session_gives(
            "deliver 0 0\nwrite a 2 00\nopen a uni\nwrite a 2 00\nemit a 100 f\ndeliver 0 1\n"
            "lose 1\nack 1\nack 0\nlose 0\nlose 0\nack 0\nread b 2 o 1 1\n",
            "refused 1 NoSuchPayload\nrefused 4 UnknownId\nid 2\nwrote 1\npayload 0 0a020100\n"
            "refused 2 NoSuchFrame\nrefused 1 NoSuchPayload\nrefused 1 NoSuchPayload\nrefused 3 NotAccepted\n"
            "ok\nrefused 6 AlreadySettled\nrefused 6 AlreadySettled\nrefused 4 UnknownId\n",
        )

    def test_a_very_long_line_is_one_step(self):
        self.gives(
            "config a 1 0 1000000 1 1\nconfig b 1 0 1 1000000 1000000\nopen a uni\n"
            f"write a 2 {'5a' * 100_000}\nopen a un{'i' * 100_000}",
            "ok\nok\nid 2\nwrote 100000\nmalformed 5\n",
            2,
        )

    def test_a_line_of_a_million_spaces_is_malformed(self):
        """A line of many fields is refused, and takes no memory for each of them."""
        self.session_gives(" " * 1_000_000 + "\n", "malformed 3\n", 2)


class Early(Sessions):
    LINE = "early a 1 1 1 1 1 1\n"

    def test_the_greatest_numbers_are_remembered(self):
        count, most = 2**60, 2**62 - 1
        self.session_gives(f"early a {most} {count} {count} {most} {most} {most}\n", "ok\n")

    def test_it_is_the_third_line_or_malformed(self):
        self.gives(self.LINE, "malformed 1\n", 2)
        self.gives(CONFIGS[: len(CONFIGS) // 2] + self.LINE, "ok\nmalformed 2\n", 2)
        self.session_gives(self.LINE, "ok\n")
        self.session_gives(self.LINE + self.LINE, "ok\nmalformed 4\n", 2)
        self.session_gives("open a uni\n" + self.LINE, "id 2\nmalformed 4\n", 2)


class Settling(Sessions):
    """`settle` prints the line of each step that it takes, and the reply."""

    EMIT = "18446744073709551615 f"
    READ = "o 18446744073709551615 65535"
    # the steps that accept and read, where no stream is known
    NOTHING = [
        *(f"accept {it}\nnone" for it in ("a bi", "a uni", "b bi", "b uni")),
        *(f"read {it} o 18446744073709551615 65535\nrefused 4 UnknownId" for it in ("a 0", "a 1", "a 3", "b 0", "b 1", "b 2")),
    ]

    def settles(self, lines, replies, steps):
        self.session_gives(lines + "settle\n", replies + "".join(f"{it}\n" for it in steps))

    def test_two_new_ends_have_nothing_to_send(self):
        self.settles("", "", [*self.NOTHING, *self.last(0)])

    def last(self, first):
        """The last steps of a settling: no event, and nothing to send."""
        sent = [f"emit {end} {self.EMIT}\npayload {first + at} -" for at, end in enumerate("ab")]
        return ["poll a\nnone", "poll b\nnone", *sent, *(f"lose {first + at}\nok" for at in (0, 1))]

    def test_a_lost_payload_is_sent_again_and_read(self):
        self.settles(
            "open a uni\nwrite a 2 6869\nfinish a 2\nemit a 100 f\n",
            "id 2\nwrote 2\nok\npayload 0 0b02026869\n",
            [
                "ack 0\nrefused 3 NotAccepted\nlose 0\nok",
                *self.NOTHING,
                "poll a\nnone\npoll b\nnone",
                f"emit a {self.EMIT}\npayload 1 0b02026869\nemit b {self.EMIT}\npayload 2 -",
                "deliver 1 0\nok\ndeliver 1 1\nrefused 2 NoSuchFrame\ndeliver 2 0\nrefused 2 NoSuchFrame",
                "ack 1\nok\nack 2\nok",
                *self.NOTHING[:3],
                "accept b uni\nid 2",
                *self.NOTHING[3:9],
                f"read b 2 {self.READ}\n0:6869 end transmit",
                f"read b 6 {self.READ}\nrefused 4 UnknownId",
                "poll a\nfinished 2\npoll a\nnone\npoll b\nopened uni\npoll b\nnone",
                f"emit a {self.EMIT}\npayload 3 -\nemit b {self.EMIT}\npayload 4 1305",
                "deliver 3 0\nrefused 2 NoSuchFrame\ndeliver 4 0\nok\ndeliver 4 1\nrefused 2 NoSuchFrame",
                "ack 3\nok\nack 4\nok",
                "poll a\navailable uni",
                *self.last(5),
            ],
        )

    def test_the_session_goes_on(self):
        written, status = run("streampair", CONFIGS + "settle\nopen a uni\nsettled\n")
        self.assertTrue(written.endswith("\nid 2\nmalformed 5\n"))
        self.assertEqual(status, 2)

    def test_no_other_line_settles(self):
        for line in ["settle ", " settle", "settle a", "Settle", "settle\r", "settling"]:
            self.session_gives(f"{line}\n", "malformed 3\n", 2)
        self.gives("settle\n", "malformed 1\n", 2)
        self.gives("config a 4 4 1 1 1\nsettle\n", "ok\nmalformed 2\n", 2)


class Streams(Sessions):
    def test_the_sessions_of_the_page_are_served(self):
        self.session_gives(
            "open a uni\nwrite a 2 6869\nfinish a 2\nemit a 100 f\nemit a 100 f\ndeliver 0 0\n"
            "accept b uni\nread b 2 o 100 9\nlose 0\nack 0\nemit a 100 f\nack 2\ndeliver 2 0\n"
            "ack 2\npoll a\nopen b uni\nwrite b 6 00\n",
            "id 2\nwrote 2\nok\npayload 0 0b02026869\npayload 1 -\nok\nid 2\n"
            "0:6869 end transmit\nok\nrefused 6 AlreadySettled\npayload 2 0b02026869\nrefused 3 NotAccepted\nok\nok\n"
            "finished 2\nid 3\nrefused 4 UnknownId\n",
        )
        self.session_gives(
            "open a bi\nwrite a 0 6869\nemit a 100 f\ndeliver 0 0\naccept b bi\nstop b 0 9\n"
            "emit b 100 f\ndeliver 1 0\npoll a\nwrite a 0 6a\nreset a 0 9\nemit a 100 f\n"
            "deliver 2 0\nack 2\n",
            "id 0\nwrote 2\npayload 0 0a00026869\nok\nid 0\nok\npayload 1 050009\nok\n"
            "stopped 0 9\nstopped 9\nok\npayload 2 04000902\nok\nok\n",
        )

    def test_a_stopped_stream_is_given_up(self):
        self.session_gives(
            "open a bi\nwrite a 0 6869\nemit a 100 f\ndeliver 0 0\npoll b\naccept b bi\n"
            "stop b 0 9\nemit b 100 f\ndeliver 1 0\npoll a\nwrite a 0 6a\nreset a 0 9\n"
            "emit a 100 f\nack 2\ndeliver 2 0\nack 2\nwrite a 0 6a\n"
            "lose 1\nemit b 100 f\ndeliver 3 0\n",
            "id 0\nwrote 2\npayload 0 0a00026869\nok\nopened bi\nid 0\nok\npayload 1 050009\n"
            "ok\nstopped 0 9\nstopped 9\nok\npayload 2 04000902\nrefused 3 NotAccepted\nok\n"
            "ok\nclosed\nok\npayload 3 050009\nok\n",
        )

    def test_credit_lets_more_be_written(self):
        self.gives(
            "config a 4 4 1000 1000 1000\nconfig b 4 4 1000 16 8\nopen a uni\n"
            "write a 2 00010203040506070809\nwrite a 2 0809\nemit a 100 f\ndeliver 0 1\n"
            "accept b uni\nread b 2 o 100 9\nemit b 100 f\ndeliver 1 1\npoll a\n"
            "write a 2 0809\ndeliver 1 1\ndeliver 1 0\npoll a\n",
            "ok\nok\nid 2\nwrote 8\nblocked\npayload 0 1502080a02080001020304050607\nok\n"
            "id 2\n0:0001020304050607 blocked transmit\npayload 1 1018110210\nok\n"
            "writable 2\nwrote 2\nok\nok\nnone\n",
        )

    def test_the_end_of_a_stopped_stream_makes_room(self):
        self.session_gives(
            "open a uni\nwrite a 2 68\nemit a 100 f\ndeliver 0 0\naccept b uni\nstop b 2 9\n"
            "finish a 2\nemit a 100 f\ndeliver 1 0\nemit b 100 f\ndeliver 0 1\ndeliver 9 0\n"
            "write b 6 68\n",
            "id 2\nwrote 1\npayload 0 0a020168\nok\nid 2\nok\nok\npayload 1 0f020100\nok\n"
            "payload 2 0502091305\nrefused 2 NoSuchFrame\nrefused 1 NoSuchPayload\n"
            "refused 4 UnknownId\n",
        )

    def test_a_reset_is_told(self):
        self.session_gives(
            "open a uni\npriority a 2 -1\nchunks a 2 68,-,69\nemit a 100 u\ndeliver 0 0\n"
            "accept b uni\nread b 2 u 100 9\nreset a 2 7\nemit a 100 f\ndeliver 1 0\n"
            "received-reset b 2\nmax-concurrent b uni 5\nsend-window a 1000\n"
            "receive-window b 1001\nemit b 100 f\n",
            "id 2\nok\nwrote 2 chunks 3\npayload 0 0a02026869\nok\nid 2\n"
            "0:6869 blocked quiet\nok\npayload 1 04020702\nok\ncode 7\nok\nok\nexpanded\n"
            "payload 2 1043eb1306\n",
        )

    def test_a_frame_needs_its_room(self):
        self.session_gives(
            "open a uni\nwrite a 2 68\nemit a 25 f\nemit a 26 f\n",
            "id 2\nwrote 1\npayload 0 -\npayload 1 0a020168\n",
        )

    def test_a_payload_may_have_one_part_alone(self):
        self.session_gives(
            "open a uni\nopen a uni\nwrite a 2 68\nreset a 6 7\nemit-part a 100 f streams\nemit-part a 100 u control\n"
            "emit-part a 100 f streams\nemit-part a 100 f control\nack 1\ndeliver 1 0\ndeliver 0 0\nack 1\nlose 0\n"
            "emit-part a 100 f control\nemit-part a 3 f streams\nemit a 100 f\n",
            "id 2\nid 6\nwrote 1\nok\npayload 0 0a020168\npayload 1 04060700\n"
            "payload 2 -\npayload 3 -\nrefused 3 NotAccepted\nok\nok\nok\nok\n"
            "payload 4 -\npayload 5 -\npayload 6 0a020168\n",
        )

    def test_an_empty_write_is_sent_as_an_empty_frame(self):
        self.session_gives(
            "open a uni\nwrite a 2 -\nemit a 100 f\nemit a 100 f\n",
            "id 2\nwrote 0\npayload 0 0a0200\npayload 1 -\n",
        )

    def test_limits_block_and_a_finished_stream_is_closed(self):
        self.gives(
            "config a 1 0 1000 1 1\nconfig b 1 0 1 4 3\nopen a uni\nwrite a 2 0001020304\n"
            "write a 2 05\nfinish a 2\nfinish a 2\nwrite a 2 05\nwrite a 2 -\n",
            "ok\nok\nid 2\nwrote 3\nblocked\nok\nclosed\nclosed\nclosed\n",
        )


def var_int(number):
    """A number as a variable-length integer (RFC 9000 section 16), in hexadecimal."""
    if number < 1 << 6:
        return f"{number:02x}"
    if number < 1 << 14:
        return f"{number + 0x4000:04x}"
    return f"{number + 0x8000_0000:08x}"


class LongSessions(Sessions):
    def test_a_session_of_three_hundred_thousand_lines_is_served(self):
        """One byte after the other is written, sent, delivered, read and acknowledged."""
        windows = "4 4 18446744073709551615 4611686018427387903 4611686018427387903"
        lines = [f"config a {windows}\nconfig b {windows}\nopen a uni\n"]
        replies = ["ok\nok\nid 2\n"]
        lines.append("write a 2 00\nemit a 100 f\ndeliver 0 0\naccept b uni\nread b 2 o 1 1\nack 0\n")
        replies.append("wrote 1\npayload 0 0a020100\nok\nid 2\n0:00 more quiet\nok\n")
        for number in range(1, 60_000):
            byte = f"{number % 251:02x}"
            lines.append(f"write a 2 {byte}\nemit a 100 f\ndeliver {number} 0\n")
            replies.append(f"wrote 1\npayload {number} 0e02{var_int(number)}01{byte}\nok\n")
            lines.append(f"read b 2 o 1 1\nack {number}\n")
            replies.append(f"{number}:{byte} more quiet\nok\n")
        self.assertGreater(sum(text.count("\n") for text in lines), 300_000)
        written, status = run("streampair", "".join(lines))
        self.assertTrue(written == "".join(replies))
        self.assertEqual(status, 0)

    def test_a_session_of_a_thousand_lines_is_served(self):
        """With ample memory nothing is refused: writes of each power of two, one less and one more."""
        windows = "4 4 18446744073709551615 4611686018427387903 4611686018427387903"
        lines = [f"config a {windows}\nconfig b {windows}\nopen a uni\n"]
        replies = ["ok\nok\nid 2\n"]
        lines.append("write a 2 -\nemit a 100 f\ndeliver 0 0\naccept b uni\n")
        replies.append("wrote 0\npayload 0 0a0200\nok\nid 2\n")
        seeded, number, offset = random.Random(7), 1, 0
        for turn in range(10):
            for power in range(17):
                size = max((1 << power) + turn % 3 - 1, 1)
                field = seeded.randbytes(size).hex()
                # one write goes across in one frame, is read and acknowledged
                start = "0a02" if offset == 0 else f"0e02{var_int(offset)}"
                lines.append(f"write a 2 {field}\nemit a 100000 f\ndeliver {number} 0\n")
                replies.append(f"wrote {size}\npayload {number} {start}{var_int(size)}{field}\nok\n")
                lines.append(f"read b 2 o 100000 1\nack {number}\npoll a\n")
                replies.append(f"{offset}:{field} more quiet\nok\nnone\n")
                number, offset = number + 1, offset + size
        written, status = run("streampair", "".join(lines))
        self.assertTrue(written == "".join(replies))
        self.assertEqual(status, 0)


class Broken(unittest.TestCase):
    """A reader or a writer that fails ends the session with status 1."""

    def status(self, stdin, stdout):
        given = {"input": stdin} if isinstance(stdin, bytes) else {"stdin": stdin}
        return subprocess.run([program("streampair")], stdout=stdout, timeout=60, **given).returncode

    def test_a_writer_that_fails_ends_the_session(self):
        with open("/dev/full", "wb") as full:
            for given in ["config a 4 4 1 1 1\n", CONFIGS, CONFIGS + "open a uni\n"]:
                self.assertEqual(self.status(given.encode(), full), 1, given)

    def test_a_reader_that_fails_ends_the_session(self):
        folder = os.open(os.path.dirname(os.path.abspath(__file__)), os.O_RDONLY)
        try:
            self.assertEqual(self.status(folder, subprocess.DEVNULL), 1)
        finally:
            os.close(folder)

    def test_what_was_answered_stays_before_a_reader_fails(self):
        peer, stdin = socket.socketpair()
        with stdin, subprocess.Popen([program("streampair")], stdin=stdin, stdout=subprocess.PIPE) as ran:
            peer.sendall(b"config a 4 4 1 1 1\n")
            self.assertEqual(ran.stdout.readline(), b"ok\n")
            # a peer that closes with bytes unread resets the connection
            stdin.sendall(b"unread")
            peer.close()
            self.assertEqual(ran.stdout.read(), b"")
            self.assertEqual(ran.wait(60), 1)


if __name__ == "__main__":
    unittest.main()
