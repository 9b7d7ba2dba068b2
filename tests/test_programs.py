"""Whole runs of the programs, as `rt ci` builds them in `crates/NAME/out/NAME`: what each writes for an input, and its
status."""
import os
import subprocess
import sys
import unittest

ROOT = os.path.dirname(os.path.dirname(os.path.abspath(__file__)))


def program(name):
    return os.path.join(ROOT, "crates", name, "out", name)


def need(module, *names):
    """Skips the tests of a module, with one line, where a program is not built. In the gate this is a failure, and the
    line ends the run."""
    for name in names:
        if not os.access(program(name), os.X_OK):
            line = f"{module}: not run, since the program is not built: `rt run < stdin` in crates/{name} builds it"
            if os.environ.get("IN_GATE"):
                sys.exit(f"\n{line} (FAILED)")
            print(f"\n{line}", file=sys.stderr)
            raise unittest.SkipTest(line)


def setUpModule():
    need(__name__, "connection_loop", "message_queue", "streamsim", "hostile", "streampair")


def run(name, given):
    """Runs a program on an input, and returns what it writes and its status."""
    given = given if isinstance(given, bytes) else given.encode()
    ran = subprocess.run([program(name)], input=given, stdout=subprocess.PIPE, stderr=subprocess.DEVNULL, timeout=60)
    return ran.stdout.decode(), ran.returncode


class ConnectionLoop(unittest.TestCase):
    def gives(self, given, last, status):
        written, ended = run("connection_loop", given)
        self.assertEqual(ended, status, given)
        self.assertTrue(written.endswith(last), given)

    def test_a_line_that_names_no_payload_is_malformed(self):
        for line in ["lose", "lose ", "lose one", "lose -1", "lose 1 ", "keep 1", "", "lose 18446744073709551616"]:
            self.gives(f"{line}\n", "malformed 1\n", 2)
        self.gives("lose 1\nlose 2\nlose x", "malformed 3\n", 2)

    def test_a_payload_that_was_never_sent_is_named(self):
        self.gives("lose 99\nlose 1", "whole\nunsent 99\n", 3)

    def test_the_text_comes_whole_whatever_is_lost(self):
        self.gives("", "the text came whole\n", 0)
        for first in range(7):
            for second in range(7):
                self.gives(f"lose {first}\nlose {second}\n", "the text came whole\n", 0)


class MessageQueue(unittest.TestCase):
    MESSAGES = (
        "stream 0\nstream 5\nstream 9\n"
        "message 0 The nightly report has three parts, and each has to come whole before it is read.\n"
        "message 1 Disk three is slow.\nmessage 2 Disk three failed.\nmessage 1 Disk three is gone.\n"
        "message 2 Stop.\n"
    )

    def gives(self, given, last, status):
        written, ended = run("message_queue", given)
        self.assertEqual(ended, status, given)
        self.assertTrue(written.endswith(last), given)

    def test_a_line_out_of_the_grammar_is_malformed(self):
        for line in [
            "",
            "stream",
            "stream ",
            "stream x",
            "stream 1 2",
            "streams 1",
            " stream 1",
            "stream 2147483648",
            "stream -2147483649",
            "message",
            "message 0",
            "message 3 text",
            "message x text",
            "message -1 text",
            "lose",
            "lose x",
            "lose -1",
            "lose 1 2",
            "lose 18446744073709551616",
        ]:
            self.gives(f"{self.MESSAGES}{line}\nlose 1\n", "malformed 9\n", 2)

    def test_what_is_named_has_limits(self):
        self.gives("message 0 early\nstream 0\n", "malformed 1\n", 2)
        self.gives("lose 1\nlose 2\nlose 1\n", "malformed 3\n", 2)
        streams = "".join(f"stream {priority}\n" for priority in range(16))
        self.gives(f"{streams}message 15 last\n", "whole messages: 1\n", 0)
        self.gives(f"{streams}stream 16\n", "malformed 17\n", 2)

    def test_messages_of_any_length_come(self):
        self.gives("", "whole messages: 0\n", 0)
        self.gives("stream 0\nmessage 0 \n", "message 2 of stream 0: \nwhole messages: 1\n", 0)
        text = "".join(f"{number}," for number in range(300))
        written, status = run("message_queue", f"stream 1\nlose 3\nmessage 0 {text}")
        self.assertEqual(status, 0)
        self.assertIn(f"message 3 of stream 0: {text}\n", written)

    def test_all_come_whole_whatever_is_lost(self):
        self.gives(self.MESSAGES, "\nwhole messages: 5\n", 0)
        for first in range(7):
            for second in range(first + 1, 7):
                self.gives(f"{self.MESSAGES}lose {first}\nlose {second}\n", "\nwhole messages: 5\n", 0)


class Streamsim(unittest.TestCase):
    SETTINGS = "payload 1200\nreceive-window 8000\nstream-window 6000\nsend-window 9000\n"

    def output_of(self, given, last, status):
        written, ended = run("streamsim", given)
        self.assertEqual(ended, status, given)
        self.assertEqual(written.splitlines()[-1], last, given)
        return written

    def test_a_line_of_another_form_is_malformed(self):
        for line in [
            "seed",
            "seed ",
            "seed one",
            "bytes -1",
            "bytes 18446744073709551616",
            "stream-window 4611686018427387904",
            "payload 1200 ",
            "Bytes 1",
            "window 1",
            "loss 3",
            "loss 2 in 3",
            "loss 1 in ",
            "pictures",
            " picture",
            "",
        ]:
            self.output_of(f"picture\n{line}\nseed 2\n", "malformed 2", 2)

    def test_a_line_that_is_no_text_is_malformed(self):
        self.assertEqual(run("streamsim", b"picture\nseed \xff2\n"), ("malformed 2\n", 2))

    def look_at_rows(self, table, most):
        """Checks how many rows there are, and that no count passes another that bounds it."""
        rows = 0
        for line in table.splitlines()[1:]:
            fields = line.split()
            if fields[:1] == ["given"]:
                break
            counts = [int(field) for field in fields]
            self.assertEqual(len(counts), 7, line)
            _, credit, written, sent, acknowledged, given, _ = counts
            self.assertLessEqual(sent, credit, line)
            self.assertLessEqual(sent, written, line)
            self.assertLessEqual(acknowledged, sent, line)
            self.assertLessEqual(given, sent, line)
            rows += 1
        self.assertTrue(1 < rows <= most, rows)

    def test_all_is_given_whatever_is_lost_and_late(self):
        for network in [
            "",
            "loss 1 in 3\n",
            "reorder 1 in 2\n",
            "loss 1 in 2\nreorder 1 in 3\n",
            "payload 60\nloss 1 in 3\n",
        ]:
            for seed in range(1, 4):
                given = f"{self.SETTINGS}{network}seed {seed}\nbytes 30000\n"
                self.look_at_rows(self.output_of(given, "given 30000 bytes, as written", 0), 48)

    def test_a_stream_without_bytes_is_ended(self):
        self.output_of(f"{self.SETTINGS}bytes 0\n", "given 0 bytes, as written", 0)

    def test_what_cannot_come_is_unfinished(self):
        for line, reason in [
            ("payload 25", "a payload has no room for data"),
            ("stream-window 0", "a window is 0"),
            ("receive-window 0", "a window is 0"),
            ("send-window 0", "a window is 0"),
            ("loss 1 in 1", "every payload is lost"),
        ]:
            self.output_of(f"{self.SETTINGS}bytes 50\n{line}\n", f"given 0 bytes, and no more: {reason}", 4)

    def test_the_smallest_payload_and_window_carry_all(self):
        for line in ["payload 26", "stream-window 1", "receive-window 1", "send-window 1"]:
            self.output_of(f"{self.SETTINGS}bytes 50\n{line}\n", "given 50 bytes, as written", 0)

    def test_a_run_without_gain_ends_after_a_thousand_steps(self):
        table = self.output_of("loss 1 in 1\n", "given 0 bytes, and no more: every payload is lost", 4)
        self.assertEqual(table.splitlines()[-2].split()[0], "999")

    def test_nothing_has_to_be_said(self):
        self.output_of("", "given 100000 bytes, as written", 0)
        self.assertEqual(run("streamsim", "loss 1 in 3\n")[1], 0)

    def test_a_picture_has_a_line_and_a_name_for_each_column(self):
        given = f"{self.SETTINGS}bytes 30000\nseed 42\nloss 1 in 3\npicture\n"
        picture = self.output_of(given, "</g></svg>", 0)
        self.assertTrue(picture.startswith("<svg "))
        self.assertIn(" viewBox='0 0 1000 590'", picture)
        title = "30000 bytes of a stream, seed 42, one of 3 payloads lost, none late"
        self.assertIn(f"<title>{title}</title>", picture)
        self.assertIn(f">{title}</text>", picture)
        self.assertIn(">payloads of 1200 bytes; windows: receive 8000, stream 6000, send 9000<", picture)
        self.assertIn(">given 30000 bytes, as written<", picture)
        lines = [line for line in picture.splitlines() if line.startswith("<path fill='none'")]
        self.assertEqual(len(lines), 6)
        self.assertEqual(len({line.split(" d=")[0] for line in lines}), 6)
        for name in ["credit", "written", "sent", "acknowledged", "given", "sent again"]:
            self.assertIn(f">{name}</text>", picture)


class Hostile(unittest.TestCase):
    def test_what_is_no_two_numbers_is_refused(self):
        for given in ["", "1", "1 x", "1 2 3", "-1 2", b"1 \xff", b"\xff\xfe1 2"]:
            self.assertEqual(run("hostile", given), ("a seed and a number of frames are wanted\n", 2), given)


class LineEnds(unittest.TestCase):
    """A carriage return before the line feed, and a plus before a number: `streampair` takes neither, the others take both."""

    def test_they_change_nothing(self):
        for name, given in [
            ("connection_loop", "lose 1\nlose 2\n"),
            ("message_queue", "stream 5\nmessage 0 text\nlose 1\n"),
            ("streamsim", "bytes 3000\nloss 1 in 3\n"),
            ("hostile", "11 100\n"),
        ]:
            plain = run(name, given)
            self.assertEqual(plain[1], 0, name)
            self.assertEqual(run(name, given.replace("\n", "\r\n")), plain, name)
        self.assertEqual(run("connection_loop", "lose +1\n"), run("connection_loop", "lose 1\n"))
        self.assertEqual(run("message_queue", "stream +5\nlose +1\n"), run("message_queue", "stream 5\nlose 1\n"))
        self.assertEqual(run("streamsim", "bytes +3000\n"), run("streamsim", "bytes 3000\n"))
        self.assertEqual(run("hostile", "+11 +100"), run("hostile", "11 100"))

    def test_streampair_takes_neither(self):
        self.assertEqual(run("streampair", "config a 4 4 1000 1000 1000\r\n"), ("malformed 1\n", 2))
        self.assertEqual(run("streampair", "config a 4 4 +1000 1000 1000\n"), ("malformed 1\n", 2))


if __name__ == "__main__":
    unittest.main()
