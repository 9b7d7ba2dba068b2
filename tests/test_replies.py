"""Sessions of `streampair` with known replies, as `tests/sessions/*.txt` have them.

A session begins at a line `[NAME]`. Each of its lines is a line of input, a bar, and the reply. A repeated byte is
written once, as `61*30` for thirty times `61`. A session that does not begin with `config a` has the two lines of
CONFIGS before it. Lines that begin with `#` are comments.

Beside `settle` stands what its steps tell each end of each stream: the bytes that it read, and that the stream ended, was
reset, finished or stopped, each as often as it was told. Such is `a 2 finished, b 2 read 6869 end, b 6 reset 7`, or `-`.
Where it takes no step, its refusal stands there. Between two settlings another line stands.
"""
import collections
import glob
import os
import re
import unittest

from test_programs import need, run

FOLDER = os.path.join(os.path.dirname(os.path.abspath(__file__)), "sessions")
CONFIGS = [("config a 4 4 1000 1000 1000", "ok"), ("config b 4 4 1000 1000 1000", "ok")]
MANY = re.compile(r"([0-9a-f]{2})\*(\d+)")
# How the steps of a settling begin; no reply begins so.
SETTLING = {"ack", "lose", "accept", "read", "poll", "emit", "deliver"}
CHUNK = re.compile(r"\b\d+:([0-9a-f]+) ")
LAST = re.compile(r"\b(end|reset \d+) (?:transmit|quiet)$")
EVENT = re.compile(r"(finished|stopped) (\d+)((?: \d+)?)")


def setUpModule():
    need(__name__, "streampair")


def in_full(text):
    return MANY.sub(lambda many: many[1] * int(many[2]), text)


def sessions_of(path):
    """The sessions of a file: for each name, the lines with their replies."""
    found = {}
    with open(path) as it:
        for number, text in enumerate(it, 1):
            text = text.rstrip("\n")
            if not text or text.startswith("#"):
                continue
            if text.startswith("["):
                lines = found.setdefault(text.strip("[]"), [])
                if lines:
                    raise ValueError(f"{path}:{number}: a second session of this name")
                continue
            line, bar, reply = text.partition(" | ")
            if not bar:
                raise ValueError(f"{path}:{number}: no reply")
            lines.append((in_full(line.rstrip()), in_full(reply)))
    return found


def all_sessions():
    """All sessions, by names such as `writing.an_end_comes_alone`."""
    found = {}
    for path in sorted(glob.glob(os.path.join(FOLDER, "*.txt"))):
        topic = os.path.basename(path)[: -len(".txt")]
        for name, lines in sessions_of(path).items():
            if not lines[0][0].startswith("config a "):
                lines = CONFIGS + lines
            found[f"{topic}.{name}"] = lines
    return found


def told_by(step, reply):
    """What a step of a settling tells: to which end, of which stream, the bytes that were read, and words."""
    verb, end, *fields = step.split(" ")
    if verb == "read":
        return end, int(fields[0]), "".join(CHUNK.findall(reply)), LAST.findall(reply)
    event = EVENT.fullmatch(reply)
    if event:
        return end, int(event[2]), "", [event[1] + event[3]]
    return None


def told_in(steps):
    """What the steps of a settling tell, as it stands beside `settle`."""
    contents, words = collections.defaultdict(str), collections.defaultdict(list)
    for end, id, content, more in filter(None, (told_by(*it) for it in steps)):
        contents[end, id] += content
        words[end, id] += more
    texts = []
    for end, id in sorted(contents):
        read = contents[end, id]
        said = (["read", read] if read else []) + words[end, id]
        if said:
            texts.append(" ".join([end, str(id), *said]))
    return ", ".join(texts) or "-"


def taken_by_settle(printed):
    """Takes the steps of a settling, each with its reply, from the front of what was printed."""
    steps = []
    while printed and printed[0].split(" ")[0] in SETTLING:
        steps.append((printed.popleft(), printed.popleft()))
    return steps


def replies_to(lines, written):
    """The reply to each line, for `settle` what its steps tell; then whatever was written behind the last."""
    printed, replies = collections.deque(written.splitlines()), []
    for line in lines:
        steps = taken_by_settle(printed) if line == "settle" else []
        if steps:
            replies.append(told_in(steps))
        elif printed:
            replies.append(printed.popleft())
    return [*replies, *printed]


class Replies(unittest.TestCase):
    def test_each_line_is_answered_as_it_stands_beside_it(self):
        sessions = all_sessions()
        self.assertGreater(len(sessions), 40)
        for name, lines in sessions.items():
            with self.subTest(name):
                written, status = run("streampair", "".join(f"{line}\n" for line, _ in lines))
                replies = replies_to([line for line, _ in lines], written)
                for number, ((line, wanted), reply) in enumerate(zip(lines, replies), 1):
                    self.assertTrue(reply == wanted, f"line {number}, {line[:200]}: {reply[:400]}, wanted {wanted[:400]}")
                self.assertEqual((len(replies), status), (len(lines), 0))


if __name__ == "__main__":
    unittest.main()
