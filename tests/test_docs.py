"""Whether the pages are right where a program can check it: links lead somewhere; files, names of code and tests that a page
names exist; quotes are as their sources; numbers are those that are counted; sessions print what the page shows."""
import os
import re
import shutil
import subprocess
import sys
import tempfile
import unittest

sys.path.insert(0, os.path.dirname(os.path.abspath(__file__)))
sys.path.insert(0, os.path.join(os.path.dirname(os.path.dirname(os.path.abspath(__file__))), "tools"))
import draw_pictures  # noqa: E402
import list_tests  # noqa: E402
import update_pages  # noqa: E402
from test_programs import ROOT, program, run  # noqa: E402

THIS = os.path.relpath(os.path.abspath(__file__), ROOT)
SUFFIXES = "rt|antt|py|md|svg|c|h|rs|edit|txt|map|cff"
# The pages at the top, beside those of docs/, and the folders with a README.md of their own or a page in docs/.
AT_TOP = ["README.md", "CONTRIBUTING.md", "SECURITY.md", "CHANGELOG.md"]
FOLDERS = ["bindings/rust", "examples", "interop"]
# How many pages there may be beside the changelog, and how long they may be.
MOST_PAGES, MOST_WORDS, MOST_WORDS_OF_A_PAGE, MOST_LINES_OF_README = 20, 22_000, 2_600, 120
# Files that a build makes, that are in the kit, or that are the reader's own.
MADE = re.compile(r"(?:^|/)(?:out|build|c|target)/|lib\w+\.(?:a|so)(?:\.0)?$|my_host\.c$|crates\.svg$")
# Names that are not in this repository: of other programs and packages, and of lines that are typed.
FOREIGN = set(
    "rattle HEX P S N bench quinn slab KIT NOT_REFUSED Event::DatagramReceived frame::Iter Connection "
    "UnknownStream IllegalOrderedRead max_datagram_frame_size initial_max_data host_frame ldconfig NAME crates.svg cargo connection/stream_findings.rs connection/mod.rs assemble_unordered".split()
)
CODE = re.compile(r"`([^`\n]+)`")
PATH = re.compile(rf"[\w./*-]+\.(?:{SUFFIXES})$|(?:crates|docs|tests|tools|bindings|include|examples|interop|packaging)/")
LINK = re.compile(r"\[[^\]]*\]\(([^)\s]+)\)")
NAME = re.compile(r"[A-Za-z_]\w*")


def read(*path):
    with open(os.path.join(ROOT, *path), encoding="utf-8", errors="replace") as file:
        return file.read()


def page_of(folder):
    """The page about a folder, if there is one."""
    names = [f"docs/{os.path.basename(folder)}.md", f"{folder}/README.md"]
    return next((it for it in names if os.path.isfile(os.path.join(ROOT, it))), folder)


def pages():
    """The pages, by their paths."""
    found = [*AT_TOP, *(page_of(it) for it in FOLDERS if page_of(it).startswith(f"{it}/"))]
    found += sorted(f"docs/{name}" for name in os.listdir(os.path.join(ROOT, "docs")) if name.endswith(".md"))
    return {path: read(path) for path in found}


def without_blocks(text):
    """The text of a page without its blocks of code."""
    text = re.sub(r"^ *```.*?^ *```$", "", text, flags=re.M | re.S)
    return re.sub(r"^(?: {4}|\t).*$", "", text, flags=re.M)


def anchors(text):
    """The anchors of a page's headings."""
    heads = re.findall(r"^#+ (.*)$", re.sub(r"^```.*?^```$", "", text, flags=re.M | re.S), flags=re.M)
    return {re.sub(r"[^\w -]", "", head.lower()).replace(" ", "-") for head in heads}


class Code:
    """What the repository has: its files, the words of each crate, and the members of each type."""

    def __init__(self):
        self.crates = re.findall(r"^(\w+)(?: staticlib)?:", read("crates.txt"), flags=re.M)
        tops = [it for it in os.listdir(ROOT) if it not in (".git", "build")]
        self.files = sorted(it for top in tops for it in self.below(top))
        self.texts = {it: read(it) for it in self.files if it.endswith((".rt", ".antt", ".rs"))}
        self.words = {crate: set() for crate in self.crates}
        for path, text in [it for it in self.texts.items() if it[0].startswith("crates/")]:
            words = self.words.setdefault(path.split("/")[1], set())
            words.update(NAME.findall(text), [os.path.splitext(os.path.basename(path))[0]])
        self.clauses = {it for text in self.texts.values() for it in re.findall(r"\bensures\*? (\w+) \{", text)}
        kept = re.compile(r"^(?:tests|tools|include|bindings|examples|interop|packaging|Makefile)")
        others = {word for it in self.files if kept.match(it) and it != THIS for word in NAME.findall(it + " " + read(it))}
        self.all_words = others.union(self.crates, *self.words.values())
        self.members = {}

    def below(self, top):
        if os.path.isfile(os.path.join(ROOT, top)):
            return [top]
        found = [os.path.join(at, it) for at, _, files in os.walk(os.path.join(ROOT, top)) for it in files]
        made = re.compile(r"/(?:target|out|incremental|__pycache__)/")
        return [os.path.relpath(it, ROOT) for it in found if not made.search(it)]

    def defines(self, path, name):
        """Whether a file of definitions has one of this name, or a field."""
        text = self.texts[path]
        return name in HEAD.findall(text) or bool(re.search(rf"^  pub {re.escape(name)} :", text, flags=re.M))

    def has_member(self, owner, member):
        """Whether a type or a trait has a call, a constant, a case or a field of this name."""
        if (owner, member) not in self.members:
            is_owner = re.compile(rf"\b(?:impl|enum|struct|trait|record|data)\b[^\n;]*\b{owner}\b")
            is_member = re.compile(rf"\b(?:fn|const|type|pub) {member}\b|^\s+{member}\b\s*[,({{=:]", re.M)
            found = (is_owner.search(it) and is_member.search(it) for it in self.texts.values() if owner in it and member in it)
            self.members[owner, member] = any(found)
        return self.members[owner, member]


CODES = Code()
TESTS = {re.split(r"::|\.", name)[-1] for _, names in list_tests.places() for name in names}


def is_file(name):
    """Whether a file that a page names exists: by its path from the top, or as the end of a path."""
    if MADE.search(name):
        return True
    ends = re.compile(r"(?:^|/)" + re.escape(name.rstrip("/")).replace(r"\*", "[^/]*") + r"(?:$|/)")
    return any(ends.search(path) for path in CODES.files)


def wrong_links(path, text):
    for target in LINK.findall(without_blocks(text)):
        file, _, anchor = target.partition("#")
        if "://" in file:
            continue
        there = os.path.normpath(os.path.join(os.path.dirname(path), file)) if file else path
        if not os.path.exists(os.path.join(ROOT, there)):
            yield f"link to {target}"
        elif anchor and anchor not in anchors(read(there) if file else text):
            yield f"link to {target}: no such heading"


def wrong_names(path, text):
    """Files and names in a page's `code` that do not exist."""
    for code in CODE.findall(without_blocks(text)):
        if code in FOREIGN or code.split()[0] in FOREIGN:
            continue
        if PATH.match(code):
            if not re.search(r"NAME|CRATE", code) and not is_file(code.split()[0]):
                yield f"`{code}`: no such file"
            continue
        member = re.fullmatch(r"(?:\w+::)*(\w+)::(\w+)(?:\(.*\))?", code)
        if member and member[1] in CODES.words:
            if member[2] not in CODES.words[member[1]]:
                yield f"`{code}` is not there"
        elif member and not CODES.has_member(member[1], member[2]):
            yield f"`{code}`: no such member"
        elif re.fullmatch(r"\w+", code) and re.search(r"[a-z]|^QS_", code) and code not in CODES.all_words:
            yield f"`{code}` is not there"


def wrong_commands(path, text):
    """Files that the lines of a page's blocks run or read, and that do not exist."""
    for line in re.findall(r"^ {4,}(\S.*)$", text, flags=re.M):
        for word in re.findall(rf"(?<![\w/.-])(?:tools|tests|examples|interop|crates|include|\.ci)/[\w./-]*\w", line):
            if not MADE.search(word) and not os.path.exists(os.path.join(ROOT, word)):
                yield f"command with {word}: no such file"


def wrong_compliance(text):
    """Rows of the tables of docs/rfc.md with a status that is none, a definition or a test that is not there."""
    for row in re.findall(r"^\| (.*) \|$", text, flags=re.M):
        cells = [it.strip() for it in f" {row} ".split("|")]
        if len(cells) != 6 or cells[0] == "Section" or set(cells[0]) <= {"-"}:
            continue
        if not re.match(r"met|\*\*(?:host|not met)\*\*", cells[3]):
            yield f"rfc: a status of {cells[3]}"
        if cells[3].startswith("met") and not CODE.search(cells[4]):
            yield f"rfc: {cells[0]} {cells[2]}: met by nothing"
        yield from (f"rfc: no test {name}" for name in CODE.findall(cells[5]) if name not in TESTS)


def faults(path, text):
    found = [*wrong_links(path, text), *wrong_names(path, text), *wrong_commands(path, text)]
    found += update_pages.differing(path, text)
    if path == "docs/rfc.md":
        found += wrong_compliance(text)
    return found


# Numbers that pages say beside those of tools/update_pages.py: a page, the words around the number, and how it is counted.
def numbers():
    sources = {name: read(name) for name in ("tests/test_sessions.py", "tests/test_early.py", "tests/test_settling.py")}
    sessions = {re.search(r"^SESSIONS = (\d+)$", text, flags=re.M)[1] for text in sources.values()}
    rust = next(len(names) for place, names in list_tests.places() if "quinn_proto_findings" in place)
    over_c = next(names for place, names in list_tests.places() if place.startswith("bindings/rust"))
    cases = [it for it in read("tests/quinn_proto_cases.txt").splitlines() if it and not it.startswith("#")]
    return [
        ("docs/testing.md", "{:,} seeded sessions of 200 lines", (int(sessions.pop()),)),
        ("docs/guide.md", "`crates/connection_loop/src/connection.rt`, {} lines", (read("crates/connection_loop/src/connection.rt").count("\n"),)),
        ("docs/testing.md", "of which {} test what is here", (len(cases),)),
        # (of the files, of 200 seeds, and two that are made)
        ("docs/assurance.md", "every allocation of {} sessions", (len(list_tests.below("tools", "refused_memory", "*.txt")) + 1 + 200 + 2,)),
        ("docs/assurance.md", "{} tests in Rust over the C library", (sum(not it.startswith("boundary::") for it in over_c),)),
        ("docs/findings.md", "all {} fail in debug", ({11: "eleven"}.get(rust),)),
        ("README.md", "[found {} faults]", ({11: "eleven"}.get(rust),)),
    ]


# What the C of the guide takes from its host.
HOST = """#include <quic_streams.h>
#include <stdlib.h>
void close_connection(uint64_t code, const uint8_t *reason, size_t len);
int may_send(void);
size_t host_frame(const uint8_t *frame, size_t len);
void send_packet(uint64_t number, const uint8_t *data, size_t len);
void remember(uint64_t number, uint64_t token);
void loop(qs_conn conn, const uint8_t *payload, size_t len, uint8_t *buffer, size_t capacity, uint64_t number);
void loop(qs_conn conn, const uint8_t *payload, size_t len, uint8_t *buffer, size_t capacity, uint64_t number) {
"""
LIBRARY = os.path.join(ROOT, "build", "lib", "libquic_streams.a")


def compiled(text, *more):
    """What a compiler says of a text in C."""
    flags = ["-std=c11", "-Wall", "-Wextra", "-Werror", f"-I{ROOT}/include", "-x", "c", "-"]
    return subprocess.run(["cc", *flags, *more], input=text, stderr=subprocess.PIPE, text=True).stderr


# Other numbers that pages say: the words of the page, and the words of a source that say the same.
STATED = [
    ("README.md", "all 800,000 bytes arrive", "crates/streamsim/stdout", "given 800000 bytes, as written"),
    ("examples/README.md", "432,255 bytes are sent again", "crates/streamsim/stdout", " 432255\n"),
    ("examples/README.md", "one payload in three lost and one in ten late", "crates/streamsim/stdin", "loss 1 in 3"),
    ("docs/assurance.md", "2,000 seeded lists of steps", "crates/quic_assembler_tests/src/tests/replays.rt", "0..2000u64"),
    ("docs/assurance.md", "100 seeded sessions", "tests/test_c.py", "100 seeds"),
    ("docs/assurance.md", "1,000 of them over the C library", "tests/test_c_sessions.py", '"QUIC_STREAMS_SESSIONS", "1000"'),
    ("docs/testing.md", "a million hostile payloads", "tests/c/hostile.c", ": 1000000;"),
    ("docs/security.md", "CI does it for the seeds from 1 to 15", "tests/test_refused_memory.py", "range(1, 16)"),
    ("docs/rules.md", "more than 25 bytes are left", "crates/quic_wire/src/frame.rt", "1 + 8 + 8 + 8"),
    ("docs/rfc.md", "each datagram counted with 32 more", "bindings/rust/tests/datagrams.rs", "counts_32_more_than_its_length"),
]


class Docs(unittest.TestCase):
    def test_pages_name_what_is_there(self):
        for path, text in pages().items():
            with self.subTest(path):
                self.assertEqual(faults(path, text), [])

    def test_each_page_is_reached(self):
        """By links from the README."""
        reached, to_read = set(), ["README.md"]
        while to_read:
            path = to_read.pop()
            if path not in reached and path.endswith(".md"):
                reached.add(path)
                targets = [it.split("#")[0] for it in LINK.findall(read(path)) if "://" not in it]
                there = [os.path.normpath(os.path.join(os.path.dirname(path), it)) for it in targets if it]
                to_read += [page_of(it) if it in FOLDERS else it for it in there]
        self.assertEqual(set(pages()) - reached, set())

    def test_the_pages_are_few_and_short(self):
        words = {path: len(text.split()) for path, text in pages().items()}
        self.assertLessEqual(len(words.keys() - {"CHANGELOG.md"}), MOST_PAGES)
        self.assertLessEqual(sum(words.values()), MOST_WORDS)
        self.assertEqual({path for path, count in words.items() if count > MOST_WORDS_OF_A_PAGE}, set())
        self.assertLessEqual(len(read("README.md").splitlines()), MOST_LINES_OF_README)

    def test_numbers_are_those_that_are_counted(self):
        for path, pattern, counted in numbers():
            with self.subTest(pattern):
                wanted = pattern.format(*counted)
                self.assertTrue(wanted in " ".join(read(path).split()), f"{path} does not say: {wanted}")
        for path, words, source, same in STATED:
            with self.subTest(words):
                self.assertTrue(words in " ".join(read(path).split()), f"{path} does not say: {words}")
                self.assertTrue(same in read(source), f"{source} does not say: {same}")

    def test_the_session_of_the_readme(self):
        """Its lines are those of the file that its command names, and its replies those that the program prints."""
        page = read("README.md")
        name = re.search(r"^    session=\.\./\.\./(\S+)$", page, flags=re.M).group(1)
        block = re.search(r"^    config a .*\n(?:    .*\n)+", page, flags=re.M).group()
        shown = [(line[4:36].rstrip(), line[36:]) for line in block.splitlines()]
        self.assertEqual("".join(f"{line}\n" for line, _ in shown), read(name))
        if os.access(program("streampair"), os.X_OK):
            self.assertEqual(run("streampair", read(name)), ("".join(f"{reply}\n" for _, reply in shown), 0))

    @unittest.skipUnless(shutil.which("cc"), "no C compiler")
    def test_the_c_of_the_guide_compiles(self):
        blocks = re.findall(r"^```c\n(.*?)^```$", read("docs/guide.md"), flags=re.M | re.S)
        programs = [it for it in blocks if it.startswith("#include")]
        parts = "".join(f"{{\n{block}}}\n" for block in blocks if block not in programs)
        self.assertTrue(programs and parts)
        for text in [*programs, HOST + parts + "}\n"]:
            self.assertEqual(compiled(text, "-fsyntax-only"), "")

    @unittest.skipUnless(os.path.isfile(LIBRARY), "the library is not built")
    def test_the_first_program_of_the_guide_prints_hello(self):
        text = re.search(r"^```c\n(#include.*?)^```$", read("docs/guide.md"), flags=re.M | re.S)[1]
        with tempfile.TemporaryDirectory() as folder:
            made = os.path.join(folder, "first")
            self.assertEqual(compiled(text, "-o", made, "-x", "none", LIBRARY), "")
            self.assertEqual(subprocess.run([made], stdout=subprocess.PIPE, text=True).stdout, "hello\n")

    def test_each_finding_has_its_test_and_its_session(self):
        page = read("docs/findings.md")
        named = set(re.findall(r"fn (\w+)\(\) \{", read("tests/quinn_proto_findings.rs"))) & TESTS
        sessions = set(re.findall(r"^\[(\w+)\]$", read("tests/sessions/findings.txt"), flags=re.M))
        self.assertEqual({it for it in named | sessions if f"`{it}`" not in page}, set())

    def test_the_pictures_are_drawn_from_the_sources(self):
        self.assertEqual(draw_pictures.differing(), [])

    def test_each_crate_is_on_the_map(self):
        page = read("docs/architecture.md")
        kept = {it for it in CODES.crates if not it.endswith("_tests")}
        self.assertEqual({it for it in kept if f"`{it}`" not in page}, set())

    def test_a_fault_is_found(self):
        """One wrong line of each kind: each is found."""
        for path, line in WRONG:
            with self.subTest(line):
                self.assertEqual(len(faults(path, line)), 1)


# Wrong lines, each with the page on which it would stand.
WRONG = [
    ("docs/rules.md", "[here](nowhere.md)"),
    ("docs/rules.md", "[here](guide.md#nowhere)"),
    ("docs/rules.md", "`src/nowhere.rt`"),
    ("docs/rules.md", "    python3 tools/nowhere.py"),
    ("docs/rules.md", "`is_nowhere_at_all`"),
    ("docs/rules.md", "`QS_NOWHERE`"),
    ("docs/rules.md", "`quic_wire::encode_nowhere`"),
    ("docs/rules.md", "`Pair::nowhere`"),
    ("docs/theorems.md", "```antt quic_exchange.specs.Headline:Headline\nHeadline = nowhere\n```"),
    ("docs/theorems.md", "```antt quic_exchange.specs.Headline:Nowhere\n```"),
    ("docs/rfc.md", "| 4.1 | MUST | credit | met | `CreditFrom` | `headline` |"),
    ("docs/rfc.md", "| 4.1 | MUST | credit | met | | |"),
    ("docs/rfc.md", "| 4.1 | MUST | credit | perhaps | `CreditFrom` | |"),
    ("README.md", "```rust\nlet nowhere = 1;\n```"),
    ("README.md", "you read 1 definitions (2 lines)"),
]


if __name__ == "__main__":
    unittest.main()
