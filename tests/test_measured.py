"""The check numbers of the measured work (docs/performance.md), against numbers that were reckoned by hand: of each case in
`libstreambench.a`, as `tools/library_of_gate streambench` makes it, and of those that `tests/c/cases.c` does by the C interface."""
import os
import subprocess
import tempfile
import unittest

from test_c import ARCHIVE, ROOT, WARNINGS, Built, run, tool

CASES = os.path.join(ROOT, "crates", "streambench", "out", "libstreambench.a")
SOURCE = os.path.join(ROOT, "tests", "c", "measured.c")


def parts():
    """What the libraries need of the kit."""
    page = subprocess.run(["rt", "doc"], stdout=subprocess.PIPE, check=True, text=True).stdout.strip()
    return os.path.join(os.path.dirname(page), "c", "liblibc_c.a")


def measured(*words):
    """What the program of the tests says, compiled and linked with these words."""
    with tempfile.TemporaryDirectory(prefix="quic-streams-") as room:
        to = os.path.join(room, "measured")
        run(tool(os.environ.get("CC"), "cc", "gcc", "clang"), "-std=c11", *WARNINGS, "-O1", SOURCE, *words, "-o", to)
        return run(to)


class Cases(unittest.TestCase):
    def test_each_case(self):
        if not os.path.isfile(CASES):
            if os.environ.get("IN_GATE"):
                raise AssertionError(f"{CASES} is not there")
            raise unittest.SkipTest(f"{CASES} is not there: `tools/library_of_gate streambench` makes it")
        self.assertIn("6 tests", measured(CASES, parts()))


class ByTheInterface(Built):
    def test_cases_of_two_ends(self):
        cases = os.path.join(ROOT, "tests", "c", "cases.c")
        self.assertIn("2 tests", measured("-DENDS_ALONE", f"-I{ROOT}/include", cases, ARCHIVE))


if __name__ == "__main__":
    unittest.main()
