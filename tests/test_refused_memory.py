"""`streampair` with each memory request refused in turn: a part of what `tools/refused_memory` tries by hand."""
import contextlib
import glob
import importlib.util
import io
import os
import subprocess
import tempfile
import unittest

from test_programs import ROOT, need, program

TOOL = os.path.join(ROOT, "tools", "refused_memory")

# Each of these seeds takes some 500 runs.
SEEDS = range(1, 16)


def setUpModule():
    need(__name__, "streampair")


def load():
    """The script of the tool, as a module."""
    spec = importlib.util.spec_from_file_location("refused_memory", os.path.join(TOOL, "sessions.py"))
    made = importlib.util.module_from_spec(spec)
    spec.loader.exec_module(made)
    return made


def link(to):
    """Links the program with an allocator that refuses one request, by its number."""
    page = subprocess.run(["rt", "doc"], stdout=subprocess.PIPE, check=True, text=True).stdout.strip()
    library = os.path.join(os.path.dirname(page), "c", "libos_c.a")
    allocator = os.path.join(TOOL, "allocator.c")
    subprocess.run(["cc", "-O1", "-o", to, allocator, program("streampair") + ".o", library], check=True)


class RefusedMemory(unittest.TestCase):
    def setUp(self):
        if not os.path.isfile(program("streampair") + ".o"):
            # (a gate that reuses the proof of an earlier run keeps only the program)
            self.skipTest("the object of streampair is not there: `rt run < stdin` in crates/streampair makes it")

    def test_a_refused_request_changes_nothing_but_its_step(self):
        stored = os.path.join(ROOT, "crates", "streampair", "stdin")
        files = [stored, *sorted(glob.glob(os.path.join(TOOL, "*.txt")))]
        with tempfile.TemporaryDirectory() as folder, contextlib.redirect_stderr(io.StringIO()):
            refusing = os.path.join(folder, "refused")
            link(refusing)
            check = load().tried(refusing, SEEDS, files)
        self.assertEqual(check.wrong, [])
        self.assertEqual(check.tally["sessions"], len(files) + 2 + len(SEEDS))
        for name in ("in a step", "at the second line", "at the third line", "outside a step", "CompactionMemory", "in a step that can do without"):
            self.assertGreater(check.tally[name], 0, name)
        for verb in ("emit", "emit-part", "read", "write", "deliver", "deliver-all", "chunks", "open", "retry", "early-accept"):
            self.assertGreater(check.tally[f"in {verb}"], 0, verb)
        self.assertGreater(check.tally["steps whose requests were counted"], 1000)


if __name__ == "__main__":
    unittest.main()
