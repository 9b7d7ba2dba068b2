"""bench/: its page names the workloads that there are, numbers that differ are noticed, and both sides do the same work.

The last is skipped where Debian's package of quinn-proto or the library is not there."""
import contextlib
import io
import os
import re
import shutil
import subprocess
import sys
import tempfile
import types
import unittest

ROOT = os.path.dirname(os.path.dirname(os.path.abspath(__file__)))
BENCH = os.path.join(ROOT, "bench")
sys.path.insert(0, BENCH)

import building  # noqa: E402
import figures  # noqa: E402
import measuring  # noqa: E402


def read(*path):
    with open(os.path.join(BENCH, *path), encoding="utf-8") as file:
        return file.read()


class Page(unittest.TestCase):
    def test_the_table_names_every_workload(self):
        defined = re.findall(r'\b(?:workload|transfer)\("(\w+)"', read("workloads", "src", "table.rs"))
        defined += re.findall(r'Part \{ name: "(\w+)"', read("quinn", "src", "connection", "parts.rs"))
        self.assertGreater(len(defined), 40)
        rows = [line.split("|")[1] for line in read("README.md").splitlines() if line.startswith("| `")]
        named = [name for row in rows for name in re.findall(r"`(\w+)`", row)]
        self.assertEqual(sorted(defined), sorted(named))

    def test_published_letters_are_those_of_the_functions(self):
        """The row of a workload has the letter of the function in Rattle that does its work."""
        linked = dict(re.findall(r'"(\w+)" streambench_case_(\w+)', read("driver", "src", "streambench.rs")))
        published = {}
        for row in [line.split("|") for line in read("README.md").splitlines() if line.startswith("| `")]:
            letters = row[2].replace(",", " ").split()
            published.update(zip(re.findall(r"`(\w+)`", row[1]), letters))
        self.assertEqual(linked, published)


class Differences(unittest.TestCase):
    """What is printed and returned if check numbers differ."""

    def setUp(self):
        self.before = measuring.run
        self.addCleanup(setattr, measuring, "run", self.before)

    def ran(self, numbers, kind="workload", rattle="true"):
        """The status and the lines of a comparison whose implementations print these numbers."""

        def run(words, **_more):
            if words[1] == "list":
                return [[kind, "work", "1", "bytes", rattle, ""]] if words[0] == "bench" else []
            return [numbers[words[4]]]

        measuring.run = run
        asked = types.SimpleNamespace(names=[], size=None)
        with contextlib.redirect_stdout(io.StringIO()) as printed:
            status = figures.check(types.SimpleNamespace(program="bench", parts="parts"), asked)
        return status, printed.getvalue()

    def test_equal_numbers(self):
        same = ["a", "b", "c"]
        status, printed = self.ran({"quinn": same, "lending": same, "copying": same, "rattle": ["d", "e", "c"]})
        self.assertEqual((status, printed), (0, "1 of 1 workloads have equal check numbers\n"))

    def test_each_number_counts(self):
        same = ["a", "b", "c"]
        others = {"lending": ["x", "b", "c"], "copying": ["a", "x", "c"], "rattle": ["a", "b", "x"]}
        for which, numbers in others.items():
            with self.subTest(which):
                taken = {"quinn": same, "lending": same, "copying": same, "rattle": same, which: numbers}
                status, printed = self.ran(taken)
                self.assertEqual((status, printed.splitlines()[0]), (1, "work DIFFERS"))

    def test_a_part_is_compared_with_its_function(self):
        self.assertEqual(self.ran({"quinn": ["a", "b", "c"], "rattle": ["a", "b", "x"]}, kind="part")[0], 1)

    def test_an_edit_that_fits_nowhere_is_refused(self):
        edit = building.Edit("frame.rs", r"\bInvalid\b", "Other")
        self.assertEqual(edit.apply("Invalid"), "Other")
        for text in ("", "Invalid Invalid"):
            with self.assertRaises(SystemExit):
                edit.apply(text)


class Counter(unittest.TestCase):
    def test_it_compiles_without_a_warning_and_counts(self):
        with tempfile.TemporaryDirectory(prefix="bench-") as folder:
            source, program = os.path.join(folder, "program.c"), os.path.join(folder, "program")
            with open(source, "w", encoding="utf-8") as file:
                file.write(PROGRAM)
            words = ["-std=c11", "-O0", "-Wall", "-Wextra", "-Wpedantic", "-Werror"]
            compiler = os.environ.get("CC") or shutil.which("cc") or "gcc"
            subprocess.run([compiler, *words, "-D_DEFAULT_SOURCE", source, os.path.join(BENCH, "heap_counter.c"), "-o", program], check=True)
            self.assertEqual(subprocess.run([program], check=False).returncode, 0)


# A block of 1000 bytes takes 1008 to 1024 of them, a block of 5000 at least 5008.
PROGRAM = """
#include <stdint.h>
#include <stdlib.h>
int64_t heap_now(void);
int64_t heap_peak(void);
int64_t heap_taken(void);
int main(void) {
  int64_t start = heap_now(), taken = heap_taken();
  char *block = malloc(1000);
  if (heap_now() - start < 1008 || heap_now() - start > 1024) return 1;
  block = realloc(block, 5000);
  if (heap_now() - start < 5008 || heap_now() - start > 5032) return 2;
  if (heap_taken() - taken != 2) return 3;
  free(block);
  if (heap_now() != start || heap_peak() - start < 5008 || heap_peak() != start) return 4;
  return 0;
}
"""


@unittest.skipUnless(shutil.which("cargo"), "cargo is not there")
class Workloads(unittest.TestCase):
    def test_sums_and_content(self):
        """The crate of the workloads has no warning, and its tests pass."""
        with tempfile.TemporaryDirectory(prefix="bench-") as folder:
            shutil.copytree(os.path.join(BENCH, "workloads"), folder, dirs_exist_ok=True, ignore=shutil.ignore_patterns("target"))
            for words in (["clippy", "--quiet", "--all-targets", "--", "-D", "warnings"], ["fmt", "--check"], ["test", "--quiet"]):
                ran = subprocess.run(["cargo", *words], cwd=folder, capture_output=True, text=True, timeout=600, check=False)
                self.assertEqual(ran.returncode, 0, ran.stdout + ran.stderr)
        self.assertIn("2 passed", ran.stdout)


class Work(unittest.TestCase):
    def test_both_sides_do_the_same(self):
        library = os.environ.get("QUIC_STREAMS_LIB_DIR") or os.path.join(ROOT, "build", "lib")
        if not os.path.isfile(os.path.join(library, "libquic_streams.a")):
            self.skipTest("libquic_streams.a is not there: `make` makes it")
        if not building.PACKAGE.is_dir() or not shutil.which("cargo"):
            self.skipTest("cargo or Debian's librust-quinn-proto-dev is not there")
        command = [sys.executable, os.path.join(BENCH, "run"), "check"]
        ran = subprocess.run(command, capture_output=True, text=True, timeout=900, check=False)
        self.assertEqual(ran.returncode, 0, ran.stdout + ran.stderr)
        self.assertRegex(ran.stdout, r"^(\d+) of \1 workloads have equal check numbers$")


if __name__ == "__main__":
    unittest.main()
