"""The boundary between the library, the header and the crates for Rust: they say the same, and each wrong form of one is refused.

`tests/boundary_mutants` has the wrong forms, a file for each: `file`, and the text that is replaced (`old`) by another (`new`), or two names
(`swap`) that change places in the declaration that begins as `within` says. A wrong header is compared with the exports. A wrong layer in
Rust is compiled, and then its tests fail: those of `tests/boundary.rs` over a stand-in for the library, or the examples of the
documentation whose name is `check`."""
import concurrent.futures
import glob
import os
import re
import shutil
import subprocess
import tempfile
import unittest

import boundary
from test_c import ARCHIVE, LIB, ROOT, WARNINGS, run, tool

MUTANTS = os.path.join(ROOT, "tests", "boundary_mutants")


class Edit:
    """A wrong form of a file."""

    def __init__(self, path):
        self.name = os.path.splitext(os.path.basename(path))[0]
        lines = {}
        with open(path, encoding="utf-8") as file:
            for line in file.read().splitlines():
                key, _, value = line.partition(": ")
                lines.setdefault(key.rstrip(":"), []).append(value)
        self.words = {key: "\n".join(values) for key, values in lines.items()}
        self.file = self.words["file"]

    def apply(self, text):
        if "swap" in self.words:
            return self.swapped(text, *self.words["swap"].split())
        old, new = self.words["old"], self.words.get("new", "")
        if text.count(old) != 1:
            raise AssertionError(f"{self.name}: its text stands {text.count(old)} times in {self.file}")
        return text.replace(old, new)

    def swapped(self, text, one, other):
        """Two names change places in one declaration."""
        start = text.index(self.words["within"])
        end = min(at for at in (text.find("\n}", start), text.find(");", start)) if at > 0)
        part = re.sub(rf"\b(?:{one}|{other})\b", lambda it: other if it.group() == one else one, text[start:end])
        if part == text[start:end]:
            raise AssertionError(f"{self.name}: neither name is there")
        return text[:start] + part + text[end:]


def edits(kind):
    found = [Edit(path) for path in sorted(glob.glob(os.path.join(MUTANTS, kind, "*.edit")))]
    if not found:
        raise AssertionError(f"{MUTANTS}/{kind} has no edits")
    return found


class Declarations(unittest.TestCase):
    def test_header_crate_and_library_say_the_same(self):
        self.assertEqual(boundary.problems(boundary.texts()), [])

    def test_a_compiler_lays_structs_out_as_the_crate_does(self):
        checks = boundary.layout_in_c(boundary.texts()[boundary.BINDINGS])
        self.assertGreater(checks.count("CHECK(offsetof"), 45)
        with tempfile.TemporaryDirectory() as room:
            for ending, compilers in (("c", ("gcc", "clang")), ("cc", ("g++", "clang++"))):
                source = os.path.join(room, f"layout.{ending}")
                with open(source, "w", encoding="utf-8") as file:
                    file.write(checks)
                for compiler in compilers:
                    standard = "-std=c11" if ending == "c" else "-std=c++11"
                    run(tool(compiler), standard, *WARNINGS, f"-I{ROOT}/include", "-fsyntax-only", source)

    def test_each_wrong_declaration_is_refused(self):
        files = boundary.texts()
        for edit in edits("header"):
            with self.subTest(edit.name):
                wrong = {**files, edit.file: edit.apply(files[edit.file])}
                if edit.file == boundary.HEADER:
                    header = boundary.generate.Header(wrong[boundary.HEADER])
                    wrong[boundary.BINDINGS] = boundary.generate.formatted(boundary.generate.bindings(header))
                self.assertNotEqual(boundary.problems(wrong), [])


class Layer:
    """A copy of the crates, in which wrong forms are tested one after another."""

    def __init__(self, room, number):
        self.root = os.path.join(room, str(number))
        kept = shutil.ignore_patterns("target")
        shutil.copytree(os.path.join(ROOT, "bindings"), os.path.join(self.root, "bindings"), ignore=kept)
        self.env = {**os.environ, "QUIC_STREAMS_LIB_DIR": LIB, "CARGO_TARGET_DIR": os.path.join(self.root, "target")}

    def test(self, check):
        """Runs a check, and returns what it printed."""
        what = ["--test", "boundary"] if check == "boundary" else ["--doc", "--", check]
        words = [tool("cargo"), "test", "--offline", "--quiet", *what]
        folder = os.path.join(self.root, "bindings", "rust")
        ran = subprocess.run(words, cwd=folder, env=self.env, stdout=subprocess.PIPE, stderr=subprocess.STDOUT, errors="replace", timeout=300)
        return ran.stdout

    def is_refused(self, edit):
        """Whether the wrong form compiles and its check fails."""
        path = os.path.join(self.root, edit.file)
        with open(path, encoding="utf-8") as file:
            right = file.read()
        with open(path, "w", encoding="utf-8") as file:
            file.write(edit.apply(right))
        try:
            said = self.test(edit.words["check"])
        finally:
            with open(path, "w", encoding="utf-8") as file:
                file.write(right)
        does_compile = "could not compile" not in said
        return does_compile and ("test result: FAILED" in said or "(signal: " in said)


class RustLayer(unittest.TestCase):
    def test_each_wrong_layer_is_refused(self):
        wrong = edits("rust")
        if not os.path.isfile(ARCHIVE):
            # The examples of the documentation need the library.
            self.assertFalse(os.environ.get("IN_GATE"), f"{ARCHIVE} is not there")
            wrong = [edit for edit in wrong if edit.words["check"] == "boundary"]
        count = min(4, os.cpu_count() or 1)
        with tempfile.TemporaryDirectory(prefix="quic-streams-") as room:
            shares = [(Layer(room, number), wrong[number::count]) for number in range(count)]
            with concurrent.futures.ThreadPoolExecutor(count) as pool:
                answers = [it for found in pool.map(self.passing, shares) for it in found]
        self.assertEqual(answers, [])

    @staticmethod
    def passing(share):
        """Those that pass, and the right form where it does not."""
        layer, wrong = share
        checks = sorted({edit.words["check"] for edit in wrong})
        answers = [f"the right form fails {check}" for check in checks if "test result: ok" not in layer.test(check)]
        return answers + [edit.name for edit in wrong if not layer.is_refused(edit)]


if __name__ == "__main__":
    unittest.main()
