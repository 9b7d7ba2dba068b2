"""The C interface: the programs of `tests/c`, the examples and the crate for Rust, with `libquic_streams.a` as `make` builds it in
`build/lib` (or in the folder that QUIC_STREAMS_LIB_DIR names).

Where `make` did not put the library into that folder, the tests that need it are skipped, with a line that says so; in the gate, which
makes it, they fail. A compiler or a tool that is missing fails the test that needs it."""
import glob
import os
import re
import shutil
import subprocess
import tempfile
import unittest
from random import Random

ROOT = os.path.dirname(os.path.dirname(os.path.abspath(__file__)))
LIB = os.environ.get("QUIC_STREAMS_LIB_DIR") or os.path.join(ROOT, "build", "lib")
ARCHIVE = os.path.join(LIB, "libquic_streams.a")
WARNINGS = ["-Wall", "-Wextra", "-Wpedantic", "-Werror"]
WRAPS = [f"-Wl,--wrap={name}" for name in ("malloc", "realloc", "free")]
REGISTRY = "/usr/share/cargo/registry"  # of Debian's packages
PAYLOADS = os.environ.get("QUIC_STREAMS_PAYLOADS", "1000000")


def tool(*names):
    """The first of these commands that is installed."""
    for name in names:
        if name and shutil.which(name):
            return name
    raise AssertionError(f"none of {', '.join(names)} is there: this test needs it")


def run(*words, **how):
    ran = subprocess.run(words, stdout=subprocess.PIPE, stderr=subprocess.STDOUT, errors="replace", timeout=900, **how)
    if ran.returncode:
        raise AssertionError(f"{' '.join(words)} ended with {ran.returncode}:\n{ran.stdout[-3000:]}")
    return ran.stdout


class Built(unittest.TestCase):
    @classmethod
    def setUpClass(cls):
        if not os.path.isfile(ARCHIVE):
            if os.environ.get("IN_GATE"):
                raise AssertionError(f"{ARCHIVE} is not there")
            raise unittest.SkipTest(f"{ARCHIVE} is not there: `make` proves it and makes it")
        cls.room = tempfile.TemporaryDirectory(prefix="quic-streams-")
        cls.addClassCleanup(cls.room.cleanup)

    def build(self, name, *flags, folder="tests/c", compiler=None):
        """Builds a program of tests/c, and returns its path."""
        to = os.path.join(self.room.name, name + str(abs(hash(flags))))
        compiler = compiler or tool(os.environ.get("CC"), "cc", "gcc", "clang")
        source = os.path.join(ROOT, folder, f"{name}.c")
        words = [compiler, "-std=c11", *WARNINGS, "-g", "-O1", f"-I{ROOT}/include", *flags, source, ARCHIVE, "-o", to]
        run(*words)
        return to


class Header(unittest.TestCase):
    def compiles(self, ending, *words):
        with tempfile.TemporaryDirectory() as room:
            source = os.path.join(room, f"source.{ending}")
            with open(source, "w", encoding="utf-8") as it:
                it.write('#include "quic_streams.h"\nint main(void) { qs_conn c = QS_CONN_INIT; return c.live != 0; }\n')
            run(*words, *WARNINGS, f"-I{ROOT}/include", "-fsyntax-only", source)

    def test_it_is_clean_as_c(self):
        for compiler in ("gcc", "clang"):
            self.compiles("c", tool(compiler), "-std=c11")

    def test_it_is_clean_as_cpp(self):
        for compiler in ("g++", "clang++"):
            self.compiles("cc", tool(compiler), "-std=c++11")


class Programs(Built):
    def test_one_end(self):
        self.assertIn("12 tests", run(self.build("one_end")))

    def test_stopped_streams_and_closed_buffers(self):
        self.assertIn("2 tests", run(self.build("stopped")))

    def test_counters_of_frames_and_lost_bytes(self):
        self.assertIn("3 tests", run(self.build("stats")))

    def test_payloads_with_frames_of_the_host(self):
        self.assertIn("6 tests", run(self.build("other_frames")))

    def test_each_number_at_its_bounds(self):
        self.assertIn("6 tests", run(self.build("bounds")))

    def test_buffers_and_reads_that_lend(self):
        self.assertIn("7 tests", run(self.build("buffers")))

    def test_each_field_and_argument_by_a_number_of_its_own(self):
        self.assertIn("7 tests", run(self.build("distinct")))

    def test_structs_of_older_and_newer_hosts(self):
        self.assertIn("6 tests", run(self.build("words")))

    def test_what_hosts_ask(self):
        self.assertIn("3 tests", run(self.build("hosts")))

    def test_streams_that_are_over(self):
        self.assertIn("8 tests", run(self.build("closed")))

    def test_two_ends(self):
        self.assertIn("100 seeds", run(self.build("two_ends"), "100"))

    def test_each_allocation_refused(self):
        self.assertIn("allocations", run(self.build("failing", *WRAPS)))

    def test_memory_is_used_again(self):
        self.assertIn("9 tests", run(self.build("memory", *WRAPS)))

    def test_hostile_payloads(self):
        self.assertIn(f"{PAYLOADS} payloads", run(self.build("hostile"), PAYLOADS))

    def test_valgrind(self):
        valgrind = [tool("valgrind"), "-q", "--error-exitcode=9", "--leak-check=full", "--errors-for-leak-kinds=all"]
        run(*valgrind, self.build("one_end"))
        run(*valgrind, self.build("stopped"))
        run(*valgrind, self.build("stats"))
        run(*valgrind, self.build("other_frames"))
        run(*valgrind, self.build("bounds"))
        run(*valgrind, self.build("distinct"))
        run(*valgrind, self.build("words"))
        run(*valgrind, self.build("hosts"))
        run(*valgrind, self.build("closed"))
        run(*valgrind, self.build("buffers"))
        run(*valgrind, self.build("two_ends"), "2")
        run(*valgrind, self.build("hostile"), "3000")

    def test_address_sanitizer(self):
        flags = ["-fsanitize=address,undefined", "-fno-sanitize-recover=all"]
        run(self.build("one_end", *flags))
        run(self.build("stopped", *flags))
        run(self.build("stats", *flags))
        run(self.build("other_frames", *flags))
        run(self.build("buffers", *flags))
        run(self.build("distinct", *flags))
        run(self.build("words", *flags))
        run(self.build("hosts", *flags))
        run(self.build("closed", *flags))
        run(self.build("two_ends", *flags), "5")
        run(self.build("hostile", *flags), "50000")

    def feed(self, *harnesses):
        """Runs harnesses of tests/fuzz over some inputs, of bytes in a pattern and of random ones."""
        folder = os.path.join(self.room.name, "seeds")
        os.makedirs(folder, exist_ok=True)
        for seed in range(400):
            random = Random(seed)
            with open(os.path.join(folder, str(seed)), "wb") as it:
                if seed % 2:
                    it.write(bytes((seed * 131 + at * at * 7 + at) % 256 for at in range(600)))
                else:
                    it.write(bytes(random.randrange(256) for _ in range(3000)))
        inputs = [os.path.join(folder, name) for name in sorted(os.listdir(folder))]
        for harness in harnesses:
            run(harness, *inputs)

    def test_the_fuzzing_harness_runs(self):
        self.feed(self.build("two_ends", "-DMAIN", folder="tests/fuzz"))

    def test_the_harness_of_a_hostile_peer_runs(self):
        self.feed(self.build("hostile_peer", "-DMAIN", *WRAPS, folder="tests/fuzz"))


class Examples(Built):
    def exchange(self, sender, receiver, port):
        with tempfile.TemporaryDirectory() as room:
            given, got = os.path.join(room, "given"), os.path.join(room, "got")
            with open(given, "wb") as it:
                it.write(os.urandom(300_000))
            with subprocess.Popen([receiver, "receive", str(port), got, "10", "7"], stdout=subprocess.DEVNULL) as other:
                try:
                    said = run(sender, "send", str(port), given, "10", "3")
                    self.assertNotIn(" 0 dropped", said)
                    self.assertEqual(other.wait(timeout=60), 0)
                finally:
                    other.kill()
            with open(given, "rb") as one, open(got, "rb") as two:
                self.assertEqual(one.read(), two.read())

    def in_rust(self, name):
        """A program of examples/rust."""
        env = {**os.environ, "QUIC_STREAMS_LIB_DIR": LIB, "CARGO_TARGET_DIR": os.path.join(self.room.name, "target")}
        run(tool("cargo"), "build", "--offline", "--quiet", cwd=os.path.join(ROOT, "examples", "rust"), env=env)
        return os.path.join(self.room.name, "target", "debug", name)

    def test_a_file_goes_both_ways_between_c_and_rust(self):
        in_c, in_rust = self.build("file_over_udp", folder="examples/c"), self.in_rust("file-over-udp")
        port = 20000 + os.getpid() % 20000
        self.exchange(in_c, in_c, port)
        self.exchange(in_rust, in_c, port + 2)
        self.exchange(in_c, in_rust, port + 4)

    def echo(self, server, client, port, loss):
        with subprocess.Popen([server, "server", str(port), loss, "7"], stdout=subprocess.PIPE, text=True) as other:
            try:
                said = run(client, "client", str(port), loss, "3")
                self.assertIn("80 streams echoed, 10 reset, 10 stopped", said)
                self.assertIn("80 streams echoed, 10 reset, 10 stopped", other.communicate(timeout=60)[0])
                self.assertEqual(other.returncode, 0)
            finally:
                other.kill()

    def test_a_hundred_streams_are_echoed_between_c_and_rust(self):
        in_c, in_rust = self.build("echo", folder="examples/c"), self.in_rust("echo")
        port = 10000 + os.getpid() % 10000
        for at, (server, client, loss) in enumerate([(in_c, in_c, "0"), (in_c, in_rust, "10"), (in_rust, in_c, "10"), (in_rust, in_rust, "0")]):
            self.echo(server, client, port + at, loss)


class RustCrate(Built):
    FOLDER = os.path.join(ROOT, "bindings", "rust")

    def cargo(self, *words, lib=LIB, folder=FOLDER):
        env = {**os.environ, "QUIC_STREAMS_LIB_DIR": lib, "CARGO_TARGET_DIR": os.path.join(self.room.name, "target")}
        return run(tool("cargo"), *words, cwd=folder, env=env)

    def test_its_tests_and_examples(self):
        said = self.cargo("test", "--offline", "--workspace")
        self.assertIn("test result: ok", said)
        self.cargo("clippy", "--offline", "--workspace", "--all-targets", "--", "-D", "warnings")
        self.cargo("fmt", "--all", "--check")

    def test_it_is_checked_and_documented_without_the_library(self):
        for words in (("check",), ("clippy",), ("doc", "--no-deps")):
            self.cargo(*words, "--offline", "--workspace", lib=self.room.name)

    def test_the_layer_alone_under_valgrind(self):
        """tests/boundary.rs, whose stand-in for the library is in Rust: reads of memory that is not initialised, or was freed, and leaks."""
        said = self.cargo("test", "--offline", "--test", "boundary", "--no-run")
        program = re.search(r"\(([^()]*/boundary-[0-9a-f]+)\)", said).group(1)
        leaks = ["--leak-check=full", "--show-leak-kinds=definite,indirect", "--errors-for-leak-kinds=definite,indirect"]
        run(tool("valgrind"), "-q", "--error-exitcode=9", *leaks, os.path.join(self.FOLDER, program), "--test-threads=1")

    def test_it_can_be_packed(self):
        self.assertIn("Packaged", self.cargo("package", "--offline", "--workspace", "--allow-dirty"))
        for name in ("LICENSE-MIT", "LICENSE-APACHE"):
            with open(os.path.join(ROOT, name), "rb") as file:
                wanted = file.read()
            for crate in ("", "sys", "bytes"):
                with open(os.path.join(self.FOLDER, crate, name), "rb") as file:
                    self.assertEqual(file.read(), wanted, f"{crate}/{name}")

    def test_chunks_of_bytes(self):
        """The crate quic-streams-bytes, with Debian's package of the crate bytes in the place of a registry."""
        if not glob.glob(f"{REGISTRY}/bytes-1.*"):
            self.skipTest("librust-bytes-dev is not installed")
        sources = ['source.crates-io.replace-with="debian"', f'source.debian.directory="{REGISTRY}"']
        replaced = [word for it in sources for word in ("--config", it)]
        folder = os.path.join(self.FOLDER, "bytes")
        for words in (("test",), ("clippy", "--all-targets")):
            ends = ("--", "-D", "warnings") if words[0] == "clippy" else ()
            said = self.cargo(words[0], *replaced, *words[1:], "--offline", "--quiet", *ends, folder=folder)
            self.assertEqual("test result: ok. 1 passed" in said, words[0] == "test")


if __name__ == "__main__":
    unittest.main()
