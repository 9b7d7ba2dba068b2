"""Installing, packing and using the library: `make install`, `uninstall`, `dist` and `doc`, in a copy of the repository that has the library
and neither crates nor the kit."""
import glob
import hashlib
import os
import re
import shutil
import subprocess
import tarfile
import unittest

import boundary
from test_c import ARCHIVE, ROOT, Built, run, tool

COPIED = ["Makefile", "include", "packaging", "examples", "bindings"]


def read(path):
    with open(path, encoding="utf-8") as file:
        return file.read()


class Packaging(Built):
    @classmethod
    def setUpClass(cls):
        super().setUpClass()
        cls.top = os.path.join(cls.room.name, "copy")
        kept = shutil.ignore_patterns("target", "__pycache__")
        os.makedirs(os.path.join(cls.top, "build", "lib"))
        for name in COPIED:
            source, to = os.path.join(ROOT, name), os.path.join(cls.top, name)
            if os.path.isdir(source):
                shutil.copytree(source, to, ignore=kept)
            else:
                shutil.copy(source, to)
        shutil.copy(ARCHIVE, os.path.join(cls.top, "build", "lib"))
        who = ["-c", "user.name=test", "-c", "user.email=test@localhost"]
        for words in (["init", "-q"], ["add", *COPIED], [*who, "commit", "-q", "-m", "A copy"]):
            run("git", *words, cwd=cls.top)
        cls.make()

    @classmethod
    def make(cls, *words, **how):
        """Runs make as where the kit is missing."""
        return run("make", "-s", "PARTS=", *words, cwd=cls.top, **how)

    def files_below(self, folder):
        return sorted(os.path.relpath(os.path.join(at, it), folder) for at, _, files in os.walk(folder) for it in files)

    def test_an_installation_is_where_it_was_asked_for(self):
        dest = os.path.join(self.room.name, "dest")
        where = [f"DESTDIR={dest}", "PREFIX=/opt/qs", "LIBDIR=/opt/qs/lib64", "INCLUDEDIR=/opt/headers"]
        self.make("install", *where)
        lib = os.path.join(dest, "opt/qs/lib64")
        self.assertEqual(self.files_below(dest), sorted([
            "opt/headers/quic_streams.h", "opt/qs/lib64/libquic_streams.a", "opt/qs/lib64/libquic_streams.so",
            "opt/qs/lib64/libquic_streams.so.0", "opt/qs/lib64/libquic_streams.so.0.1.0", "opt/qs/lib64/pkgconfig/quic_streams.pc",
            "opt/qs/lib64/cmake/quic_streams/quic_streams-config.cmake",
            "opt/qs/lib64/cmake/quic_streams/quic_streams-config-version.cmake"]))
        self.assertEqual(os.readlink(os.path.join(lib, "libquic_streams.so")), "libquic_streams.so.0")
        self.assertEqual(os.readlink(os.path.join(lib, "libquic_streams.so.0")), "libquic_streams.so.0.1.0")
        env = {**os.environ, "PKG_CONFIG_PATH": os.path.join(lib, "pkgconfig")}
        flags = run(tool("pkg-config"), "--cflags", "--libs", "quic_streams", env=env).split()
        self.assertEqual(flags, ["-I/opt/headers", "-L/opt/qs/lib64", "-lquic_streams"])
        self.assertEqual(run("pkg-config", "--modversion", "quic_streams", env=env).strip(), "0.1.0")
        self.make("uninstall", *where)
        self.assertEqual(self.files_below(dest), [])

    def test_the_shared_library_exports_the_calls_of_the_header_alone(self):
        shared = os.path.join(self.top, "build", "lib", "libquic_streams.so.0.1.0")
        listed = run(tool("nm"), "-D", "--defined-only", shared).splitlines()
        names = {line.split()[-1] for line in listed if " A " not in line}
        with open(os.path.join(ROOT, "include", "quic_streams.h"), encoding="utf-8") as file:
            declared = {line.split("(")[0].split()[-1] for line in file if line.startswith("QS_API ")}
        self.assertEqual(names, {f"{name}@@QUIC_STREAMS_0" for name in declared})
        self.assertIn("libquic_streams.so.0]", run(tool("readelf"), "-d", shared))

    def test_flags_of_the_user_are_taken(self):
        self.make("build/bin/echo", "CFLAGS=-O0 -DQS_API=", "LDFLAGS=-Wl,-z,now,-rpath,/a/folder/of/the/user")
        self.assertIn("/a/folder/of/the/user", run(tool("readelf"), "-d", os.path.join(self.top, "build", "bin", "echo")))

    def test_the_reference_has_a_page_for_each_call(self):
        if not shutil.which("doxygen"):
            self.skipTest("doxygen is not installed")
        self.assertEqual(self.make("doc"), "")
        header = boundary.generate.Header(boundary.texts()[boundary.HEADER])
        doc = os.path.join(self.top, "build", "doc")
        pages = "".join(map(read, glob.glob(os.path.join(doc, "html", "*_8h_a*.html"))))
        self.assertGreater(len(header.calls), 40)
        for call, (result, parameters) in header.calls.items():
            self.assertIn(f"<title>libquic_streams: {call}</title>", pages)
            page = read(os.path.join(doc, "man", "man3", f"{call}.3"))
            self.assertIn(f'.BI "{result} {call}(', page)
            for it in parameters:
                self.assertIn(f'" {it.name} "', page)
            self.assertEqual(set(re.findall(r"^\.B (QS_\w+)$", page, flags=re.M)), header.results(call), call)

    def test_without_kit_and_library_make_says_what_it_needs(self):
        ran = subprocess.run(["make", "-s", "PARTS=", "LIB=build/none"], cwd=self.top, stdout=subprocess.PIPE, stderr=subprocess.STDOUT, text=True)
        self.assertNotEqual(ran.returncode, 0)
        self.assertIn("made by the Rattle kit, whose command rt is not on this path", ran.stdout)

    def test_a_distribution_is_the_same_bytes_twice_and_works_alone(self):
        archive = os.path.join(self.top, "build", "dist", "quic-streams-0.1.0-x86_64-linux.tar.gz")
        sums = []
        for _ in range(2):
            self.make("dist")
            with open(archive, "rb") as file:
                sums.append(hashlib.sha256(file.read()).hexdigest())
            os.utime(os.path.join(self.top, "include", "quic_streams.h"))
        self.assertEqual(sums[0], sums[1])
        with tarfile.open(archive) as packed:
            names = {it.name.partition("/")[2]: it for it in packed.getmembers()}
            manifest = packed.extractfile(names["MANIFEST"].name).read().decode()
        self.assertEqual(names["lib/libquic_streams.so"].linkname, "libquic_streams.so.0")
        self.assertIn("commit " + run("git", "rev-parse", "HEAD", cwd=self.top).strip(), manifest)
        said = run("python3", os.path.join(self.top, "packaging", "try_dist.py"), archive)
        self.assertIn("programs were built and talked to each other", said)


if __name__ == "__main__":
    unittest.main()
