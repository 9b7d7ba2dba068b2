#!/usr/bin/env python3
"""Packs the library with its header, crates and examples, the same bytes each time.

    packaging/make_dist.py VERSION LIB OUT

LIB is the folder of the built library, and OUT the archive that is written. Times are that of the commit, so the same commit with the same
library is the same archive. Links are made in the archive alone: no link stands in the repository."""
import gzip
import hashlib
import io
import os
import shutil
import subprocess
import sys
import tarfile

ROOT = os.path.dirname(os.path.dirname(os.path.abspath(__file__)))
PAGES = ["README.md", "CHANGELOG.md", "SECURITY.md", "LICENSE-MIT", "LICENSE-APACHE", "NOTICE"]


def git(*words):
    return subprocess.run(["git", "-C", ROOT, *words], stdout=subprocess.PIPE, text=True, check=True).stdout.strip()


def kit():
    """The kit that made the library, by its own word."""
    if not shutil.which("rt"):
        return "not on this path"
    return subprocess.run(["rt", "version"], stdout=subprocess.PIPE, text=True, check=True).stdout.strip()


def filled(name, **words):
    """A template with its words."""
    with open(os.path.join(ROOT, "packaging", name), encoding="utf-8") as file:
        text = file.read()
    for key, value in words.items():
        text = text.replace(f"@{key}@", value)
    return text.encode()


def read(path):
    with open(path, "rb") as file:
        return file.read()


def contents(version, lib):
    """The files of the archive by their paths, and its links."""
    names = [name for name in PAGES if os.path.isfile(os.path.join(ROOT, name))]
    names += git("ls-files", "include", "examples", "bindings").splitlines() + ["packaging/try_dist.py"]
    files = {name: read(os.path.join(ROOT, name)) for name in names}
    shared = f"libquic_streams.so.{version}"
    for name in ("libquic_streams.a", shared):
        files[f"lib/{name}"] = read(os.path.join(lib, name))
    files["lib/pkgconfig/quic_streams.pc"] = filled(
        "quic_streams.pc.in", LIBDIR="${pcfiledir}/..", INCLUDEDIR="${pcfiledir}/../../include", VERSION=version)
    here = "${CMAKE_CURRENT_LIST_DIR}"
    for name in ("quic_streams-config.cmake", "quic_streams-config-version.cmake"):
        files[f"lib/cmake/quic_streams/{name}"] = filled(
            f"{name}.in", LIBDIR=f"{here}/../..", INCLUDEDIR=f"{here}/../../../include", VERSION=version)
    return files, {"lib/libquic_streams.so.0": shared, "lib/libquic_streams.so": "libquic_streams.so.0"}


def manifest(version, files):
    """What the archive has, and of what it was made."""
    lines = [f"quic-streams {version} for x86_64 (x86-64-v2), Linux", f"commit {git('describe', '--always', '--dirty', '--abbrev=40', '--exclude=*')}",
             f"kit {kit()}", ""]
    return "\n".join(lines + [f"{hashlib.sha256(data).hexdigest()}  {name}" for name, data in sorted(files.items())]) + "\n"


def main():
    version, lib, out = sys.argv[1:]
    top = f"quic-streams-{version}-x86_64-linux"
    seconds = int(git("log", "-1", "--format=%ct"))
    files, links = contents(version, lib)
    files["MANIFEST"] = manifest(version, files).encode()
    plain = io.BytesIO()
    with tarfile.open(fileobj=plain, mode="w", format=tarfile.GNU_FORMAT) as archive:
        for name in sorted([*files, *links]):
            entry = tarfile.TarInfo(f"{top}/{name}")
            entry.mtime, entry.uname, entry.gname = seconds, "root", "root"
            if name in links:
                entry.type, entry.linkname, entry.mode = tarfile.SYMTYPE, links[name], 0o777
                archive.addfile(entry)
            else:
                runs = name.endswith(".py") or ".so." in name
                entry.size, entry.mode = len(files[name]), 0o755 if runs else 0o644
                archive.addfile(entry, io.BytesIO(files[name]))
    os.makedirs(os.path.dirname(os.path.abspath(out)), exist_ok=True)
    with open(out, "wb") as file, gzip.GzipFile(filename="", mode="wb", compresslevel=9, fileobj=file, mtime=seconds) as packed:
        packed.write(plain.getvalue())
    print(f"{hashlib.sha256(read(out)).hexdigest()}  {out}")


if __name__ == "__main__":
    main()
