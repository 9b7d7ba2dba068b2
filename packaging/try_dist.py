#!/usr/bin/env python3
"""Builds and runs the examples from a distribution alone, in a clean folder, without the kit.

    packaging/try_dist.py [quic-streams-0.1.0-x86_64-linux.tar.gz]

Without an archive it tries the distribution in which it lies, unpacked. The C examples are built with pkg-config, static and shared, and
with CMake, those in Rust with cargo, and each talks to the other. A tool that is not on the path is left out, with a line that says so."""
import hashlib
import os
import shutil
import subprocess
import sys
import tarfile
import tempfile
import time

HERE = os.path.dirname(os.path.dirname(os.path.abspath(__file__)))
TOOLS = ("cc", "sh", "make", "pkg-config", "cmake", "cargo", "rustc")
PATH = os.pathsep.join(dict.fromkeys(os.path.dirname(found) for found in map(shutil.which, TOOLS) if found))


def clean(top):
    """An environment with compilers alone."""
    if shutil.which("rt", path=PATH):
        raise SystemExit(f"the kit's command rt is on this path: {PATH}")
    kept = {name: os.environ[name] for name in ("HOME", "CARGO_HOME", "RUSTUP_HOME") if name in os.environ}
    return {"PATH": PATH, "LD_LIBRARY_PATH": os.path.join(top, "lib"), **kept}


def is_there(name):
    if shutil.which(name, path=PATH):
        return True
    print(f"{name} is not on this path: what it builds is left out")
    return False


def unpack(room):
    """Puts the distribution into a folder, and returns its top."""
    if len(sys.argv) > 1:
        with tarfile.open(sys.argv[1]) as archive:
            archive.extractall(room)
    elif os.path.isfile(os.path.join(HERE, "MANIFEST")):
        shutil.copytree(HERE, os.path.join(room, os.path.basename(HERE)), symlinks=True, ignore=shutil.ignore_patterns("target"))
    else:
        raise SystemExit(f"{HERE} is no distribution: name an archive")
    (name,) = os.listdir(room)
    return os.path.join(room, name)


def run(*words, cwd, env):
    ran = subprocess.run(words, cwd=cwd, env=env, stdout=subprocess.PIPE, stderr=subprocess.STDOUT, text=True, timeout=300)
    if ran.returncode:
        raise SystemExit(f"{' '.join(words)} ended with {ran.returncode}:\n{ran.stdout[-3000:]}")
    return ran.stdout


def check_sums(top):
    """Each file is the one that the manifest names."""
    with open(os.path.join(top, "MANIFEST"), encoding="utf-8") as file:
        listed = [line.split("  ", 1) for line in file.read().splitlines() if "  " in line]
    for wanted, name in listed:
        with open(os.path.join(top, name), "rb") as file:
            if hashlib.sha256(file.read()).hexdigest() != wanted:
                raise SystemExit(f"{name} is not the file that MANIFEST names")
    return len(listed)


def build_c(top, env, shared):
    """The programs of examples/c by pkg-config."""
    env = {**env, "PKG_CONFIG_PATH": os.path.join(top, "lib", "pkgconfig")}
    to = os.path.join(top, "bin-shared" if shared else "bin-static")
    os.makedirs(to)
    flags = run("pkg-config", "--cflags", "--libs", "quic_streams", cwd=top, env=env).split()
    if not shared:
        flags = [it for it in flags if it != "-lquic_streams"] + [os.path.join(top, "lib", "libquic_streams.a")]
    for name in ("file_over_udp", "echo"):
        source = os.path.join(top, "examples", "c", f"{name}.c")
        run("cc", "-std=c11", "-O2", "-Wall", "-Wextra", "-Werror", source, "-o", os.path.join(to, name), *flags, cwd=top, env=env)
    return to


def build_cmake(top, env):
    """A program by find_package."""
    folder = os.path.join(top, "by-cmake")
    os.makedirs(folder)
    with open(os.path.join(folder, "CMakeLists.txt"), "w", encoding="utf-8") as file:
        file.write("cmake_minimum_required(VERSION 3.10)\nproject(tried C)\nfind_package(quic_streams 0.1 REQUIRED CONFIG)\n"
                   "add_executable(echo ../examples/c/echo.c)\ntarget_link_libraries(echo quic_streams::static)\n"
                   "add_executable(shared ../examples/c/echo.c)\ntarget_link_libraries(shared quic_streams::quic_streams)\n")
    run("cmake", "-S", folder, "-B", os.path.join(folder, "build"), f"-Dquic_streams_DIR={top}/lib/cmake/quic_streams", cwd=folder, env=env)
    run("cmake", "--build", os.path.join(folder, "build"), cwd=folder, env=env)


def build_rust(top, env):
    run("cargo", "build", "--offline", "--quiet", cwd=os.path.join(top, "examples", "rust"), env=env)
    return os.path.join(top, "examples", "rust", "target", "debug")


def exchange(server, client, env, top):
    """A server and a client end well."""
    with subprocess.Popen(server, env=env, cwd=top, stdout=subprocess.DEVNULL, stderr=subprocess.DEVNULL) as other:
        try:
            run(*client, cwd=top, env=env)
            if other.wait(timeout=60):
                raise SystemExit(f"{' '.join(server)} ended with {other.returncode}")
        finally:
            other.kill()


def send_files(one, other, port, env, top):
    source, copy = os.path.join(top, "lib", "libquic_streams.a"), os.path.join(top, "copy")
    exchange([one, "receive", str(port), copy, "5", "7"], [other, "send", str(port), source, "5", "3"], env, top)
    with open(source, "rb") as sent, open(copy, "rb") as got:
        if sent.read() != got.read():
            raise SystemExit("the file is another one")


def main():
    began = time.monotonic()
    with tempfile.TemporaryDirectory(prefix="quic-streams-") as room:
        top = unpack(room)
        print(f"{check_sums(top)} files as MANIFEST says")
        env = clean(top)
        folders = [build_c(top, env, shared) for shared in (False, True)] if is_there("pkg-config") else []
        if is_there("cmake"):
            build_cmake(top, env)
        files, echoes = ([os.path.join(it, name) for it in folders] for name in ("file_over_udp", "echo"))
        if is_there("cargo"):
            rust = build_rust(top, env)
            files.append(os.path.join(rust, "file-over-udp"))
            echoes.append(os.path.join(rust, "echo"))
        port = 10000 + os.getpid() % 9000
        for one in range(len(files)):
            other = (one + 1) % len(files)
            send_files(files[one], files[other], port + 2 * one, env, top)
            exchange([echoes[one], "server", str(port + 100 + one), "5"], [echoes[other], "client", str(port + 100 + one), "5"], env, top)
        print(f"{len(files) + len(echoes)} programs were built and talked to each other, in {time.monotonic() - began:.0f} seconds")


if __name__ == "__main__":
    main()
