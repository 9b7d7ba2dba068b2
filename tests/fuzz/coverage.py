#!/usr/bin/env python3
"""Which part of the library some inputs reach: its functions and its instructions, by valgrind.

    tests/fuzz/coverage.py tests/fuzz/hostile_peer.c INPUT..

The library is compiled without instrumentation, so a fuzzer sees the edges of the harness alone. Here the harness is linked at fixed
addresses and run under callgrind, and the instructions that ran are compared with those of the library in the program. The archive is
build/lib/libquic_streams.a, or that of the folder QUIC_STREAMS_LIB_DIR. With -v the functions that were not reached are listed."""
import os
import re
import subprocess
import sys
import tempfile

ROOT = os.path.dirname(os.path.dirname(os.path.dirname(os.path.abspath(__file__))))
LIB = os.environ.get("QUIC_STREAMS_LIB_DIR") or os.path.join(ROOT, "build", "lib")
ARCHIVE = os.path.join(LIB, "libquic_streams.a")
WRAPS = "-Wl,--wrap=malloc,--wrap=realloc,--wrap=free"


def output(*words):
    return subprocess.run(words, stdout=subprocess.PIPE, stderr=subprocess.DEVNULL, text=True, check=True).stdout


def build(source, room):
    to = os.path.join(room, "harness")
    wraps = [WRAPS] if "wrapped.h" in open(source, encoding="utf-8").read() else []
    subprocess.run(["cc", "-std=c11", "-O1", "-no-pie", "-DMAIN", f"-I{ROOT}/include", *wraps, source, ARCHIVE, "-o", to], check=True)
    return to


def of_library(program):
    """The instructions of each function of the library, by their addresses in the program."""
    names = {line.split()[-1] for line in output("nm", "--defined-only", ARCHIVE).splitlines() if re.search(r" [tTwW] ", line)}
    functions, name = {}, None
    for line in output("objdump", "-d", "--no-show-raw-insn", program).splitlines():
        head = re.match(r"[0-9a-f]+ <(.+)>:$", line)
        if head:
            name = head.group(1) if head.group(1) in names else None
        elif name and re.match(r" +[0-9a-f]+:\t(?!nop|xchg +%ax,%ax|cs nop|data16|int3)", line):
            functions.setdefault(name, set()).add(int(line.split(":")[0], 16))
    return functions


def reached(program, inputs, room):
    """The addresses of the instructions that ran."""
    out = os.path.join(room, "callgrind.out")
    words = ["valgrind", "--tool=callgrind", "--dump-instr=yes", "--compress-pos=no", "--compress-strings=no", f"--callgrind-out-file={out}"]
    subprocess.run([*words, program, *inputs], stdout=subprocess.DEVNULL, stderr=subprocess.DEVNULL, check=True)
    with open(out, encoding="utf-8", errors="replace") as file:
        return {int(line.split()[0], 16) for line in file if line.startswith("0x")}


def main():
    words = [it for it in sys.argv[1:] if it != "-v"]
    with tempfile.TemporaryDirectory() as room:
        program = build(words[0], room)
        functions, ran = of_library(program), reached(program, words[1:], room)
    hit = {name for name, at in functions.items() if at & ran}
    all_of, some = sum(map(len, functions.values())), sum(len(at & ran) for at in functions.values())
    print(f"{len(words) - 1} inputs reach {len(hit)} of {len(functions)} functions and {some} of {all_of} instructions of the library "
          f"({100 * some / all_of:.1f}%)")
    if "-v" in sys.argv:
        print(*sorted(set(functions) - hit), sep="\n")


if __name__ == "__main__":
    main()
