#!/usr/bin/env python3
"""The tests of the repository, from the sources: a row for each place with how many there are, or their names.

    tools/list_tests.py             a row for each place
    tools/list_tests.py --names     and the name of each test
"""
import argparse
import ast
import glob
import os
import re

from crate_list import ROOT

RUST = re.compile(r"#\[test\]\s*\n(?:\s*#\[[^\]]*\]\n)*\s*fn (\w+)")


def read(path):
    with open(path, encoding="utf-8") as file:
        return file.read()


def below(*pattern):
    return sorted(glob.glob(os.path.join(ROOT, *pattern), recursive=True))


def in_rust(paths):
    """The functions under #[test] of these files, by the name of the file."""
    for path in paths:
        stem = os.path.splitext(os.path.basename(path))[0]
        for name in RUST.findall(read(path)):
            yield f"{stem}::{name}"


def in_sessions():
    for path in below("tests", "sessions", "*.txt"):
        stem = os.path.splitext(os.path.basename(path))[0]
        yield from (f"{stem}.{name}" for name in re.findall(r"^\[(\w+)\]$", read(path), flags=re.M))


def in_python():
    for path in below("tests", "test_*.py"):
        for group in ast.parse(read(path)).body:
            names = [it.name for it in getattr(group, "body", []) if isinstance(it, ast.FunctionDef)]
            yield from (f"{os.path.basename(path)[:-3]}.{group.name}.{it}" for it in names if it.startswith("test_"))


def mutants(*pattern):
    for path in below(*pattern):
        yield "/".join(os.path.relpath(path, ROOT).split("/")[-3:])


def places():
    """Each place that has tests, and their names."""
    crates = [path for path in below("crates", "*", "src", "**", "*.rt") if "#[test]" in read(path)]
    return [
        ("crates: tests in Rattle, proved safe before they run", [
            f"{os.path.relpath(path, ROOT).split('/')[1]}::{name}" for path in crates for name in in_rust([path])
        ]),
        ("tests/sessions: sessions of streampair with known replies", list(in_sessions())),
        ("tests/test_*.py: programs, seeded sessions, the C library, the repository itself", list(in_python())),
        ("bindings/rust: one endpoint over the C library", list(in_rust(below("bindings", "rust", "tests", "**", "*.rs")))),
        ("tests/quinn_proto_findings.rs: for quinn-proto's own tree", list(in_rust(below("tests", "*.rs")))),
        ("crates/*/must-fail: mutants that CI tries", list(mutants("crates", "*", "must-fail", "*.edit"))),
        ("tools/wrong_bodies: mutants that are tried by hand", list(mutants("tools", "wrong_bodies", "*", "*.edit"))),
    ]


def main():
    parser = argparse.ArgumentParser(description=__doc__, formatter_class=argparse.RawDescriptionHelpFormatter)
    parser.add_argument("--names", action="store_true", help="print the name of each test")
    asked = parser.parse_args()
    for place, names in places():
        print(f"{len(names):>5}  {place}")
        for name in names if asked.names else []:
            print(f"       {name}")


if __name__ == "__main__":
    main()
