#!/usr/bin/env python3
"""Writes into the pages what is taken from the sources: quoted definitions, counted numbers, the example of the README, and
the pictures.

    tools/update_pages.py            writes them
    tools/update_pages.py --check    prints what differs; the status is 1 if anything does
"""
import argparse
import functools
import os
import re
import sys

import count_promises
import draw_pictures
import quote_definitions
from crate_list import ROOT

NUMBER = r"([\d,]+)"
EXAMPLE = re.compile(r"^```rust\n.*?^```$", re.M | re.S)
# The lines of the binding's example that the README has: from the first to the last of these.
FIRST, LAST = "let id = client.open", "client.acked"


@functools.lru_cache()
def numbers():
    """Numbers of definitions: a page, the words with a pair of braces for each number, and the numbers."""
    headline = count_promises.counted(count_promises.HEADLINE)
    everything = count_promises.counted(count_promises.all_names())
    one = count_promises.counted(["History:From"], "quic_history.specs.")
    steps = count_promises.counted(["Steps:Next"])
    return [
        ("README.md", "you read {} definitions ({} lines)", headline[:2]),
        ("docs/trust.md", "{} definitions on {} lines of {} files, and {} types", headline),
        ("docs/trust.md", "are {} definitions on {} lines", everything[:2]),
        ("docs/trust.md", "in place of 1 to 3: {} definitions on {} lines", one[:2]),
        ("docs/trust.md", "`Next`: {} definitions on {} lines of {} files", steps[:3]),
    ]


def with_numbers(path, text):
    """A page with its numbers as they are counted."""
    for page, words, counted in numbers():
        if page == path:
            pattern = re.escape(words).replace(r"\{\}", NUMBER).replace(r"\ ", r"\s+")
            text = re.sub(pattern, lambda found: exchanged(found, counted), text)
    return text


def exchanged(found, counted):
    """What was found, with these numbers for its own."""
    whole, start = found.group(), found.start()
    for index in range(len(counted), 0, -1):
        begin, end = found.start(index) - start, found.end(index) - start
        whole = whole[:begin] + f"{counted[index - 1]:,}" + whole[end:]
    return whole


def example():
    """The lines of the binding's example that the README has."""
    source = read("bindings/rust/src/lib.rs").splitlines()
    lines = [line.removeprefix("//!").strip() for line in source if line.startswith("//!")]
    first = next(at for at, line in enumerate(lines) if line.startswith(FIRST))
    last = next(at for at, line in enumerate(lines) if line.startswith(LAST))
    return "```rust\n" + "\n".join(lines[first : last + 1]) + "\n```"


def updated(path, text):
    """A page as the sources have it."""
    text = quote_definitions.updated(text) if "```antt " in text else text
    if path == "README.md":
        text = EXAMPLE.sub(lambda found: example(), text)
    return with_numbers(path, text)


def differing(path, text):
    """What differs in a page from its sources."""
    found = [f"{path}: {name} differs from its source" for name in quote_definitions.differing(text)]
    if path == "README.md" and EXAMPLE.search(text) and EXAMPLE.search(text).group() != example():
        found.append(f"{path}: the example differs from that of bindings/rust/src/lib.rs")
    if with_numbers(path, text) != text:
        found.append(f"{path}: a number is not as it is counted")
    return found


def read(path):
    with open(os.path.join(ROOT, path), encoding="utf-8") as file:
        return file.read()


def main():
    parser = argparse.ArgumentParser(description=__doc__, formatter_class=argparse.RawDescriptionHelpFormatter)
    parser.add_argument("--check", action="store_true", help="write nothing, and print what differs")
    asked = parser.parse_args()
    texts = {path: read(path) for path in ("README.md", "docs/theorems.md", "docs/trust.md")}
    if asked.check:
        found = [it for path, text in texts.items() for it in differing(path, text)] + draw_pictures.differing()
        print("\n".join(found) or "the pages are as the sources")
        return 1 if found else 0
    for path, text in texts.items():
        with open(os.path.join(ROOT, path), "w", encoding="utf-8") as file:
            file.write(updated(path, text))
    draw_pictures.main()
    return 0


if __name__ == "__main__":
    sys.exit(main())
