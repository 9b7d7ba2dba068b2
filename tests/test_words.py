"""The words that pages do not use: each has a plainer or more exact one of the trade (CONTRIBUTING.md, Words)."""
import glob
import os
import re
import sys
import unittest

sys.path.insert(0, os.path.dirname(os.path.abspath(__file__)))
from test_docs import ROOT, pages, read  # noqa: E402

# What is not written, and what is written for it. Names in `code`, blocks and links are not read.
WORDS = {
    r"tells?|told": "reports, notifies, returns; an event",
    r"answers?|answered": "returns; a reply",
    r"comes?|came": "is received; follows",
    r"gives?|gave|given": "returns; delivered",
    r"held|kept": "buffered, stored",
    r"(?:send|receive|receiving|sending) hal(?:f|ves)|halves": "send side, receive side; stream state",
    r"pieces?": "segment, chunk",
    r"settle(?:s|d)?|settling": "acknowledged or lost; drained",
    r"refus(?:e|es|ed|al|als|ing)": "reject, fail; error",
    r"rooms?": "capacity, credit; reserve",
    r"announce[sd]?": "advertise",
    r"permit(?:s|ted)?": "allow",
    r"as bytes come": "unordered",
    r"wrong bod(?:y|ies)": "mutant",
    r"the gate": "CI",
    r"clauses?": "postcondition, precondition",
    r"histor(?:y|ies)": "trace",
    r"the past": "what the caller knows",
    r"eras?": "epoch",
    r"linked ends?": "composed endpoints",
    r"an end|one end|two ends|both ends|each end|either end|the other end": "endpoint",
    r"spell(?:s|ed|ing)": "encoding",
    r"let go|gives? up|given up": "release, drop",
    r"called lost": "declared lost",
    r"the original(?:'s)?": "quinn-proto",
    r"asked for": "requested",
    r"so many": "n, that many",
    r"too many pieces": "reassembly limit exceeded",
    r"today|an earlier form": "a commit and a date",
    r"(?:only|exactly|even|except) where": "if, when",
}
# Where a word is meant as it stands: the page, and the words around it.
EXCEPTIONS = [
    ("docs/rfc.md", "A test checks that all exist"),
]
# Crates whose `///` and `//!` are read too.
CRATES = ()
BANNED = {word: (re.compile(rf"\b(?:{word})\b", re.I), instead) for word, instead in WORDS.items()}


def prose(text):
    """A page without its blocks, `code`, and targets of links."""
    text = re.sub(r"^ *```.*?^ *```$", "", text, flags=re.M | re.S)
    text = re.sub(r"^(?: {4}|\t).*$", "", text, flags=re.M)
    text = re.sub(r"`[^`\n]*`", "", text)
    return re.sub(r"\]\([^)\s]*\)", "]", text)


def comments(crate):
    """The documentation in a crate's sources."""
    for path in sorted(glob.glob(os.path.join(ROOT, "crates", crate, "src", "**", "*.rt"), recursive=True)):
        lines = re.findall(r"^\s*//[/!] ?(.*)$", read(path), flags=re.M)
        yield os.path.relpath(path, ROOT), "\n".join(lines)


def found(path, text):
    """The words of a page that are not written, each with its line."""
    for part in (words for page, words in EXCEPTIONS if page == path):
        text = text.replace(part, "")
    for number, line in enumerate(prose(text).splitlines(), 1):
        for pattern, instead in BANNED.values():
            for word in pattern.finditer(line):
                yield f"{word[0]!r} in {line.strip()[:60]!r}: {instead}"


class Words(unittest.TestCase):
    def test_pages_use_the_words_of_the_trade(self):
        for path, text in pages().items():
            with self.subTest(path):
                self.assertEqual(list(found(path, text)), [])

    def test_comments_of_swept_crates_do(self):
        for crate in CRATES:
            for path, text in comments(crate):
                with self.subTest(path):
                    self.assertEqual(list(found(path, text)), [])

    def test_each_word_is_found(self):
        for word in ("told", "pieces", "the gate", "refused", "an end", "exactly where", "Given", "settled"):
            with self.subTest(word):
                self.assertTrue(list(found("docs/rules.md", f"It is {word} here.")))
                self.assertEqual(list(found("docs/rules.md", f"It is `{word}` here.")), [])


if __name__ == "__main__":
    unittest.main()
