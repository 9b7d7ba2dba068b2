#!/usr/bin/env python3
"""What a reader of a definition has to read: the definitions that it names, those that these name, and so on.

    tools/reading_list.py quic_exchange.specs.Headline:Headline ..

MODULE:NAME is a definition; MODULE alone stands for all definitions of a file. Prints the definitions under their file, with
the number of their lines (without comments and blank lines), then the types of the code that they name, and the sums. With
--files it prints only the sums of each file, with --text the definitions themselves, each below its comment.
"""
import argparse
import os
import re
import sys

ROOT = os.path.dirname(os.path.dirname(os.path.abspath(__file__)))
IMPORT = re.compile(r"^(?:pub )?use Rattle\.(\S+?)(?:\.\{(.*)\})?(?: as (\S+))?\s*$")
HEAD = re.compile(r"^(?:(?:abbrev|unfoldable|opaque|pub|record|data|mutual)\s+)*([^\s({:]+)")
WORD = re.compile(r"[^\s(){}\[\],;.:=λ→×⊎≡≢≤<∷+*-]+")


class File:
    """The definitions of a file, as lines by name, and the modules of the names that it imports."""

    def __init__(self, module, path):
        self.module, self.items, self.texts, self.imports, self.aliases, self.cases = module, {}, {}, {}, {}, {}
        name, is_data, comment = None, False, []
        with open(path) as file:
            lines = file.read().split("\n")
        for line in lines:
            if line.startswith("--"):
                comment.append(line)
                continue
            if not line.strip() or line.startswith("pub mod "):
                comment = []
                continue
            if line.strip().startswith("--"):
                self.texts.setdefault(name, []).append(line)
                continue
            found = IMPORT.match(line)
            if found:
                self.take_import(*found.groups())
                continue
            if not line.startswith(" "):
                name = HEAD.match(line).group(1)
                is_data = " data " in f" {line}"
            elif is_data and " : " in line:
                self.cases[line.replace("pub ", "").split()[0]] = name
            self.items.setdefault(name, []).append(line)
            self.texts.setdefault(name, []).extend(comment + [line])
            comment = []

    def take_import(self, module, names, alias):
        if alias:
            self.aliases[alias] = module
            return
        for name in (names or "").split(","):
            name = name.strip()
            if name:
                self.imports[name] = module

    def names_of(self, name):
        """The definitions that a definition names: (module, name)."""
        for word in set(WORD.findall("\n".join(self.items[name]))):
            if word != name and word in self.items:
                yield self.module, word
            elif word in self.imports:
                yield self.imports[word], word
            elif word in self.aliases:
                yield self.aliases[word], ""


class Reader:
    def __init__(self):
        self.files, self.read, self.types, self.missing = {}, set(), set(), set()

    def file(self, module):
        crate, _, rest = module.partition(".")
        path = os.path.join(ROOT, "crates", crate, rest.replace(".", "/") + ".antt")
        if module not in self.files:
            self.files[module] = File(module, path) if os.path.exists(path) else None
        return self.files[module]

    def follow(self, wanted):
        while wanted:
            module, name = wanted.pop()
            if module.startswith("std.") or (module, name) in self.read:
                continue
            if ".declared." in module:
                self.types.add(re.sub(r"\.(specs\.declared|TheVariants|TheConstants)", "", module))
                continue
            file = self.file(module)
            name = file.cases.get(name, name) if file else name
            if file is None or name not in file.items:
                self.missing.add((module, name))
                continue
            self.read.add((module, name))
            wanted.extend(file.names_of(name))


def main():
    parser = argparse.ArgumentParser(description=__doc__, formatter_class=argparse.RawDescriptionHelpFormatter)
    parser.add_argument("names", metavar="MODULE:NAME", nargs="+", help="a definition, or MODULE for all of a file")
    parser.add_argument("--files", action="store_true", help="print only the sums of each file")
    parser.add_argument("--text", action="store_true", help="print the definitions themselves")
    asked = parser.parse_args()
    reader, wanted = Reader(), []
    for argument in asked.names:
        module, _, name = argument.partition(":")
        file = reader.file(module)
        if file is None:
            sys.exit(f"no file of {module}")
        wanted.extend((module, item) for item in ([name] if name else file.items))
    reader.follow(wanted)
    total, modules = 0, sorted({module for module, _ in reader.read})
    for module in modules:
        items = sorted(name for its, name in reader.read if its == module)
        lines = {name: len(reader.files[module].items[name]) for name in items}
        total += sum(lines.values())
        print(f"{module.replace('.', '/')}.antt: {len(items)} definitions, {sum(lines.values())} lines")
        if asked.text:
            texts = reader.files[module].texts
            print("\n" + "\n\n".join("\n".join(texts[name]) for name in texts if name in items) + "\n")
        elif not asked.files:
            print("    " + ", ".join(items))
    if not asked.files:
        print(f"types of the code: {', '.join(sorted(reader.types))}")
    for module, name in sorted(reader.missing):
        print(f"not found: {module} {name}")
    print(f"{len(reader.read)} definitions, {total} lines, in {len(modules)} files; {len(reader.types)} types of the code")
    return 1 if reader.missing else 0


if __name__ == "__main__":
    sys.exit(main())
