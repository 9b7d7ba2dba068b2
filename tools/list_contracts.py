#!/usr/bin/env python3
"""What is proved, from the sources: the public functions of a crate with the names of their postconditions and preconditions.

    tools/list_contracts.py                 a row for each crate: functions, public ones, post- and preconditions
    tools/list_contracts.py CRATE ..        each public function of these crates with its contract's names
    tools/list_contracts.py --full CRATE    the same with the text of each postcondition
"""
import argparse
import glob
import os
import re

from crate_list import CRATES, stands_on

FUNCTION = re.compile(r"^\s*(pub(?:\(\w+\))? )?(?:extern \"C\" )?fn (\w+)")
OWNER = re.compile(r"^impl(?:<[^>]*>)? (?:[\w:<>, ']+ for )?(\w+)")
CLAUSE = re.compile(r"^\s*(ensures\*?|requires)(?: (\w+))? \{ (.*)$")


def functions_of(crate):
    """Of each function of a crate: its owner, its name, whether it is public, and its clauses."""
    found = []
    for path in sorted(glob.glob(os.path.join(CRATES, crate, "src", "**", "*.rt"), recursive=True)):
        owner, entry = "", None
        with open(path, encoding="utf-8") as file:
            for line in file:
                impl, function, clause = OWNER.match(line), FUNCTION.match(line), CLAUSE.match(line)
                if impl:
                    owner = impl[1] + "::"
                elif line.startswith("}"):
                    owner = ""
                elif function:
                    exported = function[1] == "pub " or 'extern "C"' in line
                    entry = (owner if line.startswith(" ") else "", function[2], exported, [])
                    found.append(entry)
                elif clause and entry:
                    entry[3].append(clause.groups())
                elif line.strip() == "{":
                    entry = None
                elif entry and entry[3]:
                    kind, name, text = entry[3].pop()
                    entry[3].append((kind, name, text + " " + line.strip()))
    return found


def counts(crate):
    """How many functions, public ones, postconditions and preconditions a crate has."""
    functions = functions_of(crate)
    kinds = [kind for entry in functions for kind, _, _ in entry[3]]
    pre = kinds.count("requires")
    return len(functions), sum(entry[2] for entry in functions), len(kinds) - pre, pre


def print_counts(crates):
    row = "{:<24}{:>10}{:>8}{:>16}{:>15}".format
    print(row("crate", "functions", "public", "postconditions", "preconditions"))
    sums = [0, 0, 0, 0]
    for crate in crates:
        numbers = counts(crate)
        sums = [total + number for total, number in zip(sums, numbers)]
        print(row(crate, *numbers))
    print(row(f"{len(crates)} crates", *sums))


def print_contracts(crate, full):
    print(crate)
    for owner, name, public, clauses in functions_of(crate):
        if public:
            names = [f"{kind} {clause or '{..}'}" for kind, clause, _ in clauses]
            print(f"    {owner}{name}: {', '.join(names) or 'safe and terminating'}")
            for kind, clause, text in clauses if full else []:
                print(f"        {kind} {clause or ''} {{ {text}")


def main():
    parser = argparse.ArgumentParser(description=__doc__, formatter_class=argparse.RawDescriptionHelpFormatter)
    parser.add_argument("crates", metavar="CRATE", nargs="*", help="a crate of crates.txt; without one, a row for each")
    parser.add_argument("--full", action="store_true", help="print the text of each postcondition")
    asked = parser.parse_args()
    known = list(stands_on())
    unknown = [it for it in asked.crates if it not in known]
    if unknown:
        parser.error(f"no such crate: {', '.join(unknown)}")
    if not asked.crates:
        print_counts(known)
    for crate in asked.crates:
        print_contracts(crate, asked.full)


if __name__ == "__main__":
    main()
