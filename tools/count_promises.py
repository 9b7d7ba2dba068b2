#!/usr/bin/env python3
"""How much there is to read of each promise of `Pair`: a row for each postcondition, with the definitions and lines that it
takes, those of the headline included; then all promises together, the transitions, and those of one endpoint.

    tools/count_promises.py
"""
import argparse

from reading_list import Reader

HEADLINE = ["Headline:Headline", "History:past_of"]
PROMISES = [
    ("honest", ["Honest:AreHonest"]),
    ("refused", ["Refused:IsRefusedSo"]),
    ("unrefused", ["Unrefused:RefusesNoFrame"]),
    ("readable", ["Readable:WithholdsNothing"]),
    ("drained", ["Law:Drains"]),
    ("not_withheld", ["Withheld:NotWithheld", "Tale:Told"]),
    ("due", ["Due:AsksFor"]),
    ("welcome", ["Unrefused:AreAllWelcome"]),
    ("network", ["Network:ChangesNetwork"]),
    ("returned", ["Network:IsNetworkOf"]),
    ("arrived", ["Completed:HaveArrived"]),
    ("read", ["Completed:HaveBeenRead"]),
    ("told", ["Completed:HaveBeenTold"]),
    ("acked", ["Completed:AreAllAcked"]),
    ("stops", ["Completed:AreStopsTold"]),
    ("reported", ["Settling:IsAllReported"]),
    ("idle", ["Settling:AreIdle"]),
    ("sent", ["Settling:LeavesNoRest"]),
]


def counted(names, module="quic_exchange.specs."):
    """How many definitions, lines, files and types of the code stand behind these names."""
    reader = Reader()
    reader.follow([tuple((module + it).split(":")) for it in names])
    lines = sum(len(reader.files[its].items[name]) for its, name in reader.read)
    return len(reader.read), lines, len({its for its, _ in reader.read}), len(reader.types)


def all_names():
    return HEADLINE + [name for _, names in PROMISES for name in names]


def main():
    row = "{:<16}{:>12}{:>8}{:>8}{:>8}".format
    print(row("postcondition", "definitions", "lines", "files", "types"))
    print(row("headline", *counted(HEADLINE)))
    for clause, names in PROMISES:
        print(row(clause, *counted(HEADLINE + names)))
    print(row("all of these", *counted(all_names())))
    print(row("next", *counted(["Steps:Next"])))
    print(row("one endpoint", *counted(["History:From"], "quic_history.specs.")))


if __name__ == "__main__":
    argparse.ArgumentParser(description=__doc__, formatter_class=argparse.RawDescriptionHelpFormatter).parse_args()
    main()
