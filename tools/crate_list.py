"""The crates of crates.txt, what each stands on, and how a command line of the compiler names them."""
import os
import subprocess
import sys

ROOT = os.path.dirname(os.path.dirname(os.path.abspath(__file__)))
CRATES = os.path.join(ROOT, "crates")


def stands_on():
    """What each crate of crates.txt stands on: crates of this repository, and libraries of the kit."""
    found = {}
    with open(os.path.join(ROOT, "crates.txt"), encoding="utf-8") as it:
        for line in it:
            name, colon, below = line.partition("#")[0].partition(":")
            if colon:
                found[name.split()[0]] = below.split()
    return found


def own(names, known):
    """Those of these names that are crates of this repository."""
    return [it for it in names if it in known]


def of_kit(crate, known):
    """The libraries of the kit that a crate uses."""
    return list(dict.fromkeys(["std", *(it for it in known[crate] if it not in known)]))


def all_below(crate, known):
    """The crates of this repository below a crate, each behind those that it stands on."""
    found = {}
    for name in own(known[crate], known):
        found.update(dict.fromkeys([*all_below(name, known), name]))
    return list(found)


def kit():
    """The folder of the kit."""
    page = subprocess.run(["rt", "doc"], check=True, stdout=subprocess.PIPE, encoding="utf-8").stdout.strip()
    return os.path.dirname(page)


def of_logic(folder):
    """What a check is told of the kit: its libraries, and the logic."""
    words = ["-L", f"dependency={folder}/rlibs", "--antt-project", f"{folder}/rattle/logic/antt-project.json"]
    return [*words, "--logic-built", f"{folder}/logic_built"]


def last_change(crate):
    """When a source, a definition or a proof of a crate was changed last."""
    walked = (os.walk(os.path.join(CRATES, crate, part)) for part in ("src", "specs", "proofs"))
    return max(os.path.getmtime(os.path.join(at, name)) for part in walked for at, _, names in part for name in names)


def rlib_of(crate):
    """The folder of a proved crate, as the gate left it."""
    rlib = os.path.join(CRATES, crate, "out", "rlib", f"{crate}.rlib")
    if not os.path.isdir(rlib):
        sys.exit(f"{crate} was not proved here: run rt ci")
    if os.path.getmtime(rlib) < last_change(crate):
        sys.exit(f"{crate} was changed since it was proved: run rt ci")
    return rlib
