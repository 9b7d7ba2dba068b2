#!/usr/bin/env python3
"""Tries the mutants of tools/wrong_bodies: the prover has to reject a crate with any of them in place.

    tools/try_wrong_bodies.py quic_queue/begins_with_one_kept_back    one mutant
    tools/try_wrong_bodies.py quic_queue                              those of a crate
    tools/try_wrong_bodies.py                                         all

The edits of a crate are put into a copy of the repository, in a temporary folder, and `rt must-fail` tries them there, some
at a time, with a copy for each thread. The results of checks below `out` are copied too, so a run after CI or a check does not
prove the crates below again. Prints a line for each edit, and how many were rejected. The status is 0 only if all were.

With --together several mutants of a crate are tried in one check, over the crates below it as `rt ci` left them: a check of a
crate costs more than that of one function. A mutant is rejected if the prover faults its function, at a line of it: the proof
of a function rests on the contracts of others, and not on their bodies. One that is not rejected in this way, or that changes
more than bodies, is tried alone.
"""
import argparse
import concurrent.futures
import dataclasses
import os
import re
import shutil
import subprocess
import sys
import tempfile
import threading

from crate_list import CRATES, all_below, kit, of_kit, of_logic, own, rlib_of, stands_on

ROOT = os.path.dirname(os.path.dirname(os.path.abspath(__file__)))
BODIES = os.path.join(ROOT, "tools", "wrong_bodies")
# The folders of a crate that a check reads, and with them the one in which it keeps its results.
READ = ("src", "specs", "proofs")
PARTS = (*READ, "out")
# How many edits of a crate are tried in a row. The first edits of a crate in a copy wait until the crate itself is checked.
IN_A_ROW = 16
REFUSED = "refused"
# What `rt must-fail` says of an edit.
VERDICT = re.compile(r"must-fail \S+?/(\S+)\.edit: (refused|NOT REFUSED|BAD EDIT|NOT TRIED)(.*)")


def crates_with_bodies():
    return sorted(name for name in os.listdir(BODIES) if os.path.isdir(os.path.join(BODIES, name)))


def edits_of(crate):
    """The names of the edits of a crate."""
    folder = os.path.join(BODIES, crate)
    return sorted(name[: -len(".edit")] for name in os.listdir(folder) if name.endswith(".edit"))


def named(words):
    """The edits that words name, by their crates: each word is a crate, or a crate and one of its edits. No word names all.
    Raises LookupError for one that is not there."""
    found = {}
    for word in words or crates_with_bodies():
        crate, _, edit = word.partition("/")
        if crate not in crates_with_bodies():
            raise LookupError(f"there is no folder {crate} in tools/wrong_bodies")
        if edit and edit not in edits_of(crate):
            raise LookupError(f"there is no file {word}.edit in tools/wrong_bodies")
        found.setdefault(crate, set()).update([edit] if edit else edits_of(crate))
    return {crate: sorted(edits) for crate, edits in found.items()}


def why_not_applicable(crate, edit):
    """Why an edit cannot be applied, or None."""
    with open(os.path.join(BODIES, crate, f"{edit}.edit"), encoding="utf-8") as it:
        lines = it.read().splitlines()
    source, pairs = None, 0
    for line in lines:
        if line.startswith("file: "):
            path = os.path.join(ROOT, "crates", crate, line[len("file: ") :])
            if not os.path.isfile(path):
                return f"there is no {line}"
            with open(path, encoding="utf-8") as it:
                source = it.read()
        elif line.startswith("old: "):
            if source is None:
                return "an 'old:' line stands before any 'file:' line"
            count, pairs = source.count(line[len("old: ") :]), pairs + 1
            if count != 1:
                return f"stands {count} times in its file: {line}"
    return None if pairs else "it has no 'old:' line"


def look(edits):
    """Prints which edits cannot be applied, and returns the status."""
    bad = 0
    for crate, names in edits.items():
        for edit in names:
            why = why_not_applicable(crate, edit)
            if why:
                bad += 1
                print(f"{crate}/{edit}: {why}")
    print(f"{sum(map(len, edits.values()))} edits, of which {bad} cannot be put in place")
    return 1 if bad else 0


def copy_repository(folder):
    """Copies what a check reads into a folder."""
    for name in ("crates.txt", "HANDLES"):
        shutil.copy(os.path.join(ROOT, name), folder)
    crates = os.path.join(ROOT, "crates")
    for crate in os.listdir(crates):
        for part in PARTS:
            source = os.path.join(crates, crate, part)
            if os.path.isdir(source):
                shutil.copytree(source, os.path.join(folder, "crates", crate, part))


class Copies:
    """A copy of the repository for each thread."""

    def __init__(self, folder):
        self.folder = folder
        self.own = threading.local()

    def get(self):
        if not hasattr(self.own, "copy"):
            copy = tempfile.mkdtemp(dir=self.folder)
            copy_repository(copy)
            self.own.copy = copy
        return self.own.copy


def try_edits(crate, edits, copies):
    """Tries some edits of a crate. Returns a line for each, how many were refused, and what rt printed if it did not tell of each."""
    copy = copies.get()
    there = os.path.join(copy, "crates", crate, "must-fail")
    os.makedirs(there)
    for edit in edits:
        shutil.copy(os.path.join(BODIES, crate, f"{edit}.edit"), there)
    ran = subprocess.run(
        ["rt", "must-fail", crate],
        cwd=copy,
        stdin=subprocess.DEVNULL,
        stdout=subprocess.PIPE,
        stderr=subprocess.STDOUT,
        encoding="utf-8",
        errors="replace",
    )
    shutil.rmtree(there)
    found = {name: (verdict, rest) for name, verdict, rest in VERDICT.findall(ran.stdout)}
    lines = []
    for edit in edits:
        verdict, rest = found.get(edit, ("NOT TRIED", ": rt said nothing of it"))
        # (a refusal says where; the rest says why there is none, or why it tells little)
        told = "" if verdict == REFUSED and not rest.startswith(", as it must be (") else rest
        lines.append(f"{crate}/{edit}: {verdict}{told}")
    refused = sum(verdict == REFUSED for verdict, _ in found.values())
    return lines, refused, "" if len(found) == len(edits) else ran.stdout.rstrip()


def try_all(edits, jobs):
    """Tries the edits of some crates, by their names, `jobs` calls of rt at a time. Prints a line for each edit, and returns how many were refused."""
    total = 0
    with tempfile.TemporaryDirectory(prefix="wrong-bodies-") as folder:
        copies = Copies(folder)
        with concurrent.futures.ThreadPoolExecutor(jobs) as pool:
            asked = []
            for crate, names in sorted(edits.items(), key=lambda it: -len(it[1])):
                for at in range(0, len(names), IN_A_ROW):
                    asked.append(pool.submit(try_edits, crate, names[at : at + IN_A_ROW], copies))
            for done in concurrent.futures.as_completed(asked):
                lines, refused, wrong = done.result()
                print("\n".join(lines), flush=True)
                if wrong:
                    print(wrong, file=sys.stderr)
                total += refused
    return total


# The most wrong bodies of one check.
MOST = 12
# The head of a function.
HEAD = re.compile(r"^ *(?:pub(?:\([a-z ]+\))? )?(?:const )?(?:extern \"C\" )?fn (\w+)")
# A line of the code that the prover faults.
FAULT = re.compile(r"^(?:note: )?(?:\./)?(src/\S+?\.rt):(\d+):\d+: (?:it is not proved|error)", re.M)


@dataclasses.dataclass
class Edit:
    """A wrong body: its name, and of each change the file, the text that is there, and the text in its place."""

    name: str
    changes: list

    def files(self):
        return {path for path, _, _ in self.changes}


def read_edit(path):
    """The wrong body of a file."""
    file, old, changes = None, None, []
    with open(path, encoding="utf-8") as it:
        for line in it.read().splitlines():
            if line.startswith("file: "):
                file = line[len("file: ") :].strip()
            elif line.startswith("old: "):
                old = line[len("old: ") :]
            elif line.startswith("new:"):
                changes.append((file, old, line[len("new:") :].removeprefix(" ")))
    return Edit(os.path.basename(path).removesuffix(".edit"), changes)


def function_at(lines, at):
    """The lines of the function whose body has a line, from its head to its end, or None where that is no line of a body."""
    heads = [index for index in range(at + 1) if HEAD.match(lines[index])]
    if not heads or heads[-1] == at:
        return None
    start = heads[-1]
    indent = len(lines[start]) - len(lines[start].lstrip())
    ends = (index for index in range(start + 1, len(lines)) if lines[index].startswith(" " * indent + "}"))
    end = next(ends, None)
    opens = next((index for index in range(start, len(lines)) if lines[index].endswith("{")), None)
    is_body = end is not None and opens is not None and opens < at < end
    return range(start, end + 1) if is_body else None


def functions_of(edit, texts):
    """Where the functions lie that a wrong body changes: files, and lines of them. None where it changes more than bodies."""
    found = set()
    for path, old, _ in edit.changes:
        if not path.startswith("src/"):
            return None
        before = texts[path].partition(old)[0]
        lines = function_at(texts[path].splitlines(), before.count("\n"))
        if lines is None:
            return None
        found.add((path, lines.start, lines.stop))
    return found


def grouped(edits, texts):
    """The wrong bodies in groups, in each of which no two change one function."""
    groups = []
    for edit in edits:
        functions = functions_of(edit, texts)
        fits = (it for it in groups if functions and it[1] and len(it[0]) < MOST and not it[1] & functions)
        group = next(fits, None)
        if group is None:
            group = ([], set())
            groups.append(group)
        group[0].append(edit)
        group[1].update(functions or ())
    return [edits for edits, _ in groups]


def words_of(crate, known, folder):
    """The compiler's command line, for a check in a copy of a crate's folder."""
    root = "src/main.rt" if os.path.isfile(os.path.join(CRATES, crate, "src", "main.rt")) else "src/lib.rt"
    words = [os.path.join(folder, "bin", "rattle"), "check", "--crate-name", crate, root, *of_logic(folder)]
    for name in of_kit(crate, known):
        words += ["--extern", f"{name}={folder}/rlibs/{name}.rlib"]
    for name in own(known[crate], known):
        words += ["--extern", f"{name}={rlib_of(name)}"]
    for name in all_below(crate, known):
        words += ["-L", f"dependency={os.path.dirname(rlib_of(name))}"]
    return [*words, "--links", f"{crate}=", "--jobs", "1"]


def copy_linked(source, to):
    """Copies what a check kept. A check replaces such files, and changes none, so links do."""

    def link(one, other):
        try:
            os.link(one, other)
        except OSError:
            shutil.copy2(one, other)

    shutil.copytree(source, to, copy_function=link)


class Crate:
    """A crate, what its check kept, and the wrong bodies to try."""

    def __init__(self, name, edits, room):
        self.name, self.edits = name, edits
        self.folder = os.path.join(CRATES, name)
        self.words = words_of(name, stands_on(), kit())
        self.kept = os.path.join(room, name)
        self.texts = {path: self.text(path) for edit in edits for path in edit.files()}

    def text(self, path):
        with open(os.path.join(self.folder, path), encoding="utf-8") as it:
            return it.read()

    def check(self, edits, kept):
        """Checks a copy of the crate with some wrong bodies in place. Returns the status and what was printed."""
        with tempfile.TemporaryDirectory(prefix="together-") as copy:
            for part in READ:
                if os.path.isdir(os.path.join(self.folder, part)):
                    shutil.copytree(os.path.join(self.folder, part), os.path.join(copy, part))
            texts = dict(self.texts)
            for edit in edits:
                for path, old, new in edit.changes:
                    texts[path] = texts[path].replace(old, new, 1)
            for path, text in texts.items():
                with open(os.path.join(copy, path), "w", encoding="utf-8") as it:
                    it.write(text)
            how = {"stdin": subprocess.DEVNULL, "stdout": subprocess.PIPE, "stderr": subprocess.STDOUT, "errors": "replace"}
            ran = subprocess.run([*self.words, "--incremental", kept], cwd=copy, check=False, encoding="utf-8", **how)
            return ran.returncode, ran.stdout

    def prove(self):
        """Checks the crate as it stands, and keeps what was proved. Returns what is wrong, or None."""
        os.makedirs(self.kept)
        status, said = self.check([], self.kept)
        return said if status else None

    def check_over(self, edits):
        """Checks the crate with some wrong bodies in place over what was kept."""
        with tempfile.TemporaryDirectory(prefix="together-") as room:
            kept = os.path.join(room, "kept")
            copy_linked(self.kept, kept)
            return self.check(edits, kept)

    def groups(self):
        return grouped(self.edits, self.texts)

    def faulted(self, edit, faults):
        """Whether a fault lies in a function that a wrong body changes."""
        functions = functions_of(edit, self.texts) or ()
        return any(path == file and line - 1 in range(start, stop) for path, start, stop in functions for file, line in faults)

    def try_group(self, edits):
        """Tries wrong bodies together, and alone what is not refused so. Returns a line for each, and how many were refused."""
        status, said = self.check_over(edits)
        faults = {(file, int(line)) for file, line in FAULT.findall(said)}
        is_verdict = status == 1 and said.rstrip("\n").rpartition("\n")[2].startswith("logic=not-proved")
        lines, refused = [], 0
        for edit in edits:
            is_refused = is_verdict and (len(edits) == 1 or self.faulted(edit, faults))
            told = "refused" if is_refused else self.try_alone(edit) if len(edits) > 1 else what_came(status, said)
            refused += told == "refused"
            lines.append(f"{self.name}/{edit.name}: {told}")
        return lines, refused

    def try_alone(self, edit):
        return what_came(*self.check_over([edit]))


def what_came(status, said):
    """What the check of one wrong body came to."""
    last = said.rstrip("\n").rpartition("\n")[2]
    if status == 1 and last.startswith("logic=not-proved"):
        return "refused"
    if status == 0:
        return "NOT REFUSED"
    return f"NOT TRIED: {last[:200]}"


def try_together(paths_of, jobs):
    """Tries the wrong bodies of some crates, by their files, `jobs` checks at a time. Prints a line for each, and returns how many were refused."""
    total = 0
    with tempfile.TemporaryDirectory(prefix="together-") as room, concurrent.futures.ThreadPoolExecutor(jobs) as pool:
        crates = [Crate(name, [read_edit(it) for it in paths], room) for name, paths in paths_of.items()]
        proofs = {pool.submit(it.prove): it for it in sorted(crates, key=lambda it: -len(it.groups()))}
        groups = []
        for done in concurrent.futures.as_completed(proofs):
            crate, wrong = proofs[done], done.result()
            if wrong is not None:
                print(f"{crate.name} is not proved as it stands:\n{wrong}", file=sys.stderr)
                continue
            groups += [pool.submit(crate.try_group, it) for it in crate.groups()]
        for done in concurrent.futures.as_completed(groups):
            lines, refused = done.result()
            print("\n".join(lines), flush=True)
            total += refused
    return total


def main():
    parser = argparse.ArgumentParser(description=__doc__.splitlines()[0])
    parser.add_argument("names", metavar="CRATE[/NAME]", nargs="*", help="a crate of tools/wrong_bodies, or one of its edits; without one, all")
    parser.add_argument("--jobs", type=int, metavar="N", help="the most processors that are used; without it, all")
    parser.add_argument("--list", action="store_true", help="only say which edits cannot be put in place, and prove nothing")
    parser.add_argument("--together", action="store_true", help="several in one check, over what rt ci proved in this folder")
    asked = parser.parse_args()
    try:
        edits = named(asked.names)
    except LookupError as wrong:
        parser.error(wrong.args[0])
    if asked.list:
        return look(edits)
    if shutil.which("rt") is None:
        print("rt is not there: the Rattle kit is needed", file=sys.stderr)
        return 2
    jobs = asked.jobs
    if jobs is None:
        jobs = len(os.sched_getaffinity(0))
    elif jobs < 1:
        parser.error("--jobs takes a number above 0")
    else:
        # rt uses the processors that it is given
        os.sched_setaffinity(0, sorted(os.sched_getaffinity(0))[:jobs])
    if asked.together:
        refused = try_together({crate: [os.path.join(BODIES, crate, f"{it}.edit") for it in names] for crate, names in edits.items()}, jobs)
    else:
        refused = try_all(edits, jobs)
    total = sum(map(len, edits.values()))
    print(f"{total} mutants: {refused} rejected, {total - refused} not")
    return 0 if refused == total else 1


if __name__ == "__main__":
    sys.exit(main())
