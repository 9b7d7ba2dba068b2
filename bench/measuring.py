"""Runs the programs, and takes their figures."""
import os
import pathlib
import re
import subprocess
import sys
import tempfile
from dataclasses import dataclass

# glibc copies by its plain loops: otherwise a copy counts differently on each processor.
PLAIN = 'glibc.cpu.hwcaps=-AVX_Fast_Unaligned_Load,-AVX2_Usable,-AVX2,-ERMS,-FSRM,-AVX512F,-AVX512VL'
QUINN, LENDING, COPYING, RATTLE = 'quinn', 'lending', 'copying', 'rattle'


@dataclass
class Work:
    """A workload, or a test of scale at a size."""
    program: pathlib.Path
    kind: str
    name: str
    size: int
    unit: str
    in_rattle: bool
    about: str

    def implementations(self):
        whole = [LENDING, COPYING] if self.kind != 'part' else []
        return [QUINN, *whole, *([RATTLE] if self.in_rattle else [])]


def run(words, **more):
    """The lines that a command prints, with their fields."""
    ran = subprocess.run([str(word) for word in words], stdout=subprocess.PIPE, text=True, check=False, **more)
    if ran.returncode:
        sys.exit(f'{" ".join(map(str, words))} ended with {ran.returncode}')
    return [line.split('\t') for line in ran.stdout.splitlines()]


def works(bench, kinds, names=(), size=None):
    """The workloads of some kinds, or those of them that are named."""
    found = []
    for program in (bench.program, bench.parts):
        for kind, name, own, unit, rattle, about in run([program, 'list']):
            if kind in kinds and (not names or name in names):
                found.append(Work(program, kind, name, size or int(own), unit, rattle == 'true', about))
    if unknown := set(names) - {work.name for work in found}:
        sys.exit(f'no workload {", ".join(sorted(unknown))}: see bench/run list')
    return found


def checks(work, which):
    """The check numbers of a run."""
    return run([work.program, 'run', work.name, work.size, which])[0]


def agree(work):
    """Whether the check numbers of all implementations are equal."""
    taken = {which: checks(work, which) for which in work.implementations()}
    same = all(taken[which][:2] == taken[QUINN][:2] for which in taken if which != RATTLE)
    if RATTLE not in taken:
        return same
    beside = taken.get(LENDING, taken[QUINN])
    return same and taken[RATTLE][2] == beside[2]


def instructions(work, which):
    """The instructions of one run, by callgrind."""
    with tempfile.TemporaryDirectory(prefix='bench-') as folder:
        out = f'{folder}/out'
        valgrind = ['valgrind', '--quiet', '--tool=callgrind', f'--callgrind-out-file={out}', f'--toggle-collect=measured_{which}']
        run([*valgrind, work.program, 'run', work.name, work.size, which], env=dict(os.environ, GLIBC_TUNABLES=PLAIN))
        with open(out, encoding='utf-8') as lines:
            counted = next(re.match(r'(?:summary|totals): (\d+)', line) for line in lines if line.startswith(('summary:', 'totals:')))
    return int(counted[1])


def heap(bench, work, which):
    """The most bytes on the heap in one run."""
    return int(run([work.program, 'heap', work.name, work.size, which], env=preloaded(bench))[0][0])


def times(work, milliseconds):
    """The least time and the median of each implementation in nanoseconds."""
    which = work.implementations()
    lines = run([work.program, 'time', work.name, work.size, milliseconds, *which])
    return {name: tuple(map(int, line)) for name, line in zip(which, lines)}


def preloaded(bench):
    return dict(os.environ, LD_PRELOAD=str(bench.counter))


@dataclass
class Step:
    """A step of a test of scale: times in nanoseconds, bytes on the heap after it."""
    name: str
    calls: int
    mean: int
    longest: int
    heap: int


def steps(work, which, **more):
    lines = run([work.program, 'scale', work.name, work.size, which], **more)
    return [Step(name, *map(int, numbers)) for name, *numbers in lines]


def scale(bench, work, which, runs):
    """The steps of a test: the least of the longest calls and of the means of all runs, and the heap of one run more."""
    best = steps(work, which)
    for _ in range(runs - 1):
        for step, again in zip(best, steps(work, which)):
            step.mean, step.longest = min(step.mean, again.mean), min(step.longest, again.longest)
    for step, counted in zip(best, steps(work, which, env=preloaded(bench))):
        step.heap = counted.heap
    return best


def memory(bench, which):
    """Bytes for single things, by their names."""
    return {name: float(count) for name, count in run([bench.program, 'memory', which], env=preloaded(bench))}
