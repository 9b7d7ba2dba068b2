"""The commands of bench/run, each of which prints a table."""
import json

import measuring
from measuring import COPYING, LENDING, QUINN, RATTLE

TITLES = {QUINN: 'quinn-proto', LENDING: 'library', COPYING: 'copying', RATTLE: 'in Rattle'}


def head(bench, what):
    print(f'\n{what}: {bench.quinn}, and the library in {bench.library} with ratios to it')


def row(cells):
    """Prints cells, each at the right of its width."""
    print('  '.join(f'{cell:>{width}}' for cell, width in cells).rstrip(), flush=True)


def compared(taken, form='{:,}'):
    """The figure of quinn-proto, then those of the others with their ratios."""
    cells = [(form.format(taken[QUINN]), 15)]
    for which in (LENDING, COPYING, RATTLE):
        here = which in taken
        cells.append((form.format(taken[which]) if here else '', 15))
        cells.append((f'{taken[which] / taken[QUINN]:.2f}' if here and taken[QUINN] else '', 5))
    return cells


def titles(first, width=28):
    others = [cell for which in (LENDING, COPYING, RATTLE) for cell in ((TITLES[which], 15), ('', 5))]
    row([(f'{first:<{width}}', width), (TITLES[QUINN], 15), *others])


def save(asked, bench, what):
    if asked.save:
        text = json.dumps({'quinn-proto': bench.quinn, 'library': str(bench.library), **what}, indent=1)
        asked.save.write_text(text + '\n', encoding='utf-8')


def chosen(bench, asked):
    return measuring.works(bench, ('workload', 'part'), asked.names, asked.size)


def show_list(bench, _asked):
    """Prints the workloads and the tests of scale."""
    for work in measuring.works(bench, ('workload', 'part', 'scale')):
        row([(f'{work.name:<28}', 28), (f'{work.size:,} {work.unit}', 22), (work.about, 0)])
    return 0


def check(bench, asked):
    """Compares check numbers."""
    works = chosen(bench, asked)
    wrong = [work.name for work in works if not measuring.agree(work)]
    for name in wrong:
        print(name, 'DIFFERS')
    print(f'{len(works) - len(wrong)} of {len(works)} workloads have equal check numbers')
    return 1 if wrong else 0


def instructions_of(_bench, work, _asked):
    return {which: measuring.instructions(work, which) for which in work.implementations()}


def times_of(_bench, work, asked):
    return {which: least for which, (least, _) in measuring.times(work, asked.milliseconds).items()}


def bytes_of(bench, work, _asked):
    return {which: measuring.heap(bench, work, which) for which in work.implementations()}


MEASURES = {
    'instructions': ('Instructions', instructions_of),
    'times': ('Nanoseconds, the least of the runs', times_of),
    'bytes': ('Most bytes on the heap', bytes_of),
}


def figures(bench, asked):
    """Prints each measure of each workload, after a comparison of all check numbers."""
    status = check(bench, asked)
    works = chosen(bench, asked)
    saved = {}
    for measure in asked.only:
        title, take = MEASURES[measure]
        head(bench, title)
        titles('workload')
        for work in works:
            taken = take(bench, work, asked)
            row([(f'{work.name:<28}', 28), *compared(taken)])
            saved.setdefault(measure, {})[work.name] = {'size': work.size, 'unit': work.unit, **taken}
            save(asked, bench, saved)
    return status


def scale(bench, asked):
    """Prints the longest single call of each step, and the bytes on the heap after it."""
    saved = {}
    for work in measuring.works(bench, ('scale',), asked.names, asked.size):
        ours = measuring.scale(bench, work, LENDING, asked.runs)
        theirs = measuring.scale(bench, work, QUINN, asked.runs)
        head(bench, f'{work.name} {work.size:,} ({work.about})')
        row([('', 24), ('calls', 9), ('longest ns', 13), ('library', 13), ('', 5), ('mean ns', 11), ('library', 11), ('', 5),
             ('bytes', 13), ('library', 13)])
        for mine, other in zip(ours, theirs):
            row([(f'{mine.name:<24}', 24), (f'{mine.calls:,}', 9), (f'{other.longest:,}', 13), (f'{mine.longest:,}', 13),
                 (f'{mine.longest / max(1, other.longest):.2f}', 5), (f'{other.mean:,}', 11), (f'{mine.mean:,}', 11),
                 (f'{mine.mean / max(1, other.mean):.2f}', 5), (f'{other.heap:,}', 13), (f'{mine.heap:,}', 13)])
        steps = {QUINN: theirs, LENDING: ours}
        saved[f'{work.name} {work.size}'] = {which: [vars(step) for step in list_] for which, list_ in steps.items()}
        save(asked, bench, {'scale': saved})
    return 0


def memory(bench, asked):
    """Prints the bytes on the heap for single things."""
    taken = {which: measuring.memory(bench, which) for which in (QUINN, LENDING, COPYING)}
    head(bench, 'Bytes on the heap')
    titles('', 42)
    for name in taken[QUINN]:
        row([(f'{name:<42}', 42), *compared({which: rows[name] for which, rows in taken.items()}, '{:,.0f}')])
    save(asked, bench, {'memory': taken})
    return 0
