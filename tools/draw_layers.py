#!/usr/bin/env python3
"""Draws all crates of crates.txt in layers, each crate above those that it depends on, for contributors.

    tools/draw_layers.py > crates.svg

A line is left out where other lines lead to the same crate, and goes around the crates between its ends. Crates of tests, and crates that
only tests use, are left out.
"""
import argparse
import os

ROOT = os.path.dirname(os.path.dirname(os.path.abspath(__file__)))
WIDTH, BOX, BEND, HEIGHT, ROW, TOP, LEGEND = 1060, 150, 16, 30, 74, 84, 960
# The part to which each crate belongs. Programs are the crates on which no other depends.
PARTS = [
    ("receive side", "#56b4e9", ("quic_assembler", "quic_ordered", "quic_receiving")),
    ("send side", "#e69f00", ("quic_sending", "quic_queue", "quic_outgoing", "quic_writing", "quic_flows", "quic_retransmits")),
    ("one endpoint", "#009e73", ("quic_history", "quic_streams", "quic_endpoint", "quic_session")),
    ("two endpoints", "#cc79a7", ("quic_link", "quic_exchange", "quic_pair", "quic_steps", "quic_progress")),
]
OTHERS, PROGRAMS = ("values, frames, and other parts", "#bbbbbb"), ("programs and libraries for others", "#f0e442")


def read_crates():
    deps = {}
    with open(os.path.join(ROOT, "crates.txt")) as file:
        for line in file:
            line = line.split("#")[0].strip()
            if line:
                head, _, names = line.partition(":")
                deps[head.split()[0]] = names.split()
    above = {name: [other for other in deps if name in deps[other]] for name in deps}
    kept = {name for name in deps if not all(other.endswith("_tests") for other in above[name] or [name])}
    return {name: [dep for dep in deps[name] if dep in kept] for name in deps if name in kept}


def below(deps, name, known):
    if name not in known:
        known[name] = set(deps[name]).union(*(below(deps, dep, known) for dep in deps[name]))
    return known[name]


def color_of(deps, name):
    for part in PARTS:
        if name in part[2]:
            return part[1]
    is_library = any(name in names for names in deps.values()) or name == "quic_pieces"
    return (OTHERS if is_library else PROGRAMS)[1]


def ranks_of(deps, arrows):
    """The rows, the lowest first: a crate stands above all crates that it depends on."""
    known = {}

    def rank(name):
        if name not in known:
            known[name] = 1 + max([rank(dep) for dep in deps[name]] or [-1])
        return known[name]

    rows = [[] for _ in range(1 + max(rank(name) for name in deps))]
    for name in deps:
        if not deps[name] and not any(name in names for other, names in deps.items() if rank(other) == 1):
            above = [rank(other) for other, names in deps.items() if name in names]
            known[name] = max(0, min(above, default=0) - 1)
        rows[known[name]].append(name)
    return [row for row in rows if row]


def with_bends(rows, arrows):
    """Each line from row to row. Where a line passes a row, it has a place of its own there, a bend."""
    at = {name: index for index, row in enumerate(rows) for name in row}
    rows, joins = [list(row) for row in rows], {}
    for name in arrows:
        for dep in arrows[name]:
            last = name
            for index in range(at[name] - 1, at[dep], -1):
                bend = (name, dep, index)
                rows[index].append(bend)
                joins.setdefault(last, []).append(bend)
                last = bend
            joins.setdefault(last, []).append(dep)
    return rows, {name: joins.get(name, []) for row in rows for name in row}


def width_of(name):
    return BOX if isinstance(name, str) else BEND


def places_of(rows, arrows):
    """The middle of each box and bend. Rows are ordered by what they are joined to, up and down a few times."""
    middle = {}
    for row in rows:
        for index, name in enumerate(row):
            middle[name] = WIDTH * (index + 1) / (len(row) + 1)
    up = {name: [other for other in arrows if name in arrows[other]] for name in arrows}
    for turn in range(24):
        for row in rows if turn % 2 == 0 else reversed(rows):
            joined = arrows if turn % 2 == 0 else up

            def wish(name):
                near = joined[name] or arrows[name] or up[name]
                return sum(middle[other] for other in near) / len(near) if near else middle[name]

            wishes = sorted(((wish(name), name) for name in row), key=lambda it: (it[0], str(it[1])))
            halves = [width_of(name) / 2 for _, name in wishes]
            gaps = [halves[index - 1] + halves[index] + 14 for index in range(1, len(halves))]
            xs = []
            for index, (wished, _) in enumerate(wishes):
                xs.append(max(wished, xs[-1] + gaps[index - 1] if xs else halves[0] + 10))
            most = WIDTH - halves[-1] - 10
            for index in reversed(range(len(xs))):
                xs[index] = min(xs[index], most)
                most = xs[index] - (gaps[index - 1] if index else 0)
            for (_, name), x in zip(wishes, xs):
                middle[name] = x
    return middle


def legend():
    x, out = 20, []
    for label, color in [part[:2] for part in PARTS] + [OTHERS, PROGRAMS]:
        out.append(f"<rect x='{x}' y='44' width='16' height='16' rx='3' fill='{color}' fill-opacity='0.45' stroke='{color}'/>")
        out.append(f"<text x='{x + 22}' y='57'>{label}</text>")
        x += 50 + 7 * len(label)
    return out


def lines(joins, middle, y):
    out = ["<g fill='none' stroke='#888' stroke-width='1.2'>"]
    for name in joins:
        for dep in joins[name]:
            (x1, y1), (x2, y2) = (middle[name], y[name] + HEIGHT), (middle[dep], y[dep])
            bend, through = (y2 - y1) / 2, "" if isinstance(dep, str) else f"V{y2 + HEIGHT}"
            out.append(f"<path d='M{x1:.0f} {y1}C{x1:.0f} {y1 + bend:.0f} {x2:.0f} {y2 - bend:.0f} {x2:.0f} {y2}{through}'/>")
    return out + ["</g>"]


def boxes(deps, middle, y):
    for name in deps:
        color, place = color_of(deps, name), f"x='{middle[name] - BOX / 2:.0f}' y='{y[name]}' width='{BOX}' height='{HEIGHT}' rx='6'"
        yield f"<rect {place} fill='white'/>"
        yield f"<rect {place} fill='{color}' fill-opacity='0.45' stroke='{color}'/>"
        yield f"<text x='{middle[name]:.0f}' y='{y[name] + 20}' text-anchor='middle'>{name}</text>"


def main():
    deps, known = read_crates(), {}
    for name in deps:
        below(deps, name, known)
    arrows = {name: [dep for dep in deps[name] if not any(dep in known[other] for other in deps[name])] for name in deps}
    rows, joins = with_bends(ranks_of(deps, arrows), arrows)
    middle = places_of(rows, joins)
    left = min(x - width_of(name) / 2 for name, x in middle.items()) - 20
    middle = {name: x - left for name, x in middle.items()}
    right = max(x + width_of(name) / 2 for name, x in middle.items())
    width, height = max(LEGEND, round(right + 20)), TOP + ROW * len(rows)
    y = {name: height - ROW * (index + 1) + 20 for index, row in enumerate(rows) for name in row}
    title = "The crates, each above those that it depends on"
    out = [
        f"<svg xmlns='http://www.w3.org/2000/svg' viewBox='0 0 {width} {height}' width='{width}' height='{height}' role='img'>",
        f"<title>{title}</title>",
        f"<rect width='{width}' height='{height}' rx='8' fill='white'/>",
        "<g font-family='sans-serif' font-size='14'>",
        f"<text x='20' y='28' font-size='18'>{title}</text>",
    ]
    print("\n".join([*out, *legend(), *lines(joins, middle, y), *boxes(deps, middle, y), "</g></svg>"]))


if __name__ == "__main__":
    argparse.ArgumentParser(description=__doc__, formatter_class=argparse.RawDescriptionHelpFormatter).parse_args()
    main()
