#!/usr/bin/env python3
"""Draws which crate stands on which: docs/crates.svg from crates.txt.

An arrow that follows from others is left out, and so are those of programs whose name ends in _bench, which run parts to
measure them. A crate that no other program stands on has a broken border. Beneath a crate stand the crates of the kit
that it uses.

Usage: docs/crates.py [--check]    with --check nothing is written; status 1 where the picture is another one
"""
from drawing import box, path, picture, text
from generated import DOCS, ROOT, crates, settle

PICTURE = DOCS / "crates.svg"
MOST = 7
WIDTH, HEIGHT, GAP, STEP = 122, 48, 16, 104


def reached(below, name):
    found, todo = set(), [name]
    while todo:
        for other in below[todo.pop()]:
            if other not in found:
                found.add(other)
                todo.append(other)
    return found


def reduced(below):
    """The arrows that follow from no others."""
    return {name: [it for it in own if not any(it in reached(below, other) for other in own if other != it)] for name, own in below.items()}


def layers_of(below):
    """For each crate the row that it stands in, counted from the bottom, with a bound on how many stand in one."""
    rows, layer = [], {}
    order = []
    while len(order) < len(below):
        order += [name for name in below if name not in order and all(it in order for it in below[name])]
    for name in order:
        at = max([layer[it] + 1 for it in below[name]] or [0])
        while at < len(rows) and len(rows[at]) >= MOST:
            at += 1
        while at >= len(rows):
            rows.append([])
        rows[at].append(name)
        layer[name] = at
    return rows, layer


def chains_of(below, layer, rows):
    """Each arrow as a chain with a stop in every row between its ends; the stops are put into the rows."""
    chains = []
    for name, own in below.items():
        for it in own:
            stops = [(name, it, row) for row in range(layer[name] - 1, layer[it], -1)]
            for stop in stops:
                rows[stop[2]].append(stop)
            chains.append([name, *stops, it])
    return chains


def place(rows, chains):
    """The middle of each crate and stop: rows are ordered by what they are joined to, then drawn towards it."""
    joined = {it: [] for row in rows for it in row}
    for chain in chains:
        for one, other in zip(chain, chain[1:]):
            joined[one].append(other)
            joined[other].append(one)
    size = lambda it: WIDTH if isinstance(it, str) else 14
    at = {}

    def spread(row, wanted):
        """Middles as near to the wanted ones as the order allows."""
        xs, edge = [], None
        for it in row:
            x = wanted[it] if edge is None else max(wanted[it], edge + size(it) / 2 + GAP)
            xs.append(x)
            edge = x + size(it) / 2
        shift = sum(wanted[it] - x for it, x in zip(row, xs)) / len(row)
        for it, x in zip(row, xs):
            at[it] = x + shift

    for row in rows:
        for i, it in enumerate(row):
            at[it] = (i - (len(row) - 1) / 2) * (WIDTH + GAP)
    for turn in range(40):
        for row in rows if turn % 2 else reversed(rows):
            wanted = {it: sum(at[other] for other in joined[it]) / len(joined[it]) if joined[it] else at[it] for it in row}
            if turn < 30:
                row.sort(key=lambda it: (wanted[it], str(it)))
            spread(row, wanted)
    return at


def drawn():
    every = crates()
    own = {name: [it for it in below if it in every] for name, below in every.items()}
    kit = {name: [it for it in below if it not in every] for name, below in every.items()}
    benches = [name for name in every if name.endswith("_bench")]
    below = reduced({name: it for name, it in own.items() if name not in benches})
    programs = [name for name in below if (ROOT / "crates" / name / "src/main.rt").exists()]
    joined = set(programs).union(*(reached(own, name) for name in programs))
    stood_on = {it for own_below in below.values() for it in own_below}
    alone = [name for name in below if not below[name] and name not in stood_on]
    rows, layer = layers_of({name: it for name, it in below.items() if name not in alone})
    at = place(rows, chains := chains_of({name: below[name] for name in layer}, layer, rows))
    middle = (min(at[name] for name in layer) + max(at[name] for name in layer)) / 2
    # what neither stands on another crate nor has one above it stands in a row of its own, below the others
    for i, name in enumerate(alone):
        at[name] = middle + (i - (len(alone) - 1) / 2) * (WIDTH + GAP)
        layer[name] = -1
    edge = lambda it: WIDTH / 2 if it in below else 0
    left = min(x - edge(it) for it, x in at.items()) - 20
    width = max(x + edge(it) for it, x in at.items()) + 20 - left
    top = lambda row: 24 + (len(rows) - 1 - row) * STEP
    row_of = {it: i for i, row in enumerate(rows) for it in row}
    lines = []
    for chain in chains:
        points = []
        for it in chain:
            x, y = at[it] - left, top(row_of[it])
            if it == chain[0]:
                points.append((x, y + HEIGHT))
            elif it == chain[-1]:
                points.append((x, y - 1))
            else:
                points += [(x, y), (x, y + HEIGHT)]
        lines.append(path(points))
    for name in below:
        x, y = at[name] - left, top(layer[name])
        kind = "idea" if name in programs else "box"
        lines.append(box(x - WIDTH / 2, y, WIDTH, HEIGHT, kind if name in joined else kind + " apart"))
        lines.append(text(x, y + (21 if kit[name] else 29), name, 15, bold=name in programs))
        if kit[name]:
            used = " ".join(kit[name])
            lines.append(text(x, y + 38, used, min(10.5, round(205 / len(used), 1)), "small"))
    height = 24 + (len(rows) + bool(alone)) * STEP - (STEP - HEIGHT) + 56
    notes = ["An arrow: stands on. Beneath a name: crates of the kit. Broken border: no program stands on it yet."]
    if benches:
        notes.append("Left out: arrows that follow from others, and programs that measure parts (%s)." % ", ".join(benches))
    for i, note in enumerate(notes):
        lines.append(text(width / 2, height - 30 + 18 * i, note, 12.5, "small"))
    return picture(width, height, "Which crate stands on which", lines)


settle(PICTURE, drawn(), __doc__)
