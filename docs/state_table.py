#!/usr/bin/env python3
"""Draws the state table as the definitions have it: docs/state_table.svg from crates/cy_event.

The rows of a state are the lines `x_row call.Y = Some (..)` of specs/Table.antt, behind which `x_row k = None` stands,
and `row state.X = x_row` says whose they are. The order of rows and columns is that of the enums State and Call in
src/steps.rt. The same definitions give the same picture, byte for byte.

Usage: docs/state_table.py [--check]    with --check nothing is written; status 1 where the picture is another one
"""
import re
import sys
from pathlib import Path

ROOT = Path(__file__).resolve().parent.parent
TABLE = ROOT / "crates/cy_event/specs/Table.antt"
STEPS = ROOT / "crates/cy_event/src/steps.rt"
PICTURE = ROOT / "docs/state_table.svg"

CELL = re.compile(r"(\w+_row) call\.(\w+) = Some (?:\((On|Wake) state\.(\w+)\)|(Ends))$")
REST = re.compile(r"(\w+_row) k = None$")
WHOSE = re.compile(r"row state\.(\w+) = (\w+_row)$")
OTHER = re.compile(r"(?!after_)(\w+_)?row ")

LEFT, TOP = 170, 64
WIDTH, HEIGHT = 136, 30
GROUND = {
    "": "#ffffff",
    "open": "#dce9f7",
    "completing": "#dff0dd",
    "dispatching": "#fdf1d3",
    "failing": "#f7dfdc",
    "end": "#d9d9d9",
}
FAMILY = {
    "MustComplete": "completing",
    "CompletePending": "completing",
    "Completing": "completing",
    "MustDispatch": "dispatching",
    "DispatchPending": "dispatching",
    "Dispatching": "dispatching",
    "TimingOut": "failing",
    "MustError": "failing",
    "Error": "failing",
}


def variants(name):
    """The variants of an enum of steps.rt, in their order."""
    body = re.search(r"pub enum %s \{(.*?)\n\}" % name, STEPS.read_text(encoding="utf-8"), re.S)
    if body is None:
        sys.exit("state_table: no enum %s in %s" % (name, STEPS))
    return re.findall(r"^    (\w+),$", body.group(1), re.M)


def lists(calls):
    """The cells of each list, as call to (kind, next state); and whose lists they are, as list to state."""
    cells, whose, closed = {}, {}, set()
    for line in TABLE.read_text(encoding="utf-8").splitlines():
        cell, rest, owner = CELL.match(line), REST.match(line), WHOSE.match(line)
        if cell is not None and cell[1] not in closed and cell[2] in calls and cell[2] not in cells.get(cell[1], {}):
            cells.setdefault(cell[1], {})[cell[2]] = (cell[5] or cell[3], cell[4])
        elif rest is not None and rest[1] not in closed:
            closed.add(rest[1])
        elif owner is not None and owner[2] not in whose:
            whose[owner[2]] = owner[1]
        elif OTHER.match(line) is not None:
            sys.exit("state_table: not a row of the table: " + line)
    if not set(cells) == closed == set(whose):
        sys.exit("state_table: a list of rows that no state has, or without a last line")
    return cells, whose


def rows(states, calls):
    """What each filled cell says: (state, call) to (kind, next state)."""
    of_lists, whose = lists(calls)
    if sorted(whose.values()) != sorted(states):
        sys.exit("state_table: not one list of rows for each state")
    cells = {}
    for name, row in of_lists.items():
        for call, (kind, to) in row.items():
            if to is not None and to not in states:
                sys.exit("state_table: no state " + to)
            cells[whose[name], call] = (kind, to)
    return cells


def capitals(state):
    return re.sub(r"(?<=[a-z])(?=[A-Z])", "_", state).upper()


def text(x, y, words, extra=""):
    return '<text x="%d" y="%d"%s>%s</text>' % (x, y, extra, words)


def cell(x, y, content):
    """One cell: its ground, the state that it leads to, and a mark where it wakes."""
    kind, to = content or ("", None)
    ground = GROUND["end" if kind == "Ends" else FAMILY.get(to, "open") if kind else ""]
    parts = ['<rect x="%d" y="%d" width="%d" height="%d" fill="%s"/>' % (x, y, WIDTH, HEIGHT, ground)]
    middle = x + WIDTH // 2
    if kind == "Ends":
        parts.append(text(middle, y + 19, "ends", ' font-style="italic" text-anchor="middle"'))
    elif kind:
        words = capitals(to) + (" w" if kind == "Wake" else "")
        weight = ' font-weight="bold"' if kind == "Wake" else ""
        parts.append(text(middle, y + 19, words, weight + ' text-anchor="middle"'))
    return parts


def picture():
    states, calls = variants("State"), variants("Call")
    cells = rows(states, calls)
    width = LEFT + WIDTH * len(calls) + 12
    height = TOP + HEIGHT * len(states) + 44
    lines = [
        '<svg xmlns="http://www.w3.org/2000/svg" width="%d" height="%d" viewBox="0 0 %d %d"' % (width, height, width, height),
        '     font-family="sans-serif" font-size="11" fill="#222222">',
        '<rect width="%d" height="%d" fill="#ffffff"/>' % (width, height),
        text(12, 24, "The state table: the state that a call leads to", ' font-size="15" font-weight="bold"'),
    ]
    for i, call in enumerate(calls):
        lines.append(text(LEFT + WIDTH * i + WIDTH // 2, TOP - 10, call, ' font-weight="bold" text-anchor="middle"'))
    lines.append('<g stroke="#b0b0b0" stroke-width="0.5" paint-order="fill">')
    for j, state in enumerate(states):
        for i, call in enumerate(calls):
            x, y = LEFT + WIDTH * i, TOP + HEIGHT * j
            lines.append(cell(x, y, cells.get((state, call)))[0])
    lines.append("</g>")
    for j, state in enumerate(states):
        y = TOP + HEIGHT * j
        lines.append(text(LEFT - 10, y + 19, capitals(state), ' font-weight="bold" text-anchor="end"'))
        for i, call in enumerate(calls):
            lines.extend(cell(LEFT + WIDTH * i, y, cells.get((state, call)))[1:])
    lines.append(text(
        12,
        TOP + HEIGHT * len(states) + 26,
        "%d rows. An empty cell refuses the call. w: a worker is woken. A request begins in %s; after its end no call is taken."
        % (len(cells), capitals(states[0])),
    ))
    lines.append("</svg>")
    return "\n".join(lines) + "\n"


def main():
    drawn = picture()
    if sys.argv[1:] == ["--check"]:
        there = PICTURE.read_text(encoding="utf-8") if PICTURE.exists() else ""
        sys.exit(0 if there == drawn else "state_table: docs/state_table.svg is another picture")
    if sys.argv[1:]:
        sys.exit(__doc__)
    PICTURE.write_text(drawn, encoding="utf-8")


main()
