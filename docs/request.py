#!/usr/bin/env python3
"""Draws the life of a request from its socket to its answer, over the crates: docs/request.svg.

Usage: docs/request.py [--check]    with --check nothing is written; status 1 where the picture is another one
"""
import sys

from drawing import arrow, box, path, picture, text
from generated import DOCS, crates, settle

PICTURE = DOCS / "request.svg"

# Who acts from outside; what happens; the words of the code; the crates in which it happens.
STEPS = [
    ("socket", "bytes come, in any pieces", "`World::step`: they go into the in ring", ["cy_world", "cy_rings"]),
    ("", "a head is due where its empty line has come", "`Line::settle` asks `head_due`", ["cy_head"]),
    ("", "the connection gets the slot of its place", "`Slot::bind`: it is the tenant with the next number", ["cy_world", "cy_slot"]),
    ("", "the head is read into its table, and judged", "`Processor::open`: head, target, framing, rule", ["cy_head", "cy_target", "cy_framing", "cy_map"]),
    ("", "a request begins: its service is owed", "it is open, in DISPATCHED", ["cy_proc", "cy_states"]),
    ("worker", "a worker turns to it, and the service begins", "`Processor::run`: the call Run", ["cy_proc", "cy_states"]),
    ("component", "the component reads, writes, and returns", "`Processor::act`: the call Return ends it", ["cy_proc", "cy_in", "cy_states"]),
    ("", "its answer is written: head, Date, content", "into the out ring, in one piece", ["cy_proc", "cy_respond"]),
    ("", "the slot is emptied, for whoever comes next", "`Slot::release`: late calls for its tenant touch nothing", ["cy_world", "cy_slot"]),
    ("socket", "the socket takes bytes, as many as it can", "`Line::event` drops them from the out ring", ["cy_rings"]),
]
FIRST, JUDGED, ANSWERED, RELEASED, LAST = 1, 3, 7, 8, 9

LEFT, MIDDLE, RIGHT = 16, 178, 740
WIDE, TALL, STEP, TOP = 364, 56, 84, 56


def drawn():
    known = crates()
    for step in STEPS:
        for name in step[3]:
            if name not in known:
                sys.exit("request: crates.txt has no crate %s" % name)
    y = lambda row: TOP + STEP * row
    lines = [
        text(LEFT + 60, 36, "outside", 13, "small"),
        text(MIDDLE + WIDE / 2, 36, "what happens", 13, "small"),
        text(RIGHT + 130, 36, "in which crates", 13, "small"),
    ]
    for row, (who, says, code, where) in enumerate(STEPS):
        middle = y(row) + TALL / 2
        lines.append(box(MIDDLE, y(row), WIDE, TALL, "code"))
        lines.append(text(MIDDLE + WIDE / 2, y(row) + 24, says, 14, bold=True))
        lines.append(text(MIDDLE + WIDE / 2, y(row) + 44, code, 12.5, "small"))
        if who:
            lines.append(box(LEFT, y(row) + 10, 120, TALL - 20, "idea"))
            lines.append(text(LEFT + 60, middle + 5, who, 14.5))
            gives = (LEFT + 120, MIDDLE - 2) if row != LAST else (MIDDLE, LEFT + 122)
            lines.append(arrow(gives[0], middle, gives[1], middle))
        if row:
            lines.append(arrow(MIDDLE + WIDE / 2, y(row - 1) + TALL, MIDDLE + WIDE / 2, y(row) - 2))
        for i, name in enumerate(where):
            x, up = RIGHT + 132 * (i % 2), 30 * (i // 2)
            high = y(row) + (TALL - 26 - 30 * ((len(where) - 1) // 2)) / 2 + up
            lines.append(box(x, high, 124, 26, "box"))
            lines.append(text(x + 62, high + 18, name, 13.5))
    # where no service begins
    side = MIDDLE + WIDE + 20
    low, high = y(ANSWERED) + TALL / 2, y(JUDGED) + TALL / 2
    lines.append('<path class="edge" d="M%g,%g H%g V%g H%g" marker-end="url(#tip)"/>' % (MIDDLE + WIDE, high, side, low, MIDDLE + WIDE + 2))
    for i, note in enumerate(["refused: 400, 417, 501,", "and the connection closes;", "or no rule: 404, and it is", "over at once"]):
        lines.append(text(side + 12, (low + high) / 2 - 67 + 18 * i, note, 12.5, "small", "start"))
    # the next request
    back = MIDDLE - 24
    from_y, to_y = y(RELEASED) + TALL / 2, y(FIRST) + TALL / 2
    lines.append('<path class="edge" d="M%g,%g H%g V%g H%g" marker-end="url(#tip)"/>' % (MIDDLE, from_y, back, to_y, MIDDLE - 2))
    for i, note in enumerate(["the next head,", "where it may stay;", "else it closes"]):
        lines.append(text(back - 10, y(4) + 12 + 18 * i, note, 12.5, "small", "end"))
    height = y(len(STEPS) - 1) + TALL + 56
    lines.append(text(506, height - 24, "A connection is a `Line` and, while it sits in a slot, the `Processor` there. Both stand for a trace: see MODEL.", 13, "small"))
    return picture(1012, height, "The life of a request, from its socket to its answer", lines)


settle(PICTURE, drawn(), __doc__)
