#!/usr/bin/env python3
"""Draws how a trace, its folds and the parts that the code keeps hang together: docs/trace.svg.

Usage: docs/trace.py [--check]    with --check nothing is written; status 1 where the picture is another one
"""
import sys

from drawing import arrow, box, picture, text
from generated import DOCS, settle, spec_file, spec_files

PICTURE = DOCS / "trace.svg"

# The marks of the worked example, the newest first, as the definitions keep them.
MARKS = ["over", "called Return", "back", "put \"hello\"", "called Run", "started the service", "began the request", "came, 27 bytes", "opened"]
FOLDS = [
    ("unread", "bytes that wait"),
    ("unsent", "output that waits"),
    ("cause_of", "the first cause to close"),
    ("is_open", "whether a request is open"),
    ("running", "the callback that runs"),
    ("calls", "its calls of the table"),
    ("answer_of", "its answer so far"),
]
PARTS = ["in ring, out ring", "counts, how far the body came", "the cause, the last moment", "stage of the request", "table of its head", "state and chart", "content so far"]


def square(lines, x, y, kind, title, under):
    lines.append(box(x, y, 200, 52, kind))
    lines.append(text(x + 100, y + 22, title, 14.5, bold=True))
    lines.append(text(x + 100, y + 41, under, 12, "small"))


def drawn():
    known = {word.name for path in spec_files("cy_model") for word in spec_file(path)[1]}
    for name, _ in FOLDS:
        if name not in known:
            sys.exit("trace: cy_model has no word %s" % name)
    lines = []
    columns = [(24, 220, "trace: what happened", "all of it; no code has it"), (330, 250, "folds: what it says", "words of cy_model"), (666, 250, "parts: what the code keeps", "`Line` and `Processor` of cy_proc")]
    for x, wide, title, under in columns:
        lines.append(text(x + wide / 2, 30, title, 15, bold=True))
        lines.append(text(x + wide / 2, 50, under, 12.5, "small"))
    for i, mark in enumerate(MARKS):
        lines.append(box(24, 66 + 30 * i, 220, 26, "idea"))
        lines.append(text(134, 84 + 30 * i, mark, 13.5))
    for i, (name, says) in enumerate(FOLDS):
        y = 72 + 38 * i
        lines.append(box(330, y, 250, 32, "idea"))
        lines.append(text(342, y + 21, "`%s`" % name, 13, anchor="start", bold=True))
        lines.append(text(570, y + 21, says, 12, "small", "end"))
    for i, part in enumerate(PARTS):
        y = 72 + 38 * i
        lines.append(box(666, y, 250, 32, "code"))
        lines.append(text(791, y + 21, part, 13.5))
    lines.append(arrow(250, 200, 324, 200))
    lines.append(text(287, 190, "fold", 12.5, "small"))
    lines.append('<path class="edge" d="M586,200 H660"/>')
    lines.append(text(623, 190, "equal", 12.5, "small"))
    lines.append(text(134, 66 + 30 * len(MARKS) + 16, "the newest first; it only grows", 12.5, "small"))
    # the square
    top = 420
    lines.append(text(470, top - 36, "A contract \"for every trace\": whichever trace the parts stood for, they stand for the next one, and the reply is its reply", 13.5, bold=True))
    square(lines, 90, top, "idea", "trace T", "before the call")
    square(lines, 650, top, "idea", "trace after the entry", "its marks in front of T")
    square(lines, 90, top + 130, "code", "parts p", "before the call")
    square(lines, 650, top + 130, "code", "parts after the call", "buffers moved, counts changed")
    lines.append(arrow(296, top + 26, 644, top + 26))
    lines.append(text(470, top + 16, "an entry: `after`, `reply_to`", 13))
    lines.append(text(470, top + 46, "defined over whole histories", 12, "small"))
    lines.append(arrow(296, top + 156, 644, top + 156))
    lines.append(text(470, top + 146, "a call: `event`, `run`, `act`, `settle`, `open`", 13))
    lines.append(text(470, top + 176, "code over buffers", 12, "small"))
    for x in (190, 750):
        lines.append('<path class="edge" d="M%d,%d V%d" marker-start="url(#tip)" marker-end="url(#tip)"/>' % (x, top + 56, top + 126))
        lines.append(text(x + 10, top + 96, "stand for", 12.5, "small", "start"))
    return picture(940, top + 210, "A trace, its folds, and the parts that the code keeps", lines)


settle(PICTURE, drawn(), __doc__)
