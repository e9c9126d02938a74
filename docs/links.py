#!/usr/bin/env python3
"""Checks the pages: dead links, paths and names that aren't there, crates without a page, and the length of README.

- A link to a file of the repository leads to one, and a `#part` of it to a heading there.
- A path between backquotes is there: from the top, from the page's own folder, or from crates/; NAME stands for any.
- A name between backquotes that is written as code is (`snake_case`, `CamelCase`, `Type::method`) stands in some source.
- In a crate's page, each function, clause and law of the tables stands in the crate's src/ or specs/.
- Each crate of crates.txt has a page, and a line in the table of README; README has at most 130 lines.

Usage: docs/links.py [--check]    status 1 where something is amiss; each fault is a line
"""
import fnmatch
import functools
import os
import re
import sys
from pathlib import Path

from generated import ROOT, crates

MOST_LINES = 130
LINK = re.compile(r"!?\[[^\]]*\]\(([^)\s]+)\)")
SPAN = re.compile(r"`([^`\n]+)`")
PATH = re.compile(r"[\w.*-]*(?:/[\w.*-]+)*(?:/|\.(?:rt|antt|md|py|sh|svg|txt|edit))|(?:crates|docs|bench|cases|\.ci)/[\w./*-]+")
NAME = re.compile(r"(?:\w+::)*\w+")
CODE = re.compile(r"[a-z0-9]+(?:_[a-z0-9]+)+|[A-Z][a-z0-9]+(?:[A-Z][a-z0-9]*)+|[a-z]+(?:[A-Z][a-z0-9]+)+")
# the table of a page tells these of a function in its last column, and they are no names
PROVED = "## What is proved"
faults = []


def fault(page, text):
    faults.append("%s: %s" % (page.relative_to(ROOT), text))


@functools.lru_cache(maxsize=None)
def every_file():
    """All files of the repository, but for what is built, in order."""
    found = []
    for folder, folders, names in os.walk(ROOT):
        folders[:] = sorted(it for it in folders if it not in ("out", ".git", "wip", "__pycache__"))
        found += [Path(folder) / name for name in sorted(names)]
    return found


@functools.lru_cache(maxsize=None)
def files(pattern):
    """The files whose name, or whose path from the top, is of this pattern."""
    at = (lambda path: path.relative_to(ROOT).as_posix()) if "/" in pattern else (lambda path: path.name)
    return [path for path in every_file() if fnmatch.fnmatch(at(path), pattern)]


def without_blocks(text):
    """The text without what stands in fences, where nothing is a link or a name."""
    return re.sub(r"^```.*?^```", "", text, flags=re.S | re.M)


def anchors(text):
    """The anchors of a page's headings, as a browser's page of it has them."""
    found = set()
    for heading in re.findall(r"^#+ +(.*)$", without_blocks(text), re.M):
        heading = re.sub(r"\[([^\]]*)\]\([^)]*\)", r"\1", heading).replace("`", "").lower()
        slug = re.sub(r"[^\w\- ]", "", heading).replace(" ", "-")
        number = 0
        while slug + ("-%d" % number if number else "") in found:
            number += 1
        found.add(slug + ("-%d" % number if number else ""))
    return found


def check_links(page, text):
    for target in LINK.findall(text):
        if re.match(r"[a-z]+:", target):
            continue
        name, _, part = target.partition("#")
        path = (page.parent / name).resolve() if name else page
        if not path.exists():
            fault(page, "the link %s leads nowhere" % target)
        elif part and path.suffix == ".md" and part not in anchors(path.read_text(encoding="utf-8")):
            fault(page, "%s has no heading #%s" % (path.relative_to(ROOT), part))


def is_there(page, path):
    """Whether the path is there, from any of the folders from which pages name files."""
    crate = page.parents[0] if page.parent.parent == ROOT / "crates" else None
    path = path.replace("NAME", "*")
    roots = [ROOT, page.parent, ROOT / "crates"] + ([crate / it for it in ("src", "specs", "proofs")] if crate else [])
    if any(any(True for _ in root.glob(path.rstrip("/"))) for root in roots if root.is_dir()):
        return True
    if path.rstrip("/") in ("src", "specs", "proofs", "must-fail"):
        return True
    if "/" not in path:
        return any(True for _ in files(path))
    # proofs/F.antt or specs/F.antt of the crate that the sentence speaks of
    return path.split("/")[0] in ("src", "specs", "proofs", "must-fail") and any(True for _ in files("crates/*/" + path))


def check_names(page, text, words):
    for span in SPAN.findall(text):
        if PATH.fullmatch(span):
            if not span.startswith("/") and not is_there(page, span):
                fault(page, "there is no %s" % span)
        elif NAME.fullmatch(span):
            for word in span.split("::"):
                if CODE.fullmatch(word) and word not in words:
                    fault(page, "no source has the name %s" % word)


def check_tables(page, text, source):
    """The last column of the tables of what is proved: functions, clauses, laws and invariants of this crate."""
    part = text.partition(PROVED)[2].partition("\n## ")[0]
    for line in part.splitlines():
        cells = line.strip("| ").split(" | ")
        if line.startswith("| ") and len(cells) == 2 and cells[0] != "proved":
            for span in SPAN.findall(cells[1]):
                for word in [] if PATH.fullmatch(span) else re.findall(r"\w+", span):
                    if word not in source:
                        fault(page, "the crate has no name %s" % word)


def main():
    if sys.argv[1:] not in ([], ["--check"]):
        sys.exit(__doc__)
    pages = files("*.md")
    sources = {path: path.read_text(encoding="utf-8") for pattern in ("*.rt", "*.antt") for path in files(pattern)}
    words = set(re.findall(r"\w+", "\n".join(sources.values())))
    words.update(word for path in files("*") for word in re.findall(r"\w+", path.relative_to(ROOT).as_posix()))
    words.update(name for below in crates().values() for name in below)
    top = ROOT / "README.md"
    for page in pages:
        text = page.read_text(encoding="utf-8")
        plain = without_blocks(text)
        check_links(page, plain)
        check_names(page, plain, words)
    for name in crates():
        page = ROOT / "crates" / name / "README.md"
        if not page.exists():
            fault(page, "the crate has no page")
        else:
            source = set(re.findall(r"\w+", "\n".join(text for path, text in sources.items() if path.is_relative_to(page.parent) and "proofs" not in path.parts)))
            check_tables(page, page.read_text(encoding="utf-8"), source)
        if "[%s](crates/%s/README.md)" % (name, name) not in top.read_text(encoding="utf-8"):
            fault(top, "the table of crates has no line for %s" % name)
    if len(top.read_text(encoding="utf-8").splitlines()) > MOST_LINES:
        fault(top, "more than %d lines" % MOST_LINES)
    for line in faults:
        print(line)
    print("links: %d pages were read, %d faults" % (len(pages), len(faults)))
    sys.exit(1 if faults else 0)


main()
