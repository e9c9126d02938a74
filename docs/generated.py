"""What the scripts of this folder share: where the crates are, how specs/ are read, and how a page is written or checked.

Each script writes one file when it is called without words. With --check it writes nothing, and ends with status 1
where the file isn't what it would write. The same sources give the same file, byte for byte.
"""
import re
import sys
from pathlib import Path

ROOT = Path(__file__).resolve().parent.parent
DOCS = ROOT / "docs"


def crates():
    """The crates of crates.txt in their order: name to the crates that it stands on."""
    found = {}
    for line in (ROOT / "crates.txt").read_text(encoding="utf-8").splitlines():
        line = line.split("#")[0].strip()
        if ":" in line:
            head, below = line.split(":", 1)
            found[head.split()[0]] = below.split()
    return found


def settle(path, text, doc):
    """Writes the file, or with --check tells whether it is there as it should be."""
    words = sys.argv[1:]
    name = path.relative_to(ROOT)
    if words == ["--check"]:
        there = path.read_text(encoding="utf-8") if path.exists() else ""
        if there != text:
            sys.exit("%s: %s isn't up to date: run docs/%s and commit it" % (Path(sys.argv[0]).stem, name, Path(sys.argv[0]).name))
    elif words:
        sys.exit(doc)
    else:
        path.write_text(text, encoding="utf-8")


class Word:
    """A public word of specs/: its name, its first line, its comment, its body, and the heading under which it stands."""

    def __init__(self, name, first, said, body, heading):
        self.name, self.first, self.said, self.body, self.heading = name, first, said, body, heading


BEGINS = re.compile(r"^(?:(?:abbrev|unfoldable|opaque) pub|pub (?:record|data)) +(\S+)(.*)$")


def comment_text(lines):
    return " ".join(line.lstrip("-").strip() for line in lines)


def spec_file(path):
    """What a file of specs/ says: its first comment, and its public words in their order."""
    lines = path.read_text(encoding="utf-8").splitlines()
    first = []
    for line in lines:
        if not line.startswith("--") or line.startswith("-- ----"):
            break
        first.append(line)
    words, comment, heading, at = [], [], "", len(first)
    while at < len(lines):
        line = lines[at]
        at += 1
        if line.startswith("-- ----"):
            heading, comment = line.strip("- "), []
        elif line.startswith("--"):
            comment.append(line)
        elif not line.strip():
            comment = []
        else:
            begun = BEGINS.match(line)
            if begun:
                name = begun.group(1)
                body = []
                while at < len(lines) and lines[at].strip() and not BEGINS.match(lines[at]):
                    body.append(lines[at])
                    at += 1
                words.append(Word(name, line, comment_text(comment), body, heading))
            comment = []
    return comment_text(first), words


def spec_files(crate):
    """The files of a crate's specs/, in the order in which its Lib.antt names them."""
    folder = ROOT / "crates" / crate / "specs"
    if not (folder / "Lib.antt").exists():
        return []
    names = re.findall(r"^(?:pub )?mod (\w+)", (folder / "Lib.antt").read_text(encoding="utf-8"), re.M)
    return [folder / (name + ".antt") for name in names]


def cell(text):
    """A text as a cell of a table."""
    return text.replace("|", "\\|")
