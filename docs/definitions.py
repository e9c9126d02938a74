#!/usr/bin/env python3
"""Lists the definitions: docs/DEFINITIONS.md from the specs/ of each crate, each word with the comment in front of it.

Usage: docs/definitions.py [--check]    with --check nothing is written; status 1 where the page is another one
"""
from generated import DOCS, cell, crates, settle, spec_file, spec_files

PAGE = DOCS / "DEFINITIONS.md"
HEAD = """# The definitions, word by word

`docs/definitions.py` makes this page of the `specs/` of each crate: every public word with the comment that stands in front of it, under the headings of its file. A constant is told with its value. A section is one of a standard: RFC 9110 (HTTP semantics), RFC 9112 (HTTP/1.1), RFC 3986 (URIs) or Servlet 3.1 (JSR 340); where none is named, in the comment or at the head of the file, the word is this project's own. [MODEL](MODEL.md) tells the idea, [LAWS](LAWS.md) what is proved of them, [GLOSSARY](GLOSSARY.md) the words of the trade.
"""


def value_of(word):
    """` = 16384` where the body is one short line without arguments, else nothing."""
    if len(word.body) == 1 and word.body[0].startswith(word.name + " = "):
        value = word.body[0][len(word.name) + 3 :]
        if len(value) <= 40 and (value[0].isdigit() or value.startswith(("codes ", "byte "))):
            return " = `%s`" % value
    return ""


def rows(words):
    """A table of the words that have a comment or a value, and a line of the others' names."""
    told = [word for word in words if word.said or value_of(word)]
    bare = [word for word in words if not (word.said or value_of(word))]
    lines = []
    if told:
        lines += ["", "| word | meaning |", "|---|---|"]
        lines += ["| `%s`%s | %s |" % (word.name, cell(value_of(word)), cell(word.said)) for word in told]
    if bare:
        lines += ["", "%s: %s." % ("Beside them" if told else "Words", ", ".join("`%s`" % word.name for word in bare))]
    return lines


def page():
    lines = [HEAD.rstrip("\n")]
    for crate in crates():
        files = spec_files(crate)
        if not files:
            continue
        lines += ["", "## %s" % crate]
        for path in files:
            said, words = spec_file(path)
            lines += ["", "### [%s/%s](../crates/%s/specs/%s)" % (crate, path.stem, crate, path.name), "", said or "(nothing is said of this file)"]
            headings = list(dict.fromkeys(word.heading for word in words))
            for heading in headings:
                if heading:
                    lines += ["", "*%s*" % heading]
                lines += rows([word for word in words if word.heading == heading])
    return "\n".join(lines) + "\n"


settle(PAGE, page(), __doc__)
