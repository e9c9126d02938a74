#!/usr/bin/env python3
"""Lists the laws: docs/LAWS.md from the crates, each law with the comment of the function that carries it.

A law is a public function without parameters and with an empty body, whose contract is the law: a check proves it.

Usage: docs/laws.py [--check]    with --check nothing is written; status 1 where the page is another one
"""
import re
import sys

from generated import DOCS, ROOT, cell, crates, settle, spec_file, spec_files

PAGE = DOCS / "LAWS.md"
HEAD = """# The laws

`docs/laws.py` makes this page. A law is a fact about definitions. It is the contract of a public function without parameters, whose body is empty: a check proves it, and a call of it asks for nothing. The text beside each law is the comment of its function, and the statement is the word of `specs/` that the contract names, or the contract itself where that is short. [DEFINITIONS](DEFINITIONS.md) tells what the words mean.
"""
LAW = re.compile(
    r"(?P<said>(?:^///[^\n]*\n)+)(?:^#\[[^\n]*\]\n)*^pub fn (?P<name>\w+)\(\)\n(?P<clauses>(?:^[ \t]+[^\n]*\n)+)^\{\}", re.M
)
EMPTY = re.compile(r"^pub fn \w+\(\)\n(?:^[ \t]+[^\n]*\n)+^\{\}", re.M)
CLAUSE = re.compile(r"ensures(?: (?P<label>\w+))? \{(?P<fact>.*?)\}\s*(?=ensures|\Z)", re.S)


def statement(fact, stands_in, crate):
    """The word of specs/ that a clause names, with its file; or the clause itself."""
    fact = " ".join(fact.split())
    if re.fullmatch(r"\w+", fact) and fact in stands_in:
        owner, path = stands_in[fact]
        return "[`%s`](../crates/%s/specs/%s)" % (fact, owner, path.name)
    return "`%s`" % fact


def words_by_crate():
    """Where each word stands: by crate, so that a word of the crate itself comes before one of another."""
    return {crate: {word.name: (crate, path) for path in spec_files(crate) for word in spec_file(path)[1]} for crate in crates()}


def laws_of(crate, known):
    rows = []
    own = {}
    for other, words in known.items():
        own.update(words)
    own.update(known[crate])
    for path in sorted((ROOT / "crates" / crate / "src").rglob("*.rt")):
        source = path.read_text(encoding="utf-8")
        if len(EMPTY.findall(source)) != len(LAW.findall(source)):
            sys.exit("laws: a law of %s has no comment" % path.relative_to(ROOT))
        for law in LAW.finditer(source):
            said = " ".join(line[3:].strip() for line in law.group("said").splitlines())
            facts = []
            for clause in CLAUSE.finditer(law.group("clauses")):
                label = clause.group("label")
                facts.append(("%s: " % label if label else "") + statement(clause.group("fact"), own, crate))
            link = path.relative_to(ROOT).as_posix()
            rows.append("| [`%s`](../%s) | %s | %s |" % (law.group("name"), link, cell(said), cell("; ".join(facts))))
    return rows


def page():
    known = words_by_crate()
    found = {crate: laws_of(crate, known) for crate in crates()}
    count = sum(len(rows) for rows in found.values())
    lines = [HEAD.rstrip("\n"), "", "%d laws are proved." % count]
    for crate, rows in found.items():
        if rows:
            lines += ["", "## %s" % crate, "", "| law | says | statement |", "|---|---|---|", *rows]
    return "\n".join(lines) + "\n"


settle(PAGE, page(), __doc__)
