#!/usr/bin/env python3
"""Puts the text of docs/connector.toml into the test that checks it, since a test reads no file.

The file has each key of the table in FORMATS.md, in its order and at its default.

Usage: docs/settings.py [--check]    with --check nothing is written; status 1 where the test has another text, or the
                                     file another key or value than the table
"""
import re
import sys

from generated import DOCS, ROOT, settle

TEST = ROOT / "crates/cyctl/src/check/tests.rt"
PLACE = re.compile(r'(?<=\nconst CONNECTOR: &\[u8\] =\n    br#").*?(?="#;\n)', re.S)
TABLE = re.compile(r"^\| key of `connector` \|.*?\n\n", re.S | re.M)
ROW = re.compile(r"^\| `(\w+)` \|[^|]*\|[^|]*\| ([\d,]+) \|", re.M)
LINE = re.compile(r"^(\w+) = (\d+)$", re.M)


def file_text():
    text = (DOCS / "connector.toml").read_text(encoding="utf-8")
    table = TABLE.search((DOCS / "FORMATS.md").read_text(encoding="utf-8"))
    if not table or LINE.findall(text) != [(key, value.replace(",", "")) for key, value in ROW.findall(table.group())]:
        sys.exit("settings: docs/connector.toml has not the keys and defaults of the table in docs/FORMATS.md")
    if not text.isascii() or '"#' in text:
        sys.exit("settings: docs/connector.toml can't stand in a test as it is")
    return text


def test_with(text):
    """The test with the text at its place."""
    test, count = PLACE.subn(lambda _: text, TEST.read_text(encoding="utf-8"))
    if count != 1:
        sys.exit("settings: the test has not just one place for docs/connector.toml")
    return test


settle(TEST, test_with(file_text()), __doc__)
