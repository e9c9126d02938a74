#!/usr/bin/env python3
"""Tells which word of specs/ or constant of the code has two meanings, and whether the glossary has each word once.

A word has two meanings where two files of specs/ define it by different texts, and a constant where two files give it
different values, if both are of one crate, or one of their crates stands on the other. What may have two is listed in
docs/words.txt, each with the reason. Constants of tests, and those of a type, don't count.

Usage: docs/words.py [--check]    status 1 where a word or constant that isn't listed has two meanings
"""
import re
import sys

from generated import DOCS, ROOT, crates, spec_file, spec_files

LISTED = DOCS / "words.txt"
CONSTANT = re.compile(r"^(?:pub(?:\([a-z]+\))? )?const (\w+): [^=]+ = ([^;]+);", re.M)


def listed():
    """The words that may have two meanings, with the reasons."""
    reasons = {}
    for line in LISTED.read_text(encoding="utf-8").splitlines():
        if line and not line.startswith("#"):
            name, colon, reason = line.partition(": ")
            if not reason or name in reasons:
                sys.exit("words: not a word and its reason: " + line)
            reasons[name] = reason
    return reasons


def spec_words():
    """Each word of specs/ with its texts, and where each text stands."""
    found = {}
    for crate in crates():
        for path in spec_files(crate):
            for word in spec_file(path)[1]:
                first = re.sub(r"^(?:abbrev|unfoldable|opaque) ", "", word.first)
                text = " ".join(" ".join([first, *word.body]).split())
                found.setdefault(word.name, {}).setdefault(text, []).append("%s/%s" % (crate, path.stem))
    return found


def above_each_other():
    """For each crate itself, those that it stands on, and those that stand on it."""
    below = crates()
    reached = {}
    for name in below:
        found, todo = {name}, [name]
        while todo:
            for it in below.get(todo.pop(), []):
                if it in below and it not in found:
                    found.add(it)
                    todo.append(it)
        reached[name] = found
    return {name: reached[name] | {it for it in below if name in reached[it]} for name in below}


def meet(texts, near):
    """Whether two of the places with different texts are of one crate, or of two of which one stands on the other."""
    crate = lambda place: place.split("/")[0]
    places = [[crate(place) for place in found] for found in texts.values()]
    return any(b in near[a] for i, one in enumerate(places) for other in places[i + 1 :] for a in one for b in other)


def constants():
    """Each constant of the code with its values, and where each stands."""
    found = {}
    for path in sorted((ROOT / "crates").glob("*/src/**/*.rt")):
        if "tests" in path.relative_to(ROOT).as_posix():
            continue
        source = path.read_text(encoding="utf-8").split("#[cfg(test)]")[0]
        for name, value in CONSTANT.findall(source):
            value = " ".join(value.replace("_", "").split())
            found.setdefault(name, {}).setdefault(value, []).append(path.relative_to(ROOT / "crates").as_posix())
    return found


def glossary_faults():
    words = re.findall(r"^\| ([a-z][^|]*?) \|", (DOCS / "GLOSSARY.md").read_text(encoding="utf-8"), re.M)[1:]
    twice = sorted({word for word in words if words.count(word) > 1})
    faults = ["GLOSSARY.md has '%s' twice" % word for word in twice]
    if words != sorted(words):
        faults.append("GLOSSARY.md isn't in order: %s" % next(b for a, b in zip(words, words[1:]) if b < a))
    return faults


def main():
    if sys.argv[1:] not in ([], ["--check"]):
        sys.exit(__doc__)
    reasons, faults, met, near = listed(), glossary_faults(), set(), above_each_other()
    for kind, found in (("word", spec_words()), ("constant", constants())):
        for name, texts in sorted(found.items()):
            if len(texts) > 1 and meet(texts, near):
                met.add(name)
                if name not in reasons:
                    places = "; ".join(", ".join(places) for places in texts.values())
                    faults.append("the %s %s has %d meanings: %s. Rename one, or list it in docs/words.txt with the reason" % (kind, name, len(texts), places))
    for line in faults:
        print("words: " + line)
    for name in sorted(set(reasons) - met):
        print("words: note: docs/words.txt lists %s, which has one meaning now" % name)
    sys.exit(1 if faults else 0)


main()
