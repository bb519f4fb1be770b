#!/usr/bin/env python3
"""Brings the definitions and lemmas of this repository to the spelling of today's Rattle: snake case, with types and facts in camel case.

usage: python3 tools/respell.py [--dry]      at the top of the repository, once, after the kit's port.py

A name that a specs/ or proofs/ file of ours declares (a definition, a lemma, a field, a constructor in lower case) is turned wherever it stands:
a capital inside becomes _ and a small letter, a dash becomes _. Names that start with a capital, names of src/, and names that a proof of a
function answers to (tie.NAME) stay. It prints each place where a new name was there before, which is to be looked at.
"""
import collections
import glob
import re
import sys

WORD = re.compile(r"[^\s(){}.,;@]+")
DECLARED = re.compile(r"^(?:pub |unfoldable |abbrev |data |record )*([^\s:(){}=.,]+)\s*(?::|\(|\{)")
FIELD = re.compile(r"^\s+(?:pub )?([^\s:(){}=.,]+) : ")
NEED = re.compile(r"^([^\s:(){}=.,]+) : tie\.")


# A lemma that would have its function's name gets _lem.
LEMMAS = [
    ("crates/forms/proofs/Meaning.antt", "is-fit"),
    ("crates/rules/proofs/Keys.antt", "with-key"),
    ("crates/corrections/proofs/Theorems.antt", "one-digit"),
    ("crates/tally/proofs/Places.antt", "other-cell"),
    ("crates/tally/proofs/cells/cell/Proof.antt", "other-cell"),
    ("crates/tally/proofs/Histories.antt", "in_cell"),
    ("crates/text/proofs/Modes.antt", "end-from"),
    ("crates/corrections/proofs/completing/complete_by/Proof.antt", "check-of"),
]


def lemmas(path, text):
    for where, name in LEMMAS:
        if where == path:
            text = re.sub(r"(?<![\w.-])" + re.escape(name) + r"(?![\w'-])", snake(name) + "_lem", text)
    return text


def snake(name):
    if name[:1].isupper() or not name[:1].isalpha():
        return name
    name = re.sub(r"(?<=[a-z0-9])([A-Z])", lambda m: "_" + m.group(1).lower(), name)
    return name.replace("-", "_")


def antt():
    return sorted(glob.glob("crates/*/specs/**/*.antt", recursive=True) + glob.glob("crates/*/proofs/**/*.antt", recursive=True))


def declared(path):
    for line in open(path, encoding="utf-8"):
        m = DECLARED.match(line) or FIELD.match(line)
        if m and not NEED.match(line):
            yield m.group(1)


def main():
    names = collections.defaultdict(set)
    kept = set()
    for path in antt():
        for line in open(path, encoding="utf-8"):
            m = NEED.match(line)
            if m:
                kept.add(m.group(1))
        for name in declared(path):
            if snake(name) != name and not name.endswith("-spec"):
                names[name].add(path)
    for name in sorted(kept & set(names)):
        print(f"answers a need somewhere, and is ours elsewhere: {name}: {sorted(names[name])}")
    turn = {name: snake(name) for name in names}
    together = collections.defaultdict(set)
    for old, new in turn.items():
        together[new].add(old)
    for new, olds in sorted(together.items()):
        if len(olds) > 1:
            print(f"fall together as {new}: {sorted(olds)}")
    for path in antt() + sorted(glob.glob("crates/*/src/**/*.rt", recursive=True)):
        was = open(path, encoding="utf-8").read()
        text = lemmas(path, was)
        out = []
        for line in text.split("\n"):
            if NEED.match(line):
                head, rest = line.split(":", 1)
                line = head + ":" + WORD.sub(lambda m: turn.get(m.group(0), m.group(0)), rest)
            else:
                line = WORD.sub(lambda m: turn.get(m.group(0), m.group(0)), line)
            out.append(line)
        new = "\n".join(out)
        if new != was:
            before = set(WORD.findall(text))
            for name in sorted(set(WORD.findall(new)) - set()):
                if name in together and name in before and any(o in before for o in together[name]):
                    print(f"was there before: {path}: {name} (now also {sorted(o for o in together[name] if o in before)})")
            if "--dry" not in sys.argv:
                open(path, "w", encoding="utf-8").write(new)


main()
