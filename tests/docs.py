#!/usr/bin/env python3
"""Holds the documents to what the programs do.

    tests/docs.py                says what was compared; exits 1 and names each command, case, sum, link or citation that differs
    tests/docs.py --self-test    small documents with one fault each: every fault must be found, and nothing else

Commands: in README.md and docs/RULES.md each line of an indented or fenced block that begins with "$ " is run by sh in the repository's folder.
What it prints, on both outputs, must be the lines behind it, up to the next command or the block's end.
Cases: each case in the two tables of docs/RULES.md, Cases on both sides, is asked of the library.
Facts: the tables of reasons, terms and schemes there are those of the library and of the Python package.
Sums: each equation between whole numbers in docs/RULES.md, and each number there that is worked through under its weights.
Links: each link of the documents leads to a file, or to a heading.
Citations: each "docs/RULES.md, HEADING" in a file of the repository names a heading that is there.

Needs the program and the library as they are built: target/native/checklines, target/c/libpartyid.so."""
from __future__ import annotations

import argparse
import math
import os
import pathlib
import re
import subprocess
import sys
from typing import Callable, Iterator, NamedTuple

ROOT = pathlib.Path(__file__).resolve().parent.parent
COMMANDS = ("README.md", "docs/RULES.md")
RULES = "docs/RULES.md"
# Commands that are shown and not run here, each with its ground.
NOT_RUN = {
    ".ci/run": "the gate, of which this test is a part",
    "cc -o check examples/check.c $(pkg-config --cflags --libs partyid)": "tests/run builds it so, on an installed library",
    "./check 0088 34 71": "tests/run compares what it prints",
}
SECONDS = 60

sys.dont_write_bytecode = True
sys.path.insert(0, str(ROOT / "bindings/python"))

# ---- Commands


class Example(NamedTuple):
    command: str
    shown: list[str]


def blocks(text: str) -> Iterator[list[str]]:
    """The lines of each block, fenced or indented by four, without fence and indentation."""
    block: list[str] = []
    fence = ""
    before = ""
    for line in [*text.split("\n"), "end"]:
        mark = re.match(r"\s*(```+|~~~+)", line)
        if fence:
            if mark and line.strip().startswith(fence):
                yield block
                block, fence = [], ""
            else:
                block.append(line)
        elif mark:
            if block:
                yield block
            block, fence = [], mark.group(1)
        elif line.startswith("    ") and (block or not before.strip()):
            block.append(line[4:])
        elif block and not line.strip():
            block.append("")
        elif block:
            yield block
            block = []
        before = line


def examples(text: str) -> Iterator[Example]:
    """Each command with the lines that are shown behind it, blank ones at the end left out."""
    for block in blocks(text):
        found: list[Example] = []
        for line in block:
            if line.startswith("$ "):
                found.append(Example(line[2:].strip(), []))
            elif found:
                found[-1].shown.append(line.rstrip())
        for command, shown in found:
            yield Example(command, "\n".join(shown).rstrip().split("\n") if "".join(shown) else [])


def printed(command: str) -> list[str]:
    env = {**os.environ, "PYTHONDONTWRITEBYTECODE": "1"}
    try:
        done = subprocess.run(["sh", "-c", command], cwd=ROOT, env=env, stdin=subprocess.DEVNULL, stdout=subprocess.PIPE,
                              stderr=subprocess.STDOUT, timeout=SECONDS)
    except subprocess.TimeoutExpired:
        return [f"(nothing within {SECONDS} s)"]
    return [line.rstrip() for line in done.stdout.decode("utf-8", "replace").rstrip("\n").split("\n")] if done.stdout else []


def command_faults(name: str, text: str) -> tuple[int, list[str]]:
    ran, faults = 0, []
    for command, shown in examples(text):
        if command in NOT_RUN:
            continue
        ran += 1
        got = printed(command)
        if got != shown:
            faults.append("\n    ".join([f"{name}: another output: $ {command}", "shown:", *shown, "printed:", *got]))
    return ran, faults


# ---- Cases


def unescaped(text: str) -> bytes:
    r"""'' is nothing, \hh a byte, {n:t} the text t n times."""
    if text == "''":
        return b""
    text = re.sub(r"\{(\d+):([^}]*)\}", lambda m: int(m.group(1)) * m.group(2), text)
    parts = re.split(r"\\([0-9a-f]{2})", text)
    return b"".join(bytes([int(part, 16)]) if i % 2 else part.encode() for i, part in enumerate(parts))


def tables(text: str) -> Iterator[list[list[str]]]:
    """The rows of each table, its head first, as the texts of their cells."""
    for found in re.finditer(r"(?m)(?:^\|.*\|\n)+", text):
        rows = [[cell.strip() for cell in re.split(r"(?<!\\)\|", line)[1:-1]] for line in found.group().splitlines()]
        yield [row for row in rows if not set("".join(row)) <= set("-:")]


def kept(cell: str, word: str) -> Iterator[tuple[str, str]]:
    """Each case of a cell with the word that stands before it, first of all the column's."""
    for name, case in re.findall(r"\*?([A-Z][A-Z0-9]+|no rule|unread)\*?(?=\s*\**`)|`([^`]*)`", cell):
        word = name or word
        if not name:
            yield word, case


def numbers(answer) -> str:
    return " ".join(str(int(n)) for n in (answer.verdict, answer.rule, answer.severity, answer.reason))


def verdict_word(answer) -> str:
    """How the table of fields calls an answer: a reason's name, or accepted, unread, no rule."""
    import partyid
    words = {partyid.Verdict.ACCEPTED: "accepted", partyid.Verdict.UNREAD: "unread", partyid.Verdict.NO_RULE: "no rule"}
    return words.get(answer.verdict) or answer.reason.name


def or_reason(work: Callable[[], str]) -> str:
    import partyid
    try:
        return f"0 {work()}".strip()
    except partyid.Refusal as refusal:
        return str(int(refusal.reason))


def called(name: str, words: list[bytes]) -> str:
    import partyid
    if name == "withdrawn":
        found = partyid.withdrawn(*words)
        after = found.successor.decode() if isinstance(found.successor, bytes) else found.successor
        return f"{int(found.answer)} {after or ''}".strip()
    if name == "complete":
        return or_reason(lambda: partyid.complete(*words))
    if name == "list":
        return or_reason(lambda: " ".join(partyid.corrections(*words)))
    checks = {"iban": partyid.is_valid_iban_checksum, "creditor": partyid.is_valid_creditor_identifier, "gln": partyid.eas_value}
    return numbers(checks[name](*words))


def case_faults(name: str, text: str) -> tuple[int, list[str]]:
    import partyid
    tried, faults = 0, []

    def compare(case: str, told: str, found: str) -> None:
        nonlocal tried
        tried += 1
        if told != found:
            faults.append(f"{name}: another answer: {case}: told {told}, found {found}")

    for head, *rows in tables(text):
        if head[:2] == ["scheme", "accepted"]:
            for place, *cells in rows:
                scheme, _, term = place.partition(" at ")
                for word, case in (pair for column, cell in zip(head[1:], cells) for pair in kept(cell, column)):
                    compare(f"{place} `{case}`", word, verdict_word(partyid.check(scheme, int(term or 34), unescaped(case))))
        elif head == ["call", "answers"]:
            for calls, told in rows:
                for case in re.findall(r"`([^`]*)`", calls):
                    command, *words = case.split(" ")
                    compare(f"`{case}`", told.strip("`"), called(command, [unescaped(word) for word in words]))
    return tried, faults


# ---- Tables of facts


def fact_faults(name: str, text: str) -> tuple[int, list[str]]:
    """The tables of reasons, terms and schemes: each row beside the library's own numbers, and the names that the package gives to terms."""
    import partyid
    from partyid.tables import RULES as ROWS, TERMS as NAMED
    found: dict[str, set[str]] = {"reasons": set(), "terms": set(), "schemes": set()}
    for head, *rows in tables(text):
        if head[:3] == ["", "name", "it says that"]:
            found["reasons"] = {f"{row[0]} {row[1]}".strip() for row in rows}
        elif head[:2] == ["term", "name"]:
            found["terms"] = {f"{row[0]} {row[1].lower()} {'the scheme' in row[3]}" for row in rows}
        elif head[:2] == ["rule", "scheme"]:
            found["schemes"] = {" ".join((row[0], row[1].replace("any", ""), row[3], row[4])) for row in rows}
    wanted = {
        "reasons": {f"{int(reason)} {reason.name if reason else ''}".strip() for reason in partyid.Reason},
        "terms": {f"{term.number} {term.name.lower()} {term.by_scheme}" for term in NAMED},
        "schemes": set(),
    }
    for row in ROWS:
        answer = partyid.check(row.scheme, 34 if row.scheme else 31, row.example)
        padded = partyid.check(row.scheme, 34 if row.scheme else 31, f" {row.example} ")
        reading = "normalised" if padded.verdict == answer.verdict else "raw"
        wanted["schemes"].add(f"{answer.rule} {row.scheme} {answer.severity.name.lower()} {reading}")
    faults = [f"{name}: table of {kind}: {line}" for kind in wanted for line in sorted(wanted[kind] ^ found[kind])]
    return sum(map(len, wanted.values())), faults


# ---- Sums

TERMS = r"-?\d+(?: [-+×] \d+)*"


def value(terms: str) -> int:
    """What a sum of products is."""
    total = 0
    for sign, product in re.findall(r"(^-?|[-+] )(\d+(?: × \d+)*)", terms):
        total += (-1 if "-" in sign else 1) * math.prod(int(factor) for factor in product.split(" × "))
    return total


def worked(part: str) -> bool:
    """A number's products with its weights, or the sums of their digits (counts), are those shown, and so is their total."""
    rows = {label: [int(word) for word in numbers.split()]
            for label, numbers in re.findall(r"(?m)^(number|less 1|weight|product|counts) ([\d ]*)", part)}
    products = [digit * weight for digit, weight in zip(rows.get("less 1") or rows.get("number", []), rows["weight"])]
    counted = products if "product" in rows else [product // 10 + product % 10 for product in products]
    total = re.search(r"total (\d+)", part)
    return counted == rows.get("product", rows.get("counts")) and total is not None and int(total.group(1)) == sum(counted)


def sum_faults(name: str, text: str) -> tuple[int, list[str]]:
    equations = re.findall(rf"(?<![\w.])(({TERMS}) = ({TERMS}))", text)
    faults = [f"{name}: does not add up: {whole}" for whole, left, right in equations if value(left) != value(right)]
    tried = [part for block in blocks(text) for part in "\n".join(block).split("\n\n") if "\nweight " in part]
    faults += [f"{name}: is not worked through right: {part.splitlines()[0]}" for part in tried if not worked(part)]
    return len(equations) + len(tried), faults


# ---- Links and citations


def headings(text: str) -> list[str]:
    fenced = re.sub(r"(?ms)^```.*?^```", "", text)
    return [found.strip() for found in re.findall(r"(?m)^#+ (.*)$", fenced)]


def anchor(heading: str) -> str:
    return re.sub(r"[^\w\- ]", "", heading.lower()).replace(" ", "-")


def link_faults(name: str, text: str) -> tuple[int, list[str]]:
    faults = []
    links = [link for link in re.findall(r"\]\(([^)\s]+)\)", text) if "://" not in link]
    for link in links:
        path, _, place = link.partition("#")
        target = (ROOT / name).parent / path if path else None
        if target and not target.exists():
            faults.append(f"{name}: no such file: {link}")
        elif place and place not in map(anchor, headings(target.read_text() if target else text)):
            faults.append(f"{name}: no such heading: {link}")
    return len(links), faults


def citation_faults(name: str, text: str, known: list[str]) -> tuple[int, list[str]]:
    cited = re.findall(r"RULES\.md, (?=([A-Z].{0,60}))", text)
    wrong = [rest for rest in cited if not any(re.match(re.escape(heading) + r"(?!\w)", rest) for heading in known)]
    return len(cited), [f"{name}: no such section: RULES.md, {rest}" for rest in wrong]


# ---- All of it


def files() -> Iterator[str]:
    """The repository's own files, without what was built."""
    for folder, folders, names in os.walk(ROOT):
        folders[:] = sorted(set(folders) - {".git", "target", "__pycache__"})
        yield from (str((pathlib.Path(folder) / name).relative_to(ROOT)) for name in sorted(names))


def compare_all() -> tuple[str, list[str]]:
    counts = dict.fromkeys(("commands", "cases", "facts", "sums", "links", "citations"), 0)
    faults: list[str] = []

    def count(kind: str, result: tuple[int, list[str]]) -> None:
        counts[kind] += result[0]
        faults.extend(result[1])

    rules = (ROOT / RULES).read_text()
    shown = [example.command for name in COMMANDS for example in examples((ROOT / name).read_text())]
    faults += [f"not shown any more: {command}" for command in NOT_RUN if command not in shown]
    for name in COMMANDS:
        count("commands", command_faults(name, (ROOT / name).read_text()))
    try:
        count("cases", case_faults(RULES, rules))
        count("facts", fact_faults(RULES, rules))
    except OSError as why:
        faults.append(f"the library can't be called; make builds it: {why}")
    count("sums", sum_faults(RULES, rules))
    for name in files():
        if name == "tests/docs.py":
            continue
        try:
            text = (ROOT / name).read_text()
        except (UnicodeDecodeError, OSError):
            continue
        if name.endswith(".md"):
            count("links", link_faults(name, text))
        count("citations", citation_faults(name, text, headings(rules)))
    for kind in ("commands", "cases", "sums", "links"):
        if not counts[kind]:
            faults.append(f"no {kind} found")
    return ", ".join(f"{n} {kind}" for kind, n in counts.items()) + " agree", faults


FAULTY = r"""# One
    $ echo in a paragraph's middle is no command

Text.

    $ echo right
    right
    $ echo wrong
    right

    $ echo unsaid

```
$ printf 'a\n\nb\n'
a

b
$ no-such-command-at-all
```

| scheme | accepted | FORM | CHECK | other |
|---|---|---|---|---|
| 0088 | **`17`** `71` | `''` | `17` | *no rule* `x` LONG `{1025:0}` |
| 0060 | | | | *no rule* `x` |

| call | answers |
|---|---|
| `list 0088 71` | `0 31 79` |
| `complete 0088 7` | `0 9` |

    number    1  2
    weight    3  1
    product   3  2     total 5 = 1 × 5

    number    1  6
    weight    1  2
    counts    1  4     total 5 = 2 × 2 + 1

And -10 + 1 × 9 = 0, 3 × 7 + 1 = 22.

[here](#one), [nowhere](#two), [no file](none.md); docs/RULES.md, One; docs/RULES.md, Three
"""
FAULTS = ("$ echo wrong", "$ echo unsaid", "$ no-such-command-at-all", "0088 `71`", "0088 `17`", "0088 `x`", "`list 0088 71`", "number    1  6", "-10 + 1 × 9 = 0", "#two", "none.md", "Three")


def self_test() -> tuple[str, list[str]]:
    name = "README.md"
    found = [fault for faults in (command_faults(name, FAULTY)[1], case_faults(name, FAULTY)[1], sum_faults(name, FAULTY)[1], link_faults(name, FAULTY)[1],
                                  citation_faults(name, FAULTY, headings(FAULTY))[1]) for fault in faults]
    missed = [f"not found: {wanted}" for wanted in FAULTS if sum(wanted in fault for fault in found) != 1]
    more = [f"found and not there: {fault}" for fault in found if not any(wanted in fault for wanted in FAULTS)]
    return f"{len(FAULTS)} faults found", missed + more


def main() -> int:
    options = argparse.ArgumentParser(description=__doc__, formatter_class=argparse.RawDescriptionHelpFormatter)
    options.add_argument("--self-test", action="store_true")
    said, faults = self_test() if options.parse_args().self_test else compare_all()
    for fault in faults:
        print(f"tests/docs.py: {fault}", file=sys.stderr)
    if not faults:
        print(f"tests/docs.py: {said}")
    return 1 if faults else 0


if __name__ == "__main__":
    sys.exit(main())
