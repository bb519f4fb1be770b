"""Where a tally counts a rule and a verdict: by the definitions, and as partyid_tally_count reads it. And the order of the rules in Rust."""
from __future__ import annotations

import ctypes
import pathlib
import re

from .definitions import cases, number_in
from .interface import Unreadable, differing
from .rust_binding import code_of
from .words import only

# the place of each count, by the numbers of rule and verdict
Places = dict[tuple[int, int], int]

CELLS = "tally/specs/Cell.antt"
BY_RULE = ("Accepted", "Refused", "Unread")
WITHOUT_RULE = {
    "NoRule": r"^other_cell v = pick \(verdict_number v == 0\) (\d+) \d+$",
    "Refused": r"^other_cell v = pick \(verdict_number v == 0\) \d+ (\d+)$",
}


def rule_numbers(crates: pathlib.Path) -> list[int]:
    """By the index of a rule."""
    facts = re.findall(r"^facts R\w+ = \w+ (\d+) (\d+) ", (crates / "rules/specs/Facts.antt").read_text(), re.M)
    if [int(index) for index, _ in facts] != list(range(len(facts))):
        raise Unreadable(f"rules/specs/Facts.antt: the indices are {[index for index, _ in facts]}")
    return [int(number) for _, number in facts]


def places(crates: pathlib.Path) -> Places:
    """By the definitions, which give each place to one rule and verdict."""
    verdicts = dict(cases(crates)["verdict"])
    each = int(number_in(crates, CELLS, r"^cell_by \(Some r\) v = (\d+) \* \(facts r\)\.index \+ \(verdict_number v - 1\)$"))
    found = {(rule, verdicts[name]): each * i + verdicts[name] - 1 for i, rule in enumerate(rule_numbers(crates)) for name in BY_RULE}
    found |= {(0, verdicts[name]): int(number_in(crates, CELLS, of)) for name, of in WITHOUT_RULE.items()}
    if sorted(found.values()) != list(range(int(number_in(crates, CELLS, r"^tally_size = (\d+)$")))):
        raise Unreadable(f"{CELLS}: the places are {sorted(found.values())}")
    return found


def library_places(built: pathlib.Path, count: int) -> Places:
    """As the built library finds them in a tally whose counts are 1, 2, 3 ..; a pair that has no count gives 0."""
    library = ctypes.CDLL(str(built / "libpartyid.so"))
    library.partyid_tally_count.argtypes = [ctypes.POINTER(ctypes.c_uint32), ctypes.c_uint32, ctypes.c_uint32]
    library.partyid_tally_count.restype = ctypes.c_uint32
    counts = (ctypes.c_uint32 * count)(*range(1, count + 1))
    pairs = [(rule, verdict) for rule in (*range(1000), 2**31, 2**32 - 1) for verdict in (*range(6), 2**31, 2**32 - 1)]
    found = {pair: library.partyid_tally_count(counts, *pair) for pair in pairs}
    return {pair: place - 1 for pair, place in found.items() if place}


def library_tally_disagreements(crates: pathlib.Path, built: pathlib.Path) -> list[str]:
    wanted = places(crates)
    return differing("place of the count of", wanted, library_places(built, len(wanted)))


def rust_tally_disagreements(crates: pathlib.Path, sources: pathlib.Path) -> list[str]:
    listed = only(r"\bconst RULES: \[u32; \d+\] = \[([^\]]*)\];", code_of((sources / "tally.rs").read_text()), "tally.rs")
    wanted, found = rule_numbers(crates), [int(number) for number in re.findall(r"\d+", listed)]
    return [] if found == wanted else [f"RULES: expected {wanted}, found {found}"]
