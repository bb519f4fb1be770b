"""Counts of lines by rule and verdict."""

from __future__ import annotations

import ctypes
from array import array
from itertools import islice
from typing import Any, Iterable, Iterator, SupportsIndex

from .answers import Answer, Verdict
from .library import MOST_U32, TALLY_COUNTS, Content, answered, as_bytes, library, whole
from .lines import Counts, Source, numbers_in, rows_of
from .tables import RULES

JUDGED = (Verdict.ACCEPTED, Verdict.REFUSED, Verdict.UNREAD)

_FRESH = (0,) * TALLY_COUNTS
_KINDS: list[tuple[int, int]] = [*((rule.number, verdict) for rule in RULES for verdict in JUDGED), (0, Verdict.NO_RULE), (0, Verdict.REFUSED)]
_PLACES = {kind: place for place, kind in enumerate(_KINDS)}


class Tally:
    """How many lines each rule accepted, refused and let through unread, and how many had no rule. It is fed lines, and answers each.

    A fresh one has counted nothing; one that is made from the counts of another goes on from there. It counts 4,294,967,295 lines: one more is refused with
    Reason.FULL and changes nothing. It is fed by one thread at a time."""

    def __init__(self, counts: Iterable[SupportsIndex] = _FRESH) -> None:
        self._counts: Counts = (ctypes.c_uint32 * TALLY_COUNTS)(*_given(counts))

    def feed(self, line: Content) -> Answer:
        """Counts one line, without its newline; gives its answer, as answer_line does."""
        c = as_bytes(line)
        return answered(library().partyid_tally_line(c, len(c), self._counts))

    def feed_lines(self, source: Source) -> Iterator[Answer]:
        """Counts the lines of a text, or of a file opened for bytes; gives their answers, one after the other. Every line is counted when this returns,
        also where its answer is not taken; where a file can't be read to its end, the lines before are."""
        return rows_of(numbers_in(source, "feed_lines", self._counts))

    def feed_numbers(self, source: Source) -> "array[int]":
        """The same with the answers as numbers alone, as answer_numbers gives them: no object is made for a line."""
        return numbers_in(source, "feed_numbers", self._counts)

    def count(self, rule: SupportsIndex, verdict: SupportsIndex) -> int:
        """How many lines have been answered with this rule and this verdict. Rule 0 is no rule: its verdicts are 0 and 2."""
        kind = (whole(rule, "a rule"), whole(verdict, "a verdict"))
        if kind not in _PLACES:
            rules = ", ".join(str(known.number) for known in RULES)
            raise ValueError(f"no line has rule {kind[0]:d} with verdict {kind[1]:d}: rules {rules} have verdicts 1, 2 and 3, rule 0 has verdicts 0 and 2")
        return self.counts[_PLACES[kind]]

    @property
    def no_rule(self) -> int:
        """How many lines had a field that no rule reads."""
        return self.count(0, Verdict.NO_RULE)

    @property
    def refused_without_rule(self) -> int:
        """How many lines were refused with no rule: the term is unknown, or the head malformed."""
        return self.count(0, Verdict.REFUSED)

    @property
    def total(self) -> int:
        """The sum of the counts: how many lines have been counted."""
        return sum(self.counts)

    @property
    def counts(self) -> tuple[int, ...]:
        """The 53 numbers: three of each of RULES (accepted, refused, let through unread), then no_rule and refused_without_rule."""
        return tuple(self._counts)

    def __eq__(self, other: object) -> bool:
        if not isinstance(other, Tally):
            return NotImplemented
        return self.counts == other.counts

    def __repr__(self) -> str:
        return f"Tally({self.counts if self.total else ''})"

    def __reduce__(self) -> tuple[Any, ...]:
        return type(self), (self.counts,)  # a copy counts for itself


def _given(counts: Iterable[SupportsIndex]) -> list[int]:
    try:
        numbers = iter(counts)
    except TypeError:
        raise TypeError(f"a tally is made from {TALLY_COUNTS} numbers, as in Tally(another.counts), not from {type(counts).__name__}") from None
    taken = [whole(number, "a count") for number in islice(numbers, TALLY_COUNTS + 1)]
    if len(taken) != TALLY_COUNTS:
        many = len(taken) if len(taken) < TALLY_COUNTS else "more"
        raise ValueError(f"a tally is made from {TALLY_COUNTS} numbers, as in Tally(another.counts), and {many} are given")
    for place, number in enumerate(taken):
        if not 0 <= number <= MOST_U32:
            raise ValueError(f"a count is 0 to {MOST_U32:,}, and counts[{place}] is {number:,}")
    return taken
