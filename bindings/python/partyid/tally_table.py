"""A tally as the tally command tells it: a table with a row for each rule."""

from __future__ import annotations

from typing import Iterable

from .answers import Reason
from .explain import LOOK_UP
from .library import ANSWER_NUMBERS
from .lines import Readable, blocks
from .tables import RULES
from .tally import JUDGED, Tally

_SIDES = "><>>>><"  # numbers to the right


def feed_file(tally: Tally, file: Readable) -> int:
    """Feeds a tally the lines of a file; gives how many of them it could not count."""
    reasons = (tally.feed_numbers(block)[3::ANSWER_NUMBERS] for block in blocks(file))
    return sum(some.count(Reason.FULL) for some in reasons)


def told(tally: Tally, uncounted: int) -> str:
    others = {
        "lines whose field no rule reads": tally.no_rule,
        "lines refused without a rule (unknown term or malformed head; partyid lines FILE shows them)": tally.refused_without_rule,
        "lines counted": tally.total,
    }
    if uncounted:
        others["lines not counted, because the tally is full"] = uncounted
    said = [*_table(tally), *(f"{what}: {count:,}" for what, count in others.items()), LOOK_UP]
    return "\n".join(said) + "\n"


def _table(tally: Tally) -> list[str]:
    counts = [[tally.count(rule.number, verdict) for verdict in JUDGED] for rule in RULES]
    sums = [sum(column) for column in zip(*counts)]
    rows: list[tuple[str, ...]] = [("rule", "scheme", *(verdict.words for verdict in JUDGED), "sum", "whose number it is")]
    rows += [(str(rule.number), rule.scheme or "-", *_figures(three), rule.whose) for rule, three in zip(RULES, counts)]
    rows += [("sum", "", *_figures(sums), "")]
    widths = [max(map(len, column)) for column in zip(*rows)]
    return ["  ".join(f"{cell:{side}{width}}" for cell, side, width in zip(row, _SIDES, widths)).rstrip() for row in rows]


def _figures(counts: Iterable[int]) -> list[str]:
    each = list(counts)
    return [f"{count:,}" for count in (*each, sum(each))]
