"""The answers to a file, as the lines command tells them."""

from __future__ import annotations

import sys
from array import array
from typing import Iterator

from .answers import Answer, Verdict
from .explain import LOOK_UP, no_rule, refusal_told, shown, told
from .library import ANSWER_NUMBERS, answer_of
from .lines import Readable, blocks, lines_of, numbers_of
from .shape import Shapes

Row = tuple[int, ...]


def row_of(row: Row, words: str) -> str:
    return f"{' '.join(map(str, row))}  {words}"


class _Rows(dict[Row, str]):
    """An answer's numbers to its line of output. There are some hundred of them, however many lines there are."""

    def __missing__(self, row: Row) -> str:
        words = str(answer_of(*row))
        return self.setdefault(row, row_of(row, words) + "\n")


def answers(file: Readable) -> set[Verdict]:
    """Writes a line for each line of a file; gives the verdicts that there were."""
    rows = _Rows()
    for block in blocks(file):
        numbers = numbers_of(block)
        written = list(map(rows.__getitem__, zip(*[iter(numbers)] * ANSWER_NUMBERS)))
        _name_withdrawn(block, numbers, written)
        sys.stdout.write("".join(written))
        sys.stdout.flush()
    return {Verdict(row[0]) for row in rows}


def _name_withdrawn(block: bytes, numbers: "array[int]", written: list[str]) -> None:
    verdicts = numbers[::ANSWER_NUMBERS]
    if Verdict.NO_RULE not in verdicts:
        return
    lines = lines_of(block)
    for i, verdict in enumerate(verdicts):
        if verdict == Verdict.NO_RULE:
            written[i] = row_of((0, 0, 0, 0), no_rule(lines[i][:4])) + "\n"


def corrections(file: Readable) -> set[Verdict]:
    """Writes what is wrong with each line that is refused, and its corrections; last what is wrong with the file."""
    shapes = Shapes()
    counts = dict.fromkeys(Verdict, 0)
    for block in blocks(file):
        before = sum(counts.values())
        numbers = numbers_of(block)
        lines = lines_of(block)
        for i, answer in _not_accepted(numbers):
            counts[answer.verdict] += 1
            if answer.refused:
                shapes.look(before + i + 1, lines[i], answer)
            sys.stdout.write(_line_told(before + i + 1, lines[i], answer))
        counts[Verdict.ACCEPTED] += len(lines) - (sum(counts.values()) - before)
        sys.stdout.flush()
    sys.stdout.write(_whole_told(counts, shapes))
    return {verdict for verdict, count in counts.items() if count}


def _not_accepted(numbers: "array[int]") -> Iterator[tuple[int, Answer]]:
    for i, verdict in enumerate(numbers[::ANSWER_NUMBERS]):
        if verdict != Verdict.ACCEPTED:
            yield i, answer_of(*numbers[ANSWER_NUMBERS * i : ANSWER_NUMBERS * (i + 1)])


def _line_told(number: int, line: bytes, answer: Answer) -> str:
    words = told(answer, line[:4])
    if not answer.refused and words == str(answer):
        return ""  # not judged: counted at the end
    more = refusal_told(answer, line[8:]) if answer.refused else []
    return "\n    ".join([f"line {number}: {shown(line)}", words, *more]) + "\n"


def _whole_told(counts: dict[Verdict, int], shapes: Shapes) -> str:
    refused = counts[Verdict.REFUSED]
    judged = f"lines: {sum(counts.values())}; accepted: {counts[Verdict.ACCEPTED]}; refused: {refused}"
    unjudged = f"; without a rule: {counts[Verdict.NO_RULE]}; let through unread: {counts[Verdict.UNREAD]}"
    caution = [LOOK_UP] if refused else []
    return "\n".join([judged + unjudged, *shapes.told(refused), *caution]) + "\n"
