"""Many lines at once: SCHEME TERM CONTENT on each, four bytes, two digits and the rest, with one space between."""

from __future__ import annotations

import ctypes
from array import array
from itertools import islice, starmap
from typing import Iterable, Iterator, NamedTuple, Optional, Protocol, Union

from .answers import Answer
from .library import ANSWER_NUMBERS, NUMBERS, Content, Disagreement, answer_of, answered, as_bytes, library

BLOCK = 1 << 20
_LINES_AT_ONCE = 1024
_TEXT = (bytes, bytearray, memoryview, str)


class Line(NamedTuple):
    """A line with its answer: its number, from 1, and its bytes without the newline."""

    number: int
    text: bytes
    answer: Answer


class Readable(Protocol):
    """A file that is opened for reading bytes."""

    def read(self, size: int, /) -> bytes:
        ...


Source = Union[Content, Readable]
Counts = ctypes.Array[ctypes.c_uint32]


def answer_line(line: Content) -> Answer:
    """The answer to one line, without its newline: 4 scheme bytes, space, two digits of term, space, content."""
    c = as_bytes(line)
    return answered(library().partyid_answer_line(c, len(c)))


def answer_lines(data: Content) -> Iterator[Answer]:
    """The answers to the lines of a text, in their order. A last line without newline counts if it has a byte."""
    return rows_of(numbers_of(as_bytes(data)))


def answer_numbers(source: Source) -> "array[int]":
    """The answers to the lines of a text, or of a file opened for bytes, as numbers alone: verdict, rule, severity and reason of the first line,
    then of the second. No object is made for a line. numbers[0::4] are the verdicts; numbers[0::4].count(Verdict.REFUSED) counts."""
    return numbers_in(source, "answer_numbers")


def check_lines(lines: Iterable[Content], at_once: int = _LINES_AT_ONCE) -> Iterator[Line]:
    """Each line of a file, or of any iterable of lines, with its answer. Lines are taken as they are asked for, so many at once; of a file
    opened for bytes they are the file's own. One newline at the end of a line is no part of it."""
    if at_once < 1:
        raise ValueError("at_once is the number of lines to take at once, 1 or more")
    if isinstance(lines, _TEXT):
        raise TypeError("check_lines takes lines, as a file or a list has them; answer_lines takes one text")
    return _checked(iter(lines), at_once)


def blocks(file: Readable) -> Iterator[bytes]:
    """The lines of a file, many in a block, as soon as they have come. Of a line that is longer than a block the middle may be left out: nothing
    beyond 1,025 bytes of content is read."""
    read = getattr(file, "read1", file.read)
    rest = b""
    while True:
        data = read(BLOCK)
        if not data:
            break
        if isinstance(data, str):
            raise TypeError("the file is opened for text; open it for bytes, with mode 'rb'")
        cut = data.rfind(b"\n") + 1
        if cut:
            yield rest + data[:cut]
            rest = data[cut:]
        elif len(rest) < BLOCK:
            rest += data
    if rest:
        yield rest


def lines_of(block: bytes) -> list[bytes]:
    """The lines of a block, as the library counts them."""
    lines = block.split(b"\n")
    return lines if lines[-1] else lines[:-1]


def rows_of(numbers: "array[int]") -> Iterator[Answer]:
    four = [iter(numbers)] * ANSWER_NUMBERS
    return starmap(answer_of, zip(*four))


def _checked(lines: Iterator[Content], at_once: int) -> Iterator[Line]:
    number = 1
    while True:
        taken = [_without_newline(as_bytes(line)) for line in islice(lines, at_once)]
        if not taken:
            return
        yield from map(Line, range(number, number + len(taken)), taken, _answers(taken))
        number += len(taken)


def _without_newline(line: bytes) -> bytes:
    return line[:-1] if line.endswith(b"\n") else line


def _answers(lines: list[bytes]) -> Iterator[Answer]:
    text = b"\n".join(lines) + b"\n"
    if text.count(b"\n") != len(lines):  # a newline within one of them
        return map(answer_line, lines)
    return rows_of(numbers_of(text))


def numbers_in(source: Source, taker: str, counts: Optional[Counts] = None) -> "array[int]":
    """The answers to the lines of a text or of a file; where counts are given, each line is counted in them."""
    if isinstance(source, _TEXT):
        return numbers_of(as_bytes(source), counts)
    if not hasattr(source, "read"):
        raise TypeError(f"{taker} takes bytes, a str or a file opened for bytes, not {type(source).__name__}")
    numbers = array("I")
    for block in blocks(source):
        numbers.extend(numbers_of(block, counts))
    return numbers


def numbers_of(text: bytes, counts: Optional[Counts] = None) -> "array[int]":
    """One call for all lines of a text."""
    count = text.count(b"\n") + (not text.endswith(b"\n") and bool(text))
    numbers = array("I", bytes(count * ANSWER_NUMBERS * array("I").itemsize))
    area = ctypes.cast(numbers.buffer_info()[0], NUMBERS)
    if counts is None:
        batch = library().partyid_answer_lines(text, len(text), area, len(numbers))
    else:
        batch = library().partyid_tally_lines(text, len(text), counts, area, len(numbers))
    if (batch.count, batch.used) != (count, len(text)):
        raise Disagreement(f"{batch.count} answers to {count} lines")
    return numbers
