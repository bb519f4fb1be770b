"""What about the shape of a file is why its lines are refused: a byte order mark, CRLF, tabs, UTF-16, commas, a header.

Nothing is judged here. The library is asked about the line as it is, and about the line with its shape put right; the shape is why the line is refused
where the second is answered better, and is not where that shape alone is left as it was."""

from __future__ import annotations

import re
from collections import Counter
from typing import Callable, NamedTuple, Optional

from .answers import Answer, Reason
from .lines import answer_line

_FIELDS = re.compile(rb'"?([^,;"]*)"?[,;]"?([^,;"]*)"?[,;]"?([^"]*)"?', re.DOTALL)


class Shape(NamedTuple):
    what: str
    do: str
    righted: Callable[[bytes, int], bytes]  # the line and its number; the line as it is where it has no such shape


def _without_nulls(line: bytes, number: int) -> bytes:
    if 2 * line.count(b"\0") + 3 < len(line):
        return line
    return (line[2:] if number == 1 and line[:2] in (b"\xff\xfe", b"\xfe\xff") else line).replace(b"\0", b"")


def _without_mark(line: bytes, number: int) -> bytes:
    return line[3:] if number == 1 and line.startswith(b"\xef\xbb\xbf") else line


def _without_return(line: bytes, number: int) -> bytes:
    return line[:-1] if line.endswith(b"\r") else line


def _without_commas(line: bytes, number: int) -> bytes:
    fields = _FIELDS.fullmatch(line)
    return b" ".join(fields.groups()) if fields else line


def _without_tabs(line: bytes, number: int) -> bytes:
    return line.replace(b"\t", b" ", 2)


SHAPES = (
    Shape("the file is UTF-16", "turn it into UTF-8: iconv -f UTF-16 -t UTF-8 FILE", _without_nulls),
    Shape("the file begins with a byte order mark", "leave out its first three bytes: tail -c +4 FILE", _without_mark),
    Shape("lines end in CRLF", "take out the carriage returns: tr -d '\\r' <FILE", _without_return),
    Shape("fields are parted by commas or semicolons (CSV)", "put one space between them: tr -d '\"' <FILE | tr ',;' '  '", _without_commas),
    Shape("fields are parted by tabs", "put a space in the place of each: tr '\\t' ' ' <FILE", _without_tabs),
)
HEADER = Shape("line 1 looks like a table's header", "leave it out: tail -n +2 FILE", lambda line, number: line)


class Shapes:
    """The shapes that refused lines are refused for, and how many of them."""

    def __init__(self) -> None:
        self.found: Counter[Shape] = Counter()

    def look(self, number: int, line: bytes, answer: Answer) -> None:
        """Looks at a refused line."""
        righted = _righted(line, number, None)
        wanted = _goodness(answer if righted == line else answer_line(righted))
        if wanted > _goodness(answer):
            self.found.update(shape for shape in SHAPES if _goodness(answer_line(_righted(line, number, shape))) < wanted)
        if number == 1 and wanted == 0 and _is_header(righted):
            self.found[HEADER] += 1

    def told(self, refused: int) -> list[str]:
        """What to do about the file."""
        return [f"{shape.what}; refused for it: {self.found[shape]} of {refused}; {shape.do}" for shape in (*SHAPES, HEADER) if self.found[shape]]


def _righted(line: bytes, number: int, left: Optional[Shape]) -> bytes:
    for shape in SHAPES:
        if shape is not left:
            line = shape.righted(line, number)
    return line


def _goodness(answer: Answer) -> int:
    if not answer.refused:
        return 2
    return 0 if answer.reason is Reason.LINE else 1


def _is_header(line: bytes) -> bool:
    return bool(re.search(rb"[A-Za-z]", line)) and not re.search(rb"[0-9]", line)
