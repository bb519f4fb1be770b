"""One line, and many lines at once."""
import re

from .answers import LINE, REFUSED
from .rules import check


def answer_line(line):
    head, content = line[:8], line[8:]
    if len(head) < 8 or head[4] != 32 or head[7] != 32 or not all(48 <= b <= 57 for b in head[5:7]):
        return REFUSED, 0, 0, LINE
    return check(head[:4], int(head[5:7]), content)


def split(data):
    """The lines, each with its newline; the last one may have none, and is then not empty."""
    return re.findall(rb"[^\n]*\n|[^\n]+", data)


def answer_lines(data, room, answer=answer_line):
    """The answers to as many lines as there is room for, four numbers each, and the bytes of these lines."""
    lines = split(data)[:room // 4]
    return [answer(line.removesuffix(b"\n")) for line in lines], sum(map(len, lines))
