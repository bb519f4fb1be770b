"""Examples of a tally: one line fed to it, and many lines at once."""
from paper.answers import ACCEPTED, NO_RULE, REFUSED, UNREAD
from paper.rules import BY_SCHEME
from paper.tally import CELLS, MOST

from .commands import joined
from .lines import BATCHES
from .program_lines import NO, YES

#: A line for each count that a line can raise.
LINES = {(BY_SCHEME[scheme], verdict): joined(scheme, 34, text) for verdict, texts in ((ACCEPTED, YES), (REFUSED, NO)) for scheme, text in texts.items()}
LINES |= {
    (47, UNREAD): b"0211 34 DE123456789",
    (562, ACCEPTED): b"0000 31 NL123456789B01", (562, REFUSED): b"0000 48 NL1", (562, UNREAD): b"0000 63 DE123456789",
    (0, NO_RULE): b"0060 34 x", (0, REFUSED): b"0088 33 17",
}

#: Refused for other reasons, and counted beside those.
OTHERS = {
    (40, REFUSED): [b"0088 34 x", b"0088 34 \xff", b"0088 34 " + b"1" * 1025], (41, REFUSED): [b"0192 34 000000000"],
    (0, REFUSED): [b"", b"x", b"0088 340 17"],
}


def one_line():
    for cell, line in sorted(LINES.items()):
        at = CELLS.index(cell)
        # its own count, which goes up, to the limit, and not past it; and the count behind it
        yield from ((at, count, line) for count in (0, 7, MOST - 1, MOST))
        yield from (((at + 1) % len(CELLS), count, line) for count in (7, MOST - 1, MOST))
    for cell, lines in OTHERS.items():
        yield from ((CELLS.index(cell), count, line) for line in lines for count in (0, MOST - 1, MOST))
    # a cell past the last one is another one; more than a count holds is the most that it holds
    yield from ((at, 7, b"0088 34 17") for at in (52, 53, 105, 106, MOST, MOST + 1))
    yield 1, MOST + 1, b"0088 34 17"


def many_lines():
    yield from ((room, content) for content in BATCHES for room in (0, 3, 4, 7, 8, 12, 14))
    all_lines = [line for _, line in sorted(LINES.items())]
    yield from ((64, b"\n".join(all_lines[at:at + 16])) for at in range(0, len(all_lines), 16))
    # of twenty lines sixteen are counted
    yield 65, b"0088 34 17\n" * 20


def examples():
    yield from (("T", joined(*words)) for words in one_line())
    yield from (("t", joined(*words)) for words in many_lines())
