"""The tally: how many lines came to which answer; and the line program, which counts the lines that it answers, up to the limit."""
from .answers import ACCEPTED, FULL, NO_RULE, REFUSED, UNREAD
from .lines import answer_line, answer_lines
from .rules import RULES

#: The most lines that a tally counts.
MOST = 2**32 - 1
#: What a cell counts, a rule and a verdict: every rule in the order of the numbers; no rule; refused before a rule is chosen.
CELLS = [(rule, verdict) for rule in sorted(RULES) for verdict in (ACCEPTED, REFUSED, UNREAD)] + [(0, NO_RULE), (0, REFUSED)]
#: How many lines the text of a tally has.
TEXT_LINES = len(RULES) + 1


def fresh():
    return [0] * len(CELLS)


def tally_line(line, counts):
    """The answer to a line, which is counted; a full tally stays as it is."""
    if sum(counts) >= MOST:
        return REFUSED, 0, 0, FULL
    verdict, rule, _, _ = answer = answer_line(line)
    counts[CELLS.index((rule, verdict))] += 1
    return answer


def tally_lines(data, counts, room):
    """As answer_lines; each line that is answered is counted."""
    return answer_lines(data, room, lambda line: tally_line(line, counts))


def text(counts):
    """A line for each rule, with its number, and one for what has no rule."""
    rows = [[rule, *counts[3 * i:3 * i + 3]] for i, rule in enumerate(sorted(RULES))] + [counts[-2:]]
    return "".join(" ".join(map(str, row)) + "\n" for row in rows).encode()


def output(data):
    """The whole output of the line program for a whole input."""
    counts = fresh()
    answered, _ = tally_lines(data, counts, 4 * len(data))
    return b"".join(b"%d %d %d %d\n" % answer for answer in answered) + text(counts)
