"""Completing and listing: every candidate is tried on the rule."""
from typing import Callable, NamedTuple

from .answers import FORM, GOOD, NO_FIGURE, ROOM, SCHEME, ZERO, Refusal
from .forms import digits
from .rules import BY_SCHEME, RULES
from .text import normalized, readable

ONE_DIGIT = [str(n) for n in range(10)]
TWO_DIGITS = [f"{n:02}" for n in range(100)]


class Five(NamedTuple):
    body: Callable[[str], str]
    number: Callable[[str], str]
    figures: list
    in_front: bool = False


FIVE = {
    b"0088": Five(digits(1, 19), digits(1, 20), ONE_DIGIT),
    b"0192": Five(digits(8), digits(9), ONE_DIGIT),
    b"0208": Five(digits(8), digits(10), TWO_DIGITS),
    b"0007": Five(digits(9), digits(10), ONE_DIGIT),
    b"0151": Five(digits(9), digits(11), TWO_DIGITS[11:], in_front=True),
}


def accepted(scheme, number):
    return RULES[BY_SCHEME[scheme]].reason(number) == 0


def require(holds, reason):
    if not holds:
        raise Refusal(reason)


def complete(scheme, body, room):
    """The figure that completes a body."""
    require(scheme in FIVE, SCHEME)
    five, body = FIVE[scheme], body.decode("latin-1")
    require(not five.body(body), FORM)
    found = [f for f in five.figures if accepted(scheme, f + body if five.in_front else body + f)]
    require(found or set(body) != {"0"}, ZERO)
    require(found, NO_FIGURE)
    require(room >= 2, ROOM)
    return found[0]


def corrections(scheme, content, room):
    """Every accepted number that is one slip away from a refused one."""
    require(scheme in FIVE, SCHEME)
    number = normalized(readable(content))
    require(not FIVE[scheme].number(number), FORM)
    require(not accepted(scheme, number), GOOD)
    require(room >= (2 * len(number) - 1) * len(number), ROOM)
    return [near for near in slips(number) if accepted(scheme, near)]


def slips(number):
    """One digit replaced, by place; then two unequal neighbours exchanged, by place."""
    for i, old in enumerate(number):
        yield from (number[:i] + new + number[i + 1:] for new in ONE_DIGIT if new != old)
    for i, (a, b) in enumerate(zip(number, number[1:])):
        if a != b:
            yield number[:i] + b + a + number[i + 2:]
