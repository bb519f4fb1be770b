"""What the library answers, with names for the numbers of include/partyid.h."""

from __future__ import annotations

import enum
from typing import NamedTuple, Optional


class Numbered(enum.IntEnum):
    """A number of an answer, with its meaning in words. It is an int, and str() gives the words."""

    words: str

    def __new__(cls, number: int, words: str = "") -> "Numbered":
        member = int.__new__(cls, number)
        member._value_ = number
        member.words = words
        return member

    def __str__(self) -> str:
        return self.words

    def __format__(self, spec: str) -> str:
        return format(int(self) if spec.endswith(tuple("bcdnoxX")) else self.words, spec)


class Verdict(Numbered):
    """What a check decided."""

    NO_RULE = 0, "no rule"
    ACCEPTED = 1, "accepted"
    REFUSED = 2, "refused"
    UNREAD = 3, "let through unread"


class Severity(Numbered):
    """How grave it is if the rule refuses; it belongs to the rule, whatever the verdict is."""

    NO_SEVERITY = 0, "no severity"
    FATAL = 1, "fatal"
    WARNING = 2, "warning"


class Reason(Numbered):
    """Why something is refused."""

    NO_REASON = 0, "no reason"
    LONG = 1, "the content is over 1,024 bytes"
    UTF8 = 2, "the content is not well-formed UTF-8"
    FORM = 3, "the form is not met"
    CHECK = 4, "the form is met and the check figure is wrong"
    ZERO = 5, "all digits are zero"
    NO_FIGURE = 6, "no check figure completes the body"
    SCHEME = 7, "only 0088, 0192, 0208, 0007 and 0151 can be completed or listed"
    ROOM = 8, "the output area is too short"
    GOOD = 9, "the number is accepted, so there is nothing to correct"
    TERM = 10, "the term number is none that a rule reads"
    LINE = 11, "the head of the line is malformed"
    FULL = 12, "the tally is full"


class Withdrawal(Numbered):
    """Whether a scheme code is withdrawn."""

    NOT_WITHDRAWN = 0, "not withdrawn"
    NO_SUCCESSOR = 1, "withdrawn with no successor"
    SUCCESSOR = 2, "withdrawn, its successor is"


class Answer(NamedTuple):
    """The answer of a check. The rule is the published number (561 and 562 for R056-1 and R056-2), 0 where there is none.

    It is true where the rule accepts the content, and false otherwise: also where no rule read it."""

    verdict: Verdict
    rule: int
    severity: Severity
    reason: Reason

    @property
    def accepted(self) -> bool:
        """The rule accepts the content. That says nothing about whether the party exists."""
        return self.verdict is Verdict.ACCEPTED

    @property
    def refused(self) -> bool:
        """The content is refused; the reason says why."""
        return self.verdict is Verdict.REFUSED

    def __bool__(self) -> bool:
        return self.accepted

    def __str__(self) -> str:
        rule = f" by rule {self.rule}" if self.rule else ""
        severity = f" (severity {self.severity.words})" if self.refused and self.severity else ""
        reason = f": {self.reason.words}" if self.reason else ""
        return self.verdict.words + rule + severity + reason


class Code(NamedTuple):
    """Whether a scheme code is withdrawn, and the code that took its place, if there is one. It is true where it is withdrawn."""

    answer: Withdrawal
    successor: Optional[str]

    def __bool__(self) -> bool:
        return self.answer is not Withdrawal.NOT_WITHDRAWN

    def __str__(self) -> str:
        return f"{self.answer.words} {self.successor}" if self.successor else self.answer.words


class Point(NamedTuple):
    """A code point, and how many bytes it takes, 1 to 4."""

    code: int
    len: int


class Refusal(Exception):
    """The library refused a piece of work; the reason says why."""

    def __init__(self, reason: Reason) -> None:
        super().__init__(reason)
        self.reason = reason

    def __str__(self) -> str:
        return self.reason.words
