"""The numbers of an answer, and the kinds of answer that are made of them."""

NO_RULE, ACCEPTED, REFUSED, UNREAD = 0, 1, 2, 3
FATAL, WARNING = 1, 2
LONG, UTF8, FORM, CHECK, ZERO, NO_FIGURE, SCHEME, ROOM, GOOD, TERM, LINE, FULL = range(1, 13)


class Refusal(Exception):
    """A content can't be read, completed or listed, for a reason."""

    def __init__(self, reason):
        self.reason = reason


def judged(reason, rule=0, severity=0):
    return REFUSED if reason else ACCEPTED, rule, severity, reason
