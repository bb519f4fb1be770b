"""The commands: what each takes and does."""

from __future__ import annotations

import contextlib
import os
import sys
from argparse import Namespace
from typing import Callable, ContextManager, Iterable, NamedTuple

from . import reports, tally_table
from .answers import Answer, Refusal, Verdict
from .checks import check, eas_value, is_valid_creditor_identifier, is_valid_iban_checksum, withdrawn
from .explain import refusal_told, told
from .lines import Readable
from .listing import complete, corrections
from .manual import IBAN_IS, LINE_IS, LINES_ARE, SCHEME_IS, TALLY_IS, recipes_told, schemes_told, terms_told
from .tally import Tally

DONE, REFUSED, FAILED, NOT_JUDGED = 0, 1, 2, 3
_STATUS = {Verdict.ACCEPTED: DONE, Verdict.REFUSED: REFUSED, Verdict.NO_RULE: NOT_JUDGED, Verdict.UNREAD: NOT_JUDGED}


class UsageError(Exception):
    """The command line was not understood."""


def status_of(verdicts: Iterable[Verdict]) -> int:
    """Refused before not judged, and not judged before accepted."""
    statuses = {_STATUS[verdict] for verdict in verdicts}
    return next((status for status in (REFUSED, NOT_JUDGED) if status in statuses), DONE)


def _judge(answer: Answer, scheme: bytes = b"") -> int:
    print(reports.row_of(tuple(map(int, answer)), told(answer, scheme)))
    return _STATUS[answer.verdict]


def _check(given: Namespace) -> int:
    answer = check(given.scheme, given.term, given.content)
    status = _judge(answer, given.scheme)
    if given.corrections and answer.refused:
        print(*(f"    {line}" for line in refusal_told(answer, given.content)), sep="\n")
    return status


def _iban(given: Namespace) -> int:
    return _judge(is_valid_iban_checksum(given.content))


def _creditor(given: Namespace) -> int:
    return _judge(is_valid_creditor_identifier(given.content))


def _gln(given: Namespace) -> int:
    return _judge(eas_value(given.scheme, given.content))


def _withdrawn(given: Namespace) -> int:
    found = withdrawn(given.code)
    print(int(found.answer), "", found)
    return DONE


def _complete(given: Namespace) -> int:
    try:
        figure = complete(given.scheme, given.body)
    except Refusal as refusal:
        return _refused(refusal)
    digits = given.body.decode("ascii")
    whole = figure + digits if given.scheme == b"0151" else digits + figure
    print(f"0 {len(figure)}  the check figure is {figure}, the whole number {whole}")
    return DONE


def _list(given: Namespace) -> int:
    try:
        found = corrections(given.scheme, given.content)
    except Refusal as refusal:
        return _refused(refusal)
    words = "numbers that the rule accepts, one slip away:" if found else "no number that the rule accepts is one slip away"
    print(f"0 {len(found)}  {words}", *found, sep="\n")
    return DONE


def _refused(refusal: Refusal) -> int:
    print(f"{int(refusal.reason)} 0  refused: {refusal}")
    return REFUSED


def _lines(given: Namespace) -> int:
    report = reports.corrections if given.corrections else reports.answers
    with _opened(given.file) as file:
        return status_of(report(file))


def _tally(given: Namespace) -> int:
    tally, uncounted = Tally(), 0
    for name in given.file:
        with _opened(name) as file:
            uncounted += tally_table.feed_file(tally, file)
    sys.stdout.write(tally_table.told(tally, uncounted))
    return REFUSED if uncounted else DONE


def _opened(name: bytes) -> ContextManager[Readable]:
    if name != b"-":
        return open(os.fsdecode(name), "rb")
    if sys.stdin is None:
        raise UsageError("standard input is closed; name a FILE")
    return contextlib.nullcontext(sys.stdin.buffer)


# ---- What there is

ARGUMENTS = {
    "SCHEME": "whose number it is, as 0088",
    "CONTENT": "the number",
    "BODY": "the number without its check figure",
    "CODE": "a scheme code, as 9901",
    "FILE": "a file of lines; - or none is standard input",
    "FILE ...": "files of lines; - or none is standard input",
}

OPTIONS = {
    "--term": "the business term that the number stands in (34 where it is not given)",
    "--corrections": "say what a refused number would have to be, and list every correction",
}


class Command(NamedTuple):
    name: str
    run: Callable[[Namespace], int]
    takes: tuple[str, ...]
    about: str
    note: str = ""
    topics: tuple[str, ...] = ()  # more that its --help says
    options: tuple[str, ...] = ()


_LISTING = "A correction is as long as the number, is accepted by the rule, and differs in one digit or by exchanging two unequal neighbours."
_COMPLETING = "A body of 0088 has 1 to 19 digits, of 0192 and 0208 8, of 0007 and 0151 9. For 0151 the two digits belong in front of it, else behind it."
_IBAN = "5 to 34 letters or digits once white space is taken out, and remainder 1 by 97. That is the whole test: no country's length."
_CREDITOR = "8 to 35 letters or digits once white space is taken out, the first two letters, the next two digits. Its check figure is not looked at."
_GLN = "Any other scheme has no rule here. partyid check 0088 takes any number of digits."

COMMANDS = (
    Command("check", _check, ("SCHEME", "CONTENT"), "check a number by its scheme and term", "", (schemes_told(), terms_told(), IBAN_IS), ("--term", "--corrections")),
    Command("list", _list, ("SCHEME", "CONTENT"), "list the numbers that a slip of the hand could have made this one from", _LISTING, (SCHEME_IS,)),
    Command("complete", _complete, ("SCHEME", "BODY"), "say the check figure that completes a body of digits", _COMPLETING, (SCHEME_IS,)),
    Command("lines", _lines, ("FILE",), "check each line of a file, or of standard input", LINES_ARE, (LINE_IS, IBAN_IS, recipes_told()), ("--corrections",)),
    Command("tally", _tally, ("FILE ...",), "count the lines of files by rule and verdict", TALLY_IS, (LINE_IS,)),
    Command("iban", _iban, ("CONTENT",), "check an IBAN", _IBAN),
    Command("creditor", _creditor, ("CONTENT",), "check the form of a SEPA creditor identifier", _CREDITOR),
    Command("gln", _gln, ("SCHEME", "CONTENT"), "check a GLN strictly: scheme 0088 and 13 digits", _GLN),
    Command("withdrawn", _withdrawn, ("CODE",), "say whether a scheme code is withdrawn, and what took its place"),
)
NAMED = {command.name: command for command in COMMANDS}
