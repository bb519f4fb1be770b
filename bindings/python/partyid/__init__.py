"""Checks of party identifiers on invoices (GLN, organisation number, VAT number, IBAN ..).

Every decision is made by libpartyid, which is proved; this package gives its numbers names. It takes bytes, any bytes, or str, and
refuses nothing by itself. A str is taken as its UTF-8; a lone surrogate in it gets the three bytes that UTF-8 forbids, so that the library
refuses them.

A number that passes says nothing about whether the party exists: a check figure finds slips of the hand, and knows no register.

    >>> import partyid
    >>> partyid.check("0088", 34, "71").reason
    <Reason.CHECK: 4>
    >>> partyid.check("0088", 34, "17").accepted
    True
    >>> partyid.corrections("0088", "71")
    ['31', '79', '17']
    >>> partyid.complete("0088", "7")
    '9'
    >>> [line.number for line in partyid.check_lines(["0088 34 71", "0088 34 17"]) if line.answer.refused]
    [1]
    >>> tally = partyid.Tally()
    >>> [answer.accepted for answer in tally.feed_lines("0088 34 71\\n0088 34 17\\n")]
    [False, True]
    >>> tally.count(40, partyid.Verdict.REFUSED), tally.total
    (1, 2)

The library is the file that the environment variable PARTYID_LIBRARY names, else the one in this package's folder, else target/c/libpartyid.so
of the repository that it stands in, else the system's. On the command line: partyid --help, or python3 -m partyid --help.
"""

from __future__ import annotations

from typing import Optional, Sequence

__version__ = "0.1.0"

from .answers import Answer, Code, Point, Reason, Refusal, Severity, Verdict, Withdrawal
from .checks import check, eas_value, is_valid_creditor_identifier, is_valid_iban_checksum, withdrawn
from .library import ANSWER_NUMBERS, AREA, LIST_DIGITS, TALLY_COUNTS, TALLY_LIMIT, Content, Disagreement, LibraryError
from .lines import Line, answer_line, answer_lines, answer_numbers, check_lines
from .listing import complete, corrections
from .tables import RULES, TERMS, Rule, Term
from .tally import Tally
from .text import decode, is_white, normalize_space, strip

__all__ = [
    "ANSWER_NUMBERS",
    "AREA",
    "Answer",
    "Code",
    "Content",
    "Disagreement",
    "LIST_DIGITS",
    "LibraryError",
    "Line",
    "Point",
    "RULES",
    "Reason",
    "Refusal",
    "Rule",
    "Severity",
    "TALLY_COUNTS",
    "TALLY_LIMIT",
    "TERMS",
    "Tally",
    "Term",
    "Verdict",
    "Withdrawal",
    "answer_line",
    "answer_lines",
    "answer_numbers",
    "check",
    "check_lines",
    "complete",
    "corrections",
    "decode",
    "eas_value",
    "is_valid_creditor_identifier",
    "is_valid_iban_checksum",
    "is_white",
    "main",
    "normalize_space",
    "strip",
    "withdrawn",
]


def main(words: Optional[Sequence[str]] = None) -> int:
    """Runs a command of the command line; gives the exit status."""
    from .command_line import main as run

    return run(words)
