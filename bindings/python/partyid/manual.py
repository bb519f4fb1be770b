"""The texts of --help and of the manual page, from the tables."""

from __future__ import annotations

from typing import Iterable, NamedTuple

from .answers import Numbered, Reason, Severity, Verdict
from .tables import LISTED, RULES, TERMS

ABOUT = "Says of a party identifier on an invoice whether the published rule accepts it, exactly why not, and what it could have been."

CAUTION = """\
An accepted number has the form and the check figure that the rule asks for. That says nothing about whether a party of that number
exists, or is the party that is meant. The same holds for a completed number and for every correction."""


def _numbered(cases: Iterable[Numbered]) -> str:
    return "\n".join(f"  {case.value:3}  {case.name:<13}  {case.words}" for case in cases)


def schemes() -> str:
    return "\n".join(f"  {rule.scheme or '-':<4}  rule {rule.number:<3}  {rule.whose}" for rule in RULES)


def terms() -> str:
    return "\n".join(f"  {term.number}  BT-{term.number}  {term.name}" for term in TERMS)


def sentence(words: str) -> str:
    return f"{words[0].upper()}{words[1:]}."


SCHEME_IS = f"""\
SCHEME says whose number it is: the schemeID of the identifier on the invoice. partyid --help names those that have a rule.
Corrections are listed, and check figures completed, for {', '.join(LISTED)}."""

TERM_IS = """\
TERM says where on the invoice the number stands, by the number of the business term of EN 16931. Where it is not given it is 34.
At the VAT terms (31, 48, 63) a VAT number is checked and the scheme is not looked at."""

IBAN_IS = "An IBAN has no scheme and no term: partyid iban CONTENT. A creditor identifier likewise: partyid creditor CONTENT."

LINE_IS = """\
A line of a file is SCHEME TERM CONTENT: four bytes, two digits and the rest, with one space between, as
  0088 34 1234567890128"""

LINES_ARE = """\
An answer is written for each line. With --corrections only what is wrong is written: each refused line with its number, the reason, what the rule
asks for and every correction; each line whose scheme is withdrawn and has no rule; and last what about the file (a byte order mark, CRLF, tabs, UTF-16,
commas, a header) is why lines are refused. The file is read as it comes."""

TALLY_IS = """\
A table is written with a row for each rule: how many lines it accepted, refused and let through unread, and their sum. Below it stand the lines that have
no rule, and how many lines there are. The lines of several files are counted together. Where one of them can't be read, no table is written."""

ANSWER_IS = "An answer is a line of four numbers, verdict, rule, severity and reason, and their meaning in words:"
EXAMPLE = """\
  $ partyid check 0088 71
  2 40 1 4  refused by rule 40 (severity fatal): the form is met and the check figure is wrong"""
RULE_IS = "  the published number (561 and 562 are R056-1 and R056-2), 0 where there is none"
COUNTED = """\
A completion and a list begin with the reason and a count, of digits or of entries. A list's entries follow, one on each line.
A withdrawn code's answer is 0, 1 or 2 and its meaning."""
NUMBERS = {"verdict": _numbered(Verdict), "rule": RULE_IS, "severity": _numbered(Severity), "reason": _numbered(Reason)}

LIBRARY_IS = """\
the file of libpartyid; else the one in the package's folder, else target/c/libpartyid.so of the repository around it, else the system's"""

STATUS = """\
  0  accepted by the rule, or the work is done; of a file: every line is accepted; of a tally: every line is counted
  1  refused; of a file: at least one line is; of a tally: it is full, after 4,294,967,295 lines
  2  the command was not understood, or something could not be read or written, or it was interrupted
  3  not judged: no rule reads such a field, or the rule lets it through unread; of a file: no line is refused, and at
     least one is not judged. It is not 0, because a slip in the scheme would then look like an accepted number."""


class Recipe(NamedTuple):
    title: str
    command: str


RECIPES = (
    Recipe("What is wrong with each line, and every correction", "partyid lines lines.txt --corrections"),
    Recipe("Answers beside their lines", "partyid lines lines.txt | paste - lines.txt"),
    Recipe("Only the refused lines, with their numbers", "partyid lines lines.txt | paste - lines.txt | grep -n '^2 '"),
    Recipe("How many lines each rule accepted and refused", "partyid tally lines.txt"),
    Recipe("The second column of a CSV file that has no quotes, as GLNs", "tail -n +2 plain.csv | cut -d, -f2 | sed 's/^/0088 34 /' | partyid lines"),
    Recipe(
        "A column of any CSV file by its name",
        """python3 -c 'import csv, sys; [print("0088 34", row["gln"]) for row in csv.DictReader(sys.stdin)]' <quoted.csv | partyid lines --corrections""",
    ),
    Recipe("IBANs, one on each line", """while IFS= read -r iban; do partyid iban -- "$iban"; done <ibans.txt"""),
)


def schemes_told() -> str:
    return f"{SCHEME_IS}\n{schemes()}"


def terms_told() -> str:
    return f"{TERM_IS}\n{terms()}"


def recipes_told() -> str:
    return "\n".join(f"{recipe.title}:\n  {recipe.command}" for recipe in RECIPES)


def whole() -> str:
    """What stands below the commands in partyid --help."""
    numbers = "\n".join(f"{name}\n{table}" for name, table in NUMBERS.items())
    last = "Behind a -- nothing is an option: partyid check 0088 -- --17. An argument is taken as the bytes that it is."
    answers = f"{ANSWER_IS}\n{EXAMPLE}"
    return "\n\n".join([schemes_told(), terms_told(), IBAN_IS, LINE_IS, answers, numbers, COUNTED, CAUTION, f"exit status\n{STATUS}", last])
