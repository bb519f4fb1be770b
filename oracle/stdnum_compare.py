#!/usr/bin/env python3
"""Where python-stdnum, or a register, and a rule part: the smallest number of each kind, found by asking both.

    stdnum_compare.py            prints the rows of docs/DIFFERENCES.md, From registers and python-stdnum
    stdnum_compare.py --check    says whether that document has exactly these rows; exits 1 and names each that it has not

Needs the built library (make) and python-stdnum (Debian: the package python3-stdnum, for Debian's own python3). It is no part of the gate.

Numbers are tried in their order: of one length by their digits, letters A to Z; shorter ones first."""
from __future__ import annotations

import itertools
import pathlib
import string
import sys
from typing import Callable, Iterable, Iterator, NamedTuple, Optional

ROOT = pathlib.Path(__file__).resolve().parent.parent
DOCUMENT = ROOT / "docs/DIFFERENCES.md"
sys.dont_write_bytecode = True
sys.path.insert(0, str(ROOT / "bindings/python"))

try:
    import stdnum
    from stdnum import ean, iban, numdb
    from stdnum.au import abn
    from stdnum.be import vat as be_vat
    from stdnum.dk import cvr
    from stdnum.eu import at_02
    from stdnum.eu import vat as eu_vat
    from stdnum.exceptions import ValidationError
    from stdnum.it import codicefiscale, iva
    from stdnum.nl import btw
    from stdnum.no import orgnr as no_orgnr
    from stdnum.se import orgnr as se_orgnr
    from stdnum.util import get_cc_module
except ImportError as why:
    sys.exit(f"stdnum_compare.py: nothing was compared: python-stdnum is not installed for this Python ({sys.executable}): {why}\n"
             "On Debian it is the package python3-stdnum, for Debian's own python3.")
import partyid  # noqa: E402

try:
    partyid.is_white(0x20)
except OSError as why:
    sys.exit(f"stdnum_compare.py: nothing was compared: {why}")

MOST = 200_000  # contents tried for a row
LETTERS = string.ascii_uppercase
ACCEPTED = "accepted"

# ---- Both sides


def field(scheme: str, term: int = 34) -> Callable[[str], partyid.Answer]:
    return lambda content: partyid.check(scheme, term, content)


def told(answer: partyid.Answer) -> str:
    words = {partyid.Verdict.ACCEPTED: ACCEPTED, partyid.Verdict.UNREAD: "let through unread", partyid.Verdict.NO_RULE: "no rule"}
    return words.get(answer.verdict) or answer.reason.name


def theirs(module, content: str) -> str:
    """accepted, or the name of the exception."""
    try:
        module.validate(content)
    except ValidationError as fault:
        return type(fault).__name__
    return ACCEPTED


# ---- Contents, in their order


def digits(n: int, head: str = "", start: int = 0) -> Iterator[str]:
    return (f"{head}{i:0{n}}" for i in range(start, 10**n))


def lengths(most: int = 20) -> Iterator[str]:
    return itertools.chain.from_iterable(digits(n) for n in range(1, most + 1))


def spelled(form: str) -> Iterator[str]:
    """# is a digit, & a letter, * either, anything else itself."""
    classes = {"#": string.digits, "&": LETTERS, "*": string.digits + LETTERS}
    return map("".join, itertools.product(*(classes.get(c, c) for c in form)))


def dutch() -> Iterator[str]:
    return (f"NL{i:09}B{k:02}" for i in range(10**9) for k in range(100))


def with_structure(checked: bool) -> Iterator[str]:
    """Accounts of the countries that stdnum knows: the shortest; or, where it has a check of its own, of digits and of the right length."""
    for a, b in itertools.product(LETTERS, repeat=2):
        known = numdb.get("iban").info(a + b)[0][1]
        if known and not checked:
            yield from spelled(f"{a}{b}##*")
        elif known and get_cc_module((a + b).lower(), "iban") and set("ac").isdisjoint(known["bban"]):
            n = sum(int(part.split("!")[0]) for part in known["bban"].replace("n", " ").split())
            yield from (f"{a}{b}{pair:02}{i:0{n}}" for pair in range(100) for i in range(97))


def parted(content: str, sign: str) -> Iterator[str]:
    """A content with a sign between two of its characters, at each place."""
    return (content[:at] + sign + content[at:] for at in range(1, len(content)))


def small(contents: Iterable[str]) -> Iterator[str]:
    return (content.lower() for content in contents)


def full_width(contents: Iterable[str]) -> Iterator[str]:
    return (content.translate({ord(d): 0xFF10 + int(d) for d in string.digits}) for content in contents)


# ---- What is asked


class Row(NamedTuple):
    rule: str
    who: str
    asks: str
    ours: Callable[[str], partyid.Answer]
    module: object
    contents: Iterable[str]
    theirs: str  # what stdnum must answer
    beside: Optional[Callable[[str], bool]] = None  # and this must hold, where a register asks what stdnum does not


def skips(rule: str, who: str, ours: Callable[[str], partyid.Answer], module, contents: Iterable[str]) -> Row:
    """The signs that stdnum skips in the first content that both accept."""
    content = next(c for c in itertools.islice(contents, MOST) if told(ours(c)) == ACCEPTED == theirs(module, c))
    signs = [sign for sign in sorted(" " + string.punctuation) if all(theirs(module, c) == ACCEPTED for c in parted(content, sign))]
    words = " ".join("a space," if sign == " " else f"`{sign}`" for sign in signs).rstrip(",")
    return Row(rule, who, f"skips {words}", ours, module, itertools.chain.from_iterable(parted(content, sign) for sign in signs), ACCEPTED)


IBAN, CREDITOR = partyid.is_valid_iban_checksum, partyid.is_valid_creditor_identifier
R40, R41, R42, R43, R45 = field("0088"), field("0192"), field("0184"), field("0208"), field("0210")
R47, R49, R50, R53, R561, R562 = field("0211"), field("0007"), field("0151"), field("0198"), field("9944"), field("", 31)

# The rule accepts, or lets through; stdnum or the register asks more.
MORE = [
    Row("40", "`ean`", "8, 12, 13 or 14 digits", R40, ean, lengths(), "InvalidLength"),
    Row("41", "the register", "8 or 9 as first digit", R41, no_orgnr, digits(9), ACCEPTED, lambda c: c[0] not in "89"),
    Row("42", "`dk.cvr`", "no 0 as first digit", R42, cvr, digits(8), "InvalidFormat"),
    Row("42", "`dk.cvr`", "modulus 11, weights 2, 7, 6 .. 1", R42, cvr, digits(8, start=10**7), "InvalidChecksum"),
    Row("43", "the register", "0 or 1 as first digit", R43, be_vat, digits(10, start=2 * 10**9), ACCEPTED, lambda c: c[0] not in "01"),
    Row("45", "`it.codicefiscale`", "of 11: all that `it.iva` asks", R45, codicefiscale, digits(11), "InvalidFormat"),
    Row("45", "`it.codicefiscale`", "of 16: the check character", R45, codicefiscale, spelled("AAAAAA##&##&###&"), "InvalidChecksum"),
    Row("45", "`it.codicefiscale`", "of 16: a day that there is", R45, codicefiscale, spelled("AAAAAA##&##&###&"), "InvalidComponent"),
    Row("47", "`it.iva`", "first seven digits not all 0", R47, iva, digits(11, "IT"), "InvalidFormat"),
    Row("47", "`it.iva`", "office code 001 to 100, 120, 121, 888, 999", R47, iva, digits(11, "IT"), "InvalidComponent"),
    Row("47", "`it.iva`", "the same, without `IT` too", R47, iva, lengths(), "InvalidFormat"),
    Row("49", "the register", "2 or more as third digit, but for persons", R49, se_orgnr, digits(10), ACCEPTED, lambda c: c[2] in "01"),
    Row("50", "`au.abn`", "check pair 11 to 99", R50, abn, digits(11), "InvalidChecksum"),
    Row("53", "`dk.cvr`", "modulus 11, as of 42", R53, cvr, digits(8, "DK", start=10**7), "InvalidChecksum"),
    Row("561", "`nl.btw`", "numbers that are not 0", R561, btw, dutch(), "InvalidFormat"),
    Row("561", "`nl.btw`", "modulus 11 of the nine, or MOD 97-10 of all", R561, btw, dutch(), "InvalidChecksum"),
    Row("562", "`eu.vat`", "the form of every EU country", R562, eu_vat, digits(1, "AT"), "InvalidFormat"),
    Row("IBAN", "`iban`", "a country that has accounts", IBAN, iban, spelled("&&##*"), "InvalidComponent"),
    Row("IBAN", "`iban`", "the country's length and structure", IBAN, iban, with_structure(False), "InvalidFormat"),
    Row("IBAN", "`iban`", "the country's own check", IBAN, iban, with_structure(True), "InvalidChecksum"),
    Row("creditor", "`eu.at_02`", "MOD 97-10, business code left out", CREDITOR, at_02, spelled("&&##****"), "InvalidChecksum"),
]

# The rule refuses; stdnum accepts.
LESS = [
    skips("40", "`ean`", R40, ean, digits(8)),
    Row("41", "`no.orgnr`", "takes nine zeros", R41, no_orgnr, digits(9), ACCEPTED),
    skips("41", "`no.orgnr`", R41, no_orgnr, digits(9)),
    skips("42", "`dk.cvr`", R42, cvr, digits(8, start=10**7)),
    Row("42", "`dk.cvr`", "takes small letters", R42, cvr, small(digits(8, "DK", start=10**7)), ACCEPTED),
    Row("43", "`be.vat`", "takes 00, 98, 99 for 97, 01, 02", R43, be_vat, digits(10), ACCEPTED),
    Row("43", "`be.vat`", "puts a 0 before nine digits", R43, be_vat, digits(9), ACCEPTED),
    skips("43", "`be.vat`", R43, be_vat, digits(10)),
    skips("45", "`it.codicefiscale`", R45, codicefiscale, digits(11)),
    skips("47", "`it.iva`", R47, iva, digits(11, "IT")),
    skips("49", "`se.orgnr`", R49, se_orgnr, digits(10)),
    skips("50", "`au.abn`", R50, abn, digits(11, start=11 * 10**9)),
    Row("53", "`dk.cvr`", "needs no `DK`", R53, cvr, digits(8, start=10**7), ACCEPTED),
    Row("561", "`nl.btw`", "needs no `NL`", R561, btw, (c[2:] for c in dutch()), ACCEPTED),
    skips("561", "`nl.btw`", R561, btw, dutch()),
    skips("IBAN", "`iban`", IBAN, iban, spelled("AD##000000000000000000##")),
    Row("creditor", "`eu.at_02`", "has no form or length", CREDITOR, at_02, lengths(), ACCEPTED),
    Row("40", "`ean`", "reads U+FF10 .. as digits", R40, ean, full_width(digits(8)), ACCEPTED),
]

# ---- The rows


def parts(row: Row, more: bool, content: str) -> bool:
    refuses = row.ours(content).verdict is partyid.Verdict.REFUSED
    return refuses is not more and theirs(row.module, content) == row.theirs and (row.beside is None or row.beside(content))


def written(row: Row, more: bool) -> str:
    """The row as the document has it."""
    for content in itertools.islice(row.contents, MOST):
        if parts(row, more, content):
            answer = row.ours(content)
            numbers = " ".join(str(int(n)) for n in (answer.verdict, answer.rule, answer.severity, answer.reason))
            return f"| {row.rule} | {row.who} | {row.asks} | `{content}` | `{numbers}` {told(answer)} | {theirs(row.module, content)} |"
    return f"| {row.rule} | {row.who} | {row.asks} | none among the first {MOST} | | |"


def main(words: list[str]) -> int:
    if words not in ([], ["--check"]):
        print(__doc__, file=sys.stderr)
        return 2
    rows = [written(row, more) for more, table in ((True, MORE), (False, LESS)) for row in table]
    if not words:
        print(f"python-stdnum {stdnum.__version__}", *rows, sep="\n")
        return 0
    document = DOCUMENT.read_text()
    section = document.partition("## From registers and python-stdnum")[2].partition("\n## ")[0]
    there = [line for line in section.splitlines() if line.startswith("| ") and not line.startswith("| rule")]
    wrong = [f"not in the document: {row}" for row in rows if row not in there] + [f"not found: {row}" for row in there if row not in rows]
    if f"python-stdnum {stdnum.__version__}" not in section:
        wrong.append(f"compared with python-stdnum {stdnum.__version__}, which the document does not name")
    for what in wrong:
        print(what, file=sys.stderr)
    if not wrong:
        print(f"{len(rows)} rows of docs/DIFFERENCES.md agree with python-stdnum {stdnum.__version__}")
    return 1 if wrong else 0


if __name__ == "__main__":
    sys.exit(main(sys.argv[1:]))
