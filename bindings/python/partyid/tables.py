"""What terms and schemes are on an invoice, and what each rule asks for: words alone, for help and messages. The library decides."""

from __future__ import annotations

from typing import NamedTuple, Optional


class Term(NamedTuple):
    """A business term of EN 16931 that a rule reads: 34 is BT-34."""

    number: int
    name: str
    by_scheme: bool  # the rule goes by the scheme; else it is the rule of VAT numbers


TERMS = (
    Term(29, "seller identifier", True),
    Term(30, "seller legal registration identifier", True),
    Term(31, "seller VAT identifier", False),
    Term(34, "seller electronic address", True),
    Term(46, "buyer identifier", True),
    Term(47, "buyer legal registration identifier", True),
    Term(48, "buyer VAT identifier", False),
    Term(49, "buyer electronic address", True),
    Term(60, "payee identifier", True),
    Term(61, "payee legal registration identifier", True),
    Term(63, "seller tax representative VAT identifier", False),
)


class Rule(NamedTuple):
    """A rule by its published number. The example is made up for its form and figure: no party is meant by it."""

    number: int
    scheme: str  # empty for the rule of VAT numbers
    whose: str
    asks: str
    example: str
    listed: str = ""  # which numbers corrections are listed of; empty: of none


RULES = (
    Rule(40, "0088", "GLN, Global Location Number (GS1)", "one or more digits, the last of them the GS1 check digit", "1234567890128", "1 to 20 digits"),
    Rule(41, "0192", "Norwegian organisation number", "9 digits that are not all zero, the last of them a check digit (modulus 11)", "123456785", "9 digits"),
    Rule(42, "0184", "Danish CVR number", "8 digits, or DK and 8 digits, with no space around them", "DK12345678"),
    Rule(43, "0208", "Belgian enterprise number", "10 digits, the last two of them the check (modulus 97)", "1234567894", "10 digits"),
    Rule(44, "0201", "Italian public office (codice univoco, IPA)", "6 letters or digits", "ABC123"),
    Rule(45, "0210", "Italian codice fiscale", "16 characters as in ABCDEF12G34H567I, or 11 digits", "ABCDEF12G34H567I"),
    Rule(46, "9907", "Italian codice fiscale (withdrawn code; terms 34 and 49 only)", "16 characters as in ABCDEF12G34H567I, or 11 digits", "12345678901"),
    Rule(47, "0211", "Italian VAT number (partita IVA)", "IT and 11 digits, the last of them a check digit; what does not begin IT or it is let through", "IT12345678903"),
    Rule(49, "0007", "Swedish organisation number", "10 digits, the last of them the Luhn check digit", "1234567897", "10 digits"),
    Rule(50, "0151", "Australian Business Number (ABN)", "11 digits, the first two of them the check (modulus 89)", "10000000000", "11 digits"),
    Rule(52, "0096", "Danish P number (chamber of commerce)", "10 digits, with no space around them", "1234567890"),
    Rule(53, "0198", "Danish SE number (ERSTORG)", "DK and 8 digits, with no space around them", "DK12345678"),
    Rule(54, "0106", "Dutch chamber of commerce (KVK) number", "8 digits", "12345678"),
    Rule(55, "0190", "Dutch organisation identification number (OIN)", "20 digits", "12345678901234567890"),
    Rule(57, "0217", "Dutch establishment number (KVK)", "12 digits", "123456789012"),
    Rule(561, "9944", "Dutch VAT number", "NL, 9 digits, B and 2 digits", "NL123456789B12"),
    Rule(562, "", "VAT number at a VAT term, whatever the scheme is", "where it begins NL: NL, 9 digits, B and 2 digits; others are let through", "NL123456789B12"),
)

LISTED = tuple(rule.scheme for rule in RULES if rule.listed)
LINE_FORM = "a line is SCHEME TERM CONTENT: four bytes, two digits and the rest, with one space between, as 0088 34 1234567890128"
TERM_FORM = "a term is one of " + ", ".join(str(term.number) for term in TERMS)


def rule_of(number: int) -> Optional[Rule]:
    return next((rule for rule in RULES if rule.number == number), None)
