"""Checks of a field, an account, a strict GLN and a scheme code."""

from __future__ import annotations

from typing import SupportsIndex

from .answers import Answer, Code, Withdrawal
from .library import MOST_U32, Content, answered, as_bytes, library, member, within


def check(scheme: Content, term: SupportsIndex, content: Content) -> Answer:
    """The check of a field: its scheme, the number of the business term (29, 30, 31, 34, 46 to 49, 60, 61, 63) and its content."""
    s, c = as_bytes(scheme), as_bytes(content)
    return answered(library().partyid_check(s, len(s), within(term, MOST_U32, "a term"), c, len(c)))


def is_valid_iban_checksum(content: Content) -> Answer:
    """IBAN: 5 to 34 letters or digits once white is removed, and remainder 1 by 97. That is the whole test: no country's length."""
    c = as_bytes(content)
    return answered(library().partyid_is_valid_iban_checksum(c, len(c)))


def is_valid_creditor_identifier(content: Content) -> Answer:
    """Creditor identifier: its form alone."""
    c = as_bytes(content)
    return answered(library().partyid_is_valid_creditor_identifier(c, len(c)))


def eas_value(scheme: Content, content: Content) -> Answer:
    """Strict GLN: with scheme 0088 exactly 13 digits, as they stand, and the check digit. Any other scheme has no rule."""
    s, c = as_bytes(scheme), as_bytes(content)
    return answered(library().partyid_eas_value(s, len(s), c, len(c)))


def withdrawn(code: Content) -> Code:
    """Whether a scheme code is withdrawn, and what took its place."""
    c = as_bytes(code)
    found = library().partyid_withdrawn(c, len(c))
    answer = member(Withdrawal, found.answer)
    return Code(answer, bytes(found.successor).decode("ascii") if answer is Withdrawal.SUCCESSOR else None)
