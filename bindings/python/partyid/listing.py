"""Completing and listing: 0088, 0192, 0208, 0007, 0151."""

from __future__ import annotations

import ctypes

from .library import LIST_DIGITS, Content, as_bytes, library, settle
from .text import normalize_space

LIST_ROOM = (2 * LIST_DIGITS - 1) * LIST_DIGITS


def complete(scheme: Content, body: Content) -> str:
    """The check figure that completes a body of digits: one digit, or two for 0208 and 0151. For 0151 the two digits belong in front of
    the body, for the others behind it. Raises Refusal."""
    s, b = as_bytes(scheme), as_bytes(body)
    area = (ctypes.c_uint8 * 2)()
    done = library().partyid_complete(s, len(s), b, len(b), area, len(area))
    settle(done.reason)
    return bytes(area[: done.count]).decode("ascii")


def corrections(scheme: Content, content: Content) -> list[str]:
    """Every number that is as long as a refused number, is accepted, and differs from it in one digit or by exchanging two unequal neighbours:
    first the replacements, then the exchanges, each from the left. Raises Refusal."""
    s, c = as_bytes(scheme), as_bytes(content)
    area = (ctypes.c_uint8 * LIST_ROOM)()
    done = library().partyid_list(s, len(s), c, len(c), area, len(area))
    settle(done.reason)
    n = len(normalize_space(c))  # digits alone, so that points are bytes
    digits = bytes(area).decode("ascii")
    return [digits[n * i : n * (i + 1)] for i in range(done.count)]
