"""Code points and white space."""

from __future__ import annotations

import ctypes
from typing import Callable, Optional, SupportsIndex

from .answers import Point
from .library import AREA, MOST_SIZE, MOST_U32, Content, TextStruct, as_bytes, library, settle, within


def decode(content: Content, at: SupportsIndex) -> Optional[Point]:
    """The code point that begins at a byte of a content, by RFC 3629; None where none begins, and past the end."""
    c = as_bytes(content)
    point = library().partyid_decode(c, len(c), within(at, MOST_SIZE, "a place"))
    return Point(point.code, point.len) if point.len else None


def is_white(code: SupportsIndex) -> bool:
    """Whether a code point is one of the 25 white ones."""
    return bool(library().partyid_is_white(within(code, MOST_U32, "a code point")))


def normalize_space(content: Content) -> str:
    """White at both ends dropped, each inner run of it one space. Raises Refusal."""
    return _written(library().partyid_normalize_space, content)


def strip(content: Content) -> str:
    """Every white point removed. Raises Refusal."""
    return _written(library().partyid_strip, content)


def _written(write: Callable[..., TextStruct], content: Content) -> str:
    c = as_bytes(content)
    area = (ctypes.c_uint8 * AREA)()
    text = write(c, len(c), area)
    settle(text.reason)
    return bytes(area[: text.len]).decode("utf-8")
