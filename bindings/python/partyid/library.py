"""libpartyid by ctypes: where it is, what its functions take and give, and its numbers as answers."""

from __future__ import annotations

import ctypes
import ctypes.util
import functools
import operator
import os
import pathlib
from typing import Any, SupportsIndex, TypeVar, Union

from .answers import Answer, Numbered, Reason, Refusal, Severity, Verdict

Content = Union[bytes, bytearray, memoryview, str]
Some = TypeVar("Some", bound=Numbered)

AREA = 1024
LIST_DIGITS = 20
ANSWER_NUMBERS = 4
TALLY_COUNTS = 53
TALLY_LIMIT = 4294967295
MOST_U32 = 2**32 - 1
MOST_SIZE = 2 ** (8 * ctypes.sizeof(ctypes.c_size_t)) - 1


class PointStruct(ctypes.Structure):
    _fields_ = [("code", ctypes.c_uint32), ("len", ctypes.c_size_t)]


class TextStruct(ctypes.Structure):
    _fields_ = [("reason", ctypes.c_uint32), ("len", ctypes.c_size_t)]


class AnswerStruct(ctypes.Structure):
    _fields_ = [("verdict", ctypes.c_uint32), ("rule", ctypes.c_uint32), ("severity", ctypes.c_uint32), ("reason", ctypes.c_uint32)]


class CodeStruct(ctypes.Structure):
    _fields_ = [("answer", ctypes.c_uint32), ("successor", ctypes.c_uint8 * 4)]


class DoneStruct(ctypes.Structure):
    _fields_ = [("reason", ctypes.c_uint32), ("count", ctypes.c_size_t)]


class BatchStruct(ctypes.Structure):
    _fields_ = [("count", ctypes.c_size_t), ("used", ctypes.c_size_t)]


# bytes that are read; an address, so that a text can be handed over from any byte of it on
READ = (ctypes.c_void_p, ctypes.c_size_t)
BYTES = ctypes.POINTER(ctypes.c_uint8)
NUMBERS = ctypes.POINTER(ctypes.c_uint32)

# what each function gives and takes
FUNCTIONS: dict[str, tuple[Any, tuple[Any, ...]]] = {
    "partyid_check": (AnswerStruct, (*READ, ctypes.c_uint32, *READ)),
    "partyid_is_valid_iban_checksum": (AnswerStruct, READ),
    "partyid_is_valid_creditor_identifier": (AnswerStruct, READ),
    "partyid_eas_value": (AnswerStruct, (*READ, *READ)),
    "partyid_withdrawn": (CodeStruct, READ),
    "partyid_complete": (DoneStruct, (*READ, *READ, BYTES, ctypes.c_size_t)),
    "partyid_list": (DoneStruct, (*READ, *READ, BYTES, ctypes.c_size_t)),
    "partyid_answer_line": (AnswerStruct, READ),
    "partyid_answer_lines": (BatchStruct, (*READ, NUMBERS, ctypes.c_size_t)),
    "partyid_tally_line": (AnswerStruct, (*READ, NUMBERS)),
    "partyid_tally_lines": (BatchStruct, (*READ, NUMBERS, NUMBERS, ctypes.c_size_t)),
    "partyid_decode": (PointStruct, (*READ, ctypes.c_size_t)),
    "partyid_is_white": (ctypes.c_bool, (ctypes.c_uint32,)),
    "partyid_normalize_space": (TextStruct, (*READ, BYTES)),
    "partyid_strip": (TextStruct, (*READ, BYTES)),
}


class LibraryError(OSError):
    """libpartyid can't be loaded."""


class Disagreement(ValueError):
    """libpartyid answered a number that its header does not have: it is not the library that this package was made for."""

    def __str__(self) -> str:
        return f"{super().__str__()}: this package and libpartyid are not of one version; build both from one source, or see what PARTYID_LIBRARY names"


def library_path(here: pathlib.Path) -> str:
    """The file that PARTYID_LIBRARY names, else the one beside this module, else what the repository around it has built, else the system's."""
    named = os.environ.get("PARTYID_LIBRARY")
    if named:
        return named
    repository = list(here.parents)[3:4]  # none, near the root
    files = [here.parent / "libpartyid.so", *(folder / "target" / "c" / "libpartyid.so" for folder in repository)]
    built = next((str(file) for file in files if file.exists()), None)
    return built or ctypes.util.find_library("partyid") or "libpartyid.so"


@functools.lru_cache(maxsize=None)
def library() -> ctypes.CDLL:
    try:
        loaded = ctypes.CDLL(library_path(pathlib.Path(__file__).resolve()))
        for name, (gives, takes) in FUNCTIONS.items():
            function = getattr(loaded, name)
            function.restype, function.argtypes = gives, takes
    except (OSError, AttributeError) as error:
        raise LibraryError(f"{error}; run make in the repository's folder to build libpartyid.so, or name it in PARTYID_LIBRARY") from error
    return loaded


# ---- What is handed over


def as_bytes(content: Content) -> bytes:
    """The bytes of a content. A str is its UTF-8; a lone surrogate gets the three bytes that UTF-8 forbids, so that the library refuses them."""
    if isinstance(content, bytes):
        return content
    if isinstance(content, str):
        return content.encode("utf-8", "surrogatepass")
    try:
        return memoryview(content).tobytes()
    except TypeError:
        raise TypeError(f"a scheme or a content is given as bytes or str, not as {type(content).__name__}") from None


def whole(number: SupportsIndex, what: str) -> int:
    try:
        return operator.index(number)
    except TypeError:
        raise TypeError(f"{what} is given as a whole number (int), not as {number!r}") from None


def within(number: SupportsIndex, most: int, what: str) -> int:
    """A number that C can hold. ctypes would cut off the rest of one that it can't, and 2**32 + 34 would pass for 34; the most stands
    for it instead, which is no term, no white point and past the end of every content."""
    given = whole(number, what)
    return given if 0 <= given <= most else most


# ---- What comes back


def member(kind: type[Some], number: int) -> Some:
    try:
        return kind(number)
    except ValueError as error:
        raise Disagreement(str(error)) from error


@functools.lru_cache(maxsize=1024)
def answer_of(verdict: int, rule: int, severity: int, reason: int) -> Answer:
    return Answer(member(Verdict, verdict), rule, member(Severity, severity), member(Reason, reason))


def answered(answer: AnswerStruct) -> Answer:
    return answer_of(answer.verdict, answer.rule, answer.severity, answer.reason)


def settle(number: int) -> None:
    reason = member(Reason, number)
    if reason is not Reason.NO_REASON:
        raise Refusal(reason)
