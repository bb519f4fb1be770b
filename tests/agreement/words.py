"""The words for the numbers of an answer, which are one in the library for C and in the bindings; and the version, which is one everywhere."""
from __future__ import annotations

import ctypes
import pathlib
import re

from .definitions import WORDED
from .interface import Unreadable, differing, upper_snake
from .python_binding import load
from .rust_binding import Cases, code_of

# by enum, then by the name of a case: {"reason": {"NO_FIGURE": "no check figure completes the body", ..}, ..}
Words = dict[str, dict[str, str]]


def only(pattern: str, text: str, where: str) -> str:
    """The one thing that a pattern finds."""
    found = re.findall(pattern, text, re.M)
    if len(found) != 1:
        raise Unreadable(f"{where}: {pattern} is found {len(found)} times")
    return found[0]


# ---- The words


def library_words(built: pathlib.Path, cases: dict[str, Cases]) -> Words:
    """What the built library says of each number, and that it calls every other one unknown."""
    library = ctypes.CDLL(str(built / "libpartyid.so"))
    found: Words = {}
    for enum in WORDED:
        say = library[f"partyid_{enum}_words"]
        say.argtypes, say.restype = [ctypes.c_uint32], ctypes.c_char_p
        found[enum] = {upper_snake(case): (say(number) or b"a null pointer").decode() for case, number in cases[enum]}
        last = max(number for _, number in cases[enum])
        others = {say(number) for number in (last + 1, last + 2, 255, 2**31, 2**32 - 1)}
        if others != {b"unknown"}:
            raise Unreadable(f"libpartyid.so: partyid_{enum}_words says {others} of numbers that stand for nothing")
    return found


def rust_words(sources: pathlib.Path) -> Words:
    """The cases of numbered!, each with its words."""
    entries = {enum: re.findall(r'^\s*(\w+) = \d+ "([^"]*)",$', code_of((sources / f"{enum}.rs").read_text()), re.M) for enum in WORDED}
    return {enum: {upper_snake(case): words for case, words in found} for enum, found in entries.items()}


def python_words(path: pathlib.Path) -> Words:
    module = load(path, "partyid")
    return {enum: {name: member.words for name, member in getattr(module, enum.capitalize()).__members__.items()} for enum in WORDED}


def words_disagreements(wanted: Words, found: Words) -> list[str]:
    return [what for enum in WORDED for what in differing(f"words of the {enum}", wanted[enum], found[enum])]


# ---- The version


def version_of_crate(root: pathlib.Path) -> str:
    return only(r'^version = "(\d+\.\d+\.\d+)"$', (root / "bindings/rust/Cargo.toml").read_text(), "Cargo.toml")


def version_disagreements(root: pathlib.Path, built: pathlib.Path, wanted: str) -> list[str]:
    """Where another version is named than the crate's; the header is compared by its constants."""
    library = ctypes.CDLL(str(built / "libpartyid.so"))
    library.partyid_version.restype = ctypes.c_char_p
    found = {
        "libpartyid.so": library.partyid_version().decode(),
        "checklines": only(r"^version=(.*)$", (root / "checklines").read_text(), "checklines"),
        "partyid.pc": only(r"^Version: (.*)$", (built / "partyid.pc").read_text(), "partyid.pc"),
    }
    return differing("version of", dict.fromkeys(found, wanted), found)
