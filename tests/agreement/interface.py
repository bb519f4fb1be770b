"""What a header, or the definitions, say of the library: its enums, structs, functions and constants, in the words of C."""
from __future__ import annotations

import dataclasses
import re

# a type and a name, as ("const uint8_t *", "content") or ("uint8_t[4]", "successor")
Typed = tuple[str, str]


class Unreadable(Exception):
    """A source is not written in the way in which it is read here."""


@dataclasses.dataclass
class Function:
    result: str
    parameters: list[Typed]


@dataclasses.dataclass
class Interface:
    """Names are full: partyid_answer, PARTYID_REASON_LONG. Lists are in the order of the source."""

    enums: dict[str, list[tuple[str, int]]]
    structs: dict[str, list[Typed]]
    functions: dict[str, Function]  # the proved ones
    words: dict[str, Function]  # those that decide nothing
    inlines: dict[str, tuple[Function, str]]  # with what they return
    constants: dict[str, str]


def upper_snake(camel: str) -> str:
    """NoFigure -> NO_FIGURE, Utf8 -> UTF8."""
    return re.sub(r"(?<=.)(?=[A-Z])", "_", camel).upper()


def differing(kind: str, wanted: dict, found: dict) -> list[str]:
    """Where two tables differ: names that one of them lacks, and entries that are not the same."""
    missing = [f"{kind} {name}: missing" for name in wanted if name not in found]
    extra = [f"{kind} {name}: not in the definitions" for name in found if name not in wanted]
    other = [f"{kind} {name}: {contrast(wanted[name], found[name])}" for name in wanted if name in found and wanted[name] != found[name]]
    return missing + extra + other


def contrast(wanted: object, found: object) -> str:
    """Of two lists only what one of them lacks, or all where nothing but the order differs."""
    if isinstance(wanted, list) and isinstance(found, list):
        lost, added = [w for w in wanted if w not in found], [f for f in found if f not in wanted]
        if lost or added:
            return f"expected {shown(lost) or 'nothing'}, found {shown(added) or 'nothing'}"
    return f"expected {shown(wanted)}, found {shown(found)}"


def shown(entry: object) -> str:
    if isinstance(entry, tuple):
        return f"{shown(entry[0])} returning {entry[1]}"
    if isinstance(entry, Function):
        return f"{entry.result} ({shown(entry.parameters)})"
    if isinstance(entry, list):
        return ", ".join(" ".join(map(str, pair)) for pair in entry)
    return str(entry)


def disagreements(wanted: Interface, found: Interface) -> list[str]:
    return (
        differing("enum", wanted.enums, found.enums)
        + differing("struct", wanted.structs, found.structs)
        + differing("function", {**wanted.functions, **wanted.words}, {**found.functions, **found.words})
        + differing("inline function", wanted.inlines, found.inlines)
        + differing("constant", wanted.constants, found.constants)
    )
