#!/usr/bin/env python3
"""Holds include/partyid.h, the libraries and the bindings to the definitions, in both directions: nothing missing, nothing more.

    tests/agree.py                  says what was compared; exits 1 with each disagreement
    tests/agree.py --self-test      copies of the header and of the words' source, each altered in one place: every one must be refused

    --header FILE    another header in the place of include/partyid.h
    --built FOLDER   another folder of libraries in the place of target/c"""
from __future__ import annotations

import argparse
import pathlib
import shutil
import subprocess
import sys
import tempfile
from collections.abc import Callable

sys.dont_write_bytecode = True  # no folder beside the sources
from agreement.altered import altered_headers, altered_words
from agreement.definitions import cases, read_definitions
from agreement.header import read_header, without_comments
from agreement.interface import Interface, Unreadable, differing, disagreements
from agreement.python_binding import python_disagreements
from agreement.rust_binding import rust_disagreements
from agreement.tally import library_tally_disagreements, rust_tally_disagreements
from agreement.words import library_words, python_words, rust_words, version_disagreements, version_of_crate, words_disagreements

ROOT = pathlib.Path(__file__).resolve().parent.parent
CRATES = ROOT / "crates"
HEADER = ROOT / "include/partyid.h"
BUILT = ROOT / "target/c"
WORDS = ROOT / "c/words.c"
RUST = ROOT / "bindings/rust/src"
PYTHON = ROOT / "bindings/python"


def told(compared: Callable[[], list[str]]) -> list[str]:
    """The disagreements that a comparison finds; that a thing is missing or can't be read is one."""
    try:
        return compared()
    except (Unreadable, OSError, subprocess.CalledProcessError) as why:
        return [str(why)]


def header_disagreements(wanted: Interface, source: str) -> list[str]:
    return told(lambda: disagreements(wanted, read_header(source)))


def symbols(*command: str) -> list[str]:
    """The names that nm finds, one to a line behind an address and a letter."""
    said = subprocess.run(["nm", "--defined-only", *command], check=True, capture_output=True, text=True).stdout
    return [line.split()[2] for line in said.splitlines() if len(line.split()) == 3]


def library_disagreements(wanted: Interface, built: pathlib.Path) -> list[str]:
    """The libraries show exactly the functions that are proved, and those that have words."""
    functions = dict.fromkeys([*wanted.functions, *wanted.words], "shown")
    shared = dict.fromkeys(symbols("--dynamic", str(built / "libpartyid.so")), "shown")
    static = dict.fromkeys(symbols("--extern-only", str(built / "libpartyid.a")), "shown")
    return differing("libpartyid.so:", functions, shared) + differing("libpartyid.a:", functions, static)


def compare(header: pathlib.Path, built: pathlib.Path) -> list[str]:
    version = version_of_crate(ROOT)
    wanted, numbered = read_definitions(CRATES, version), cases(CRATES)
    found = {
        header.name: header_disagreements(wanted, header.read_text()),
        "libraries": told(lambda: library_disagreements(wanted, built)),
        "bindings/rust": told(lambda: rust_disagreements(RUST, wanted, numbered)),
        "bindings/python": told(lambda: python_disagreements(PYTHON, wanted, numbered)),
        "partyid_tally_count": told(lambda: library_tally_disagreements(CRATES, built)),
        "bindings/rust/src/tally.rs": told(lambda: rust_tally_disagreements(CRATES, RUST)),
        "libpartyid.so beside bindings/rust": told(lambda: words_disagreements(rust_words(RUST), library_words(built, numbered))),
        "bindings/python beside bindings/rust": told(lambda: words_disagreements(rust_words(RUST), python_words(PYTHON))),
        "version": told(lambda: version_disagreements(ROOT, built, version)),
    }
    return [f"{where}: {what}" for where, all_of in found.items() for what in all_of]


def said_of(wanted: Interface) -> str:
    numbers = sum(len(numbered) for numbered in wanted.enums.values())
    functions = f"{len(wanted.functions)} proved functions and {len(wanted.words) + len(wanted.inlines)} others"
    return f"{numbers} numbers with their words, {len(wanted.structs)} structs, {functions}, {len(wanted.constants)} constants and the version agree"


def first_difference(source: str, altered: str) -> str:
    """The first line of an altered header that the header does not have, comments left out."""
    lines = set(without_comments(source).splitlines())
    return next((line.strip() for line in altered.splitlines() if line not in lines), "a line is left out")


def agrees_as_library(source: str, folder: pathlib.Path) -> bool:
    """Whether a library of other words, alone in a folder, has the words and the version of the others, and counts a tally by the definitions."""
    folder.mkdir()
    (folder / "words.c").write_text(source)
    shutil.copy(BUILT / "partyid.pc", folder)
    command = ["cc", "-w", "-shared", "-fPIC", f"-I{HEADER.parent}", "-o", str(folder / "libpartyid.so"), str(folder / "words.c")]
    subprocess.run(command, check=True)
    words = told(lambda: words_disagreements(rust_words(RUST), library_words(folder, cases(CRATES))))
    return not (words or library_tally_disagreements(CRATES, folder) or version_disagreements(ROOT, folder, version_of_crate(ROOT)))


def self_test_of_words() -> tuple[int, list[str]]:
    """How many altered sources of the words were tried, and those that were not refused."""
    with tempfile.TemporaryDirectory() as place:
        source = WORDS.read_text()
        if not agrees_as_library(source, pathlib.Path(place, "as it is")):
            return 0, [f"{WORDS} disagrees before it is altered"]
        altered = list(altered_words(source))
        agreed = [text for i, text in enumerate(altered) if agrees_as_library(text, pathlib.Path(place, str(i)))]
        return len(altered), [f"agrees although it is altered: {first_difference(source, text)}" for text in agreed]


def self_test(header: pathlib.Path) -> tuple[int, list[str]]:
    """How many altered headers were tried, and those that were not refused. It says nothing where the header itself is refused."""
    wanted, source = read_definitions(CRATES, version_of_crate(ROOT)), header.read_text()
    if header_disagreements(wanted, source):
        return 0, [f"{header} disagrees before it is altered"]
    altered = list(altered_headers(source))
    agreed = [text for text in altered if not header_disagreements(wanted, text)]
    return len(altered), [f"agrees although it is altered: {first_difference(source, text)}" for text in agreed]


def main() -> int:
    options = argparse.ArgumentParser(description=__doc__, formatter_class=argparse.RawDescriptionHelpFormatter)
    options.add_argument("--header", type=pathlib.Path, default=HEADER)
    options.add_argument("--built", type=pathlib.Path, default=BUILT)
    options.add_argument("--self-test", action="store_true")
    given = options.parse_args()
    if given.self_test:
        headers, found = self_test(given.header)
        words, found_of_words = self_test_of_words()
        found += found_of_words
        said = f"{headers} altered headers and {words} altered sources of words refused"
    else:
        found = compare(given.header, given.built)
        said = said_of(read_definitions(CRATES, version_of_crate(ROOT)))
    for what in found:
        print(what, file=sys.stderr)
    if not found:
        print(said)
    return 1 if found else 0


if __name__ == "__main__":
    sys.exit(main())
