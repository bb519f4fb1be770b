"""Tests that what is written about the command is so: README, recipes, manual page, completion."""

from __future__ import annotations

import doctest
import pathlib
import re
import shutil
import subprocess
import sys
import tempfile
import unittest
from typing import Any, Iterator

from running import HERE, environment, put_command, shell, within  # first: it keeps Python from writing beside the sources

import documents
from partyid import RULES, TERMS
from partyid.commands import COMMANDS
from partyid.manual import RECIPES

NOT_HERE = ("make ", "python3 -m pip ", "python3 -m unittest")  # other tests do these


def load_tests(loader: unittest.TestLoader, tests: unittest.TestSuite, pattern: Any) -> unittest.TestSuite:
    """The examples of README are tests too."""
    tests.addTests(doctest.DocFileSuite(str(HERE / "README.md"), module_relative=False))
    return tests


def commands_of(text: str) -> Iterator[tuple[str, str]]:
    """Each command behind a $, and what stands below it."""
    for block in re.findall(r"(?:^    .*\n)+", text, re.MULTILINE):
        lines = [line[4:] for line in block.splitlines()]
        for command, *below in re.findall(r"^\$ (.*)\n((?:(?!\$ ).*\n)*)", "\n".join(lines) + "\n", re.MULTILINE):
            yield command, below[0]


class Readme(unittest.TestCase):
    def test_every_command_says_what_stands_below_it(self) -> None:
        text = (HERE / "README.md").read_text("utf-8")
        told = [(command, below) for command, below in commands_of(text) if not command.startswith(NOT_HERE)]
        self.assertGreater(len(told), 8)
        with tempfile.TemporaryDirectory() as folder:
            put_command(folder)
            for command, below in told:
                said = shell(command, folder)
                self.assertEqual((said.out, said.err), (below, ""), command)

    def test_the_recipes_of_help_are_among_them(self) -> None:
        commands = {command for command, _ in commands_of((HERE / "README.md").read_text("utf-8"))}
        self.assertLessEqual({recipe.command for recipe in RECIPES}, commands)
        for recipe in RECIPES:
            self.assertIn(f"  {recipe.command}\n", within("lines", "--help").out)


class Manual(unittest.TestCase):
    def test_the_written_files_are_those_of_the_texts(self) -> None:
        for name, text in documents.WRITTEN.items():
            self.assertEqual((HERE / name).read_text("utf-8"), text(), f"{name}: run documents.py")

    def test_a_file_that_is_not_is_found(self) -> None:
        with tempfile.TemporaryDirectory() as folder:
            for name in ("partyid", "man", "completion"):
                shutil.copytree(HERE / name, pathlib.Path(folder) / name)
            shutil.copy(HERE / "documents.py", folder)
            page = pathlib.Path(folder) / "man" / "partyid.1"
            page.write_text(page.read_text().replace("BT\\-34", "BT\\-35"))
            check = [sys.executable, f"{folder}/documents.py", "--check"]
            said = subprocess.run(check, capture_output=True, text=True, check=False)
            self.assertEqual((said.returncode, said.stderr), (1, "man/partyid.1 is not what documents.py writes: run it\n"))
            subprocess.run(check[:2], check=True)
            self.assertEqual(subprocess.run(check, check=False).returncode, 0)

    def test_the_page_can_be_read(self) -> None:
        if not shutil.which("man"):
            self.skipTest("man is not here")
        said = subprocess.run(["man", "-l", "--warnings", str(HERE / "man/partyid.1")], capture_output=True, env=environment(MANWIDTH="200", LC_ALL="C.UTF-8"), check=False)
        text = said.stdout.decode()
        self.assertEqual((said.returncode, said.stderr), (0, b""))
        for command in COMMANDS:
            self.assertRegex(text, rf"partyid {command.name} ")
        for recipe in RECIPES:
            self.assertIn(recipe.command, text)
        for term in TERMS:
            self.assertIn(f"BT-{term.number}  {term.name}", text)


class Completion(unittest.TestCase):
    def completed(self, *words: str) -> list[str]:
        quoted = " ".join(f"'{word}'" for word in words)
        said = shell(f"source completion/partyid && COMP_WORDS=(partyid {quoted}) COMP_CWORD={len(words)}; _partyid; printf '%s\\n' \"${{COMPREPLY[@]}}\"")
        self.assertEqual((said.status, said.err), (0, ""))
        return said.out.split()

    def test_commands_options_schemes_terms_and_files(self) -> None:
        self.assertEqual(self.completed(""), [*(command.name for command in COMMANDS), "--help", "--version"])
        self.assertEqual(self.completed("c"), ["check", "complete", "creditor"])
        self.assertEqual(self.completed("check", ""), [rule.scheme for rule in RULES if rule.scheme])
        self.assertEqual(self.completed("list", ""), [rule.scheme for rule in RULES if rule.listed])
        self.assertEqual(self.completed("check", "0088", "17", "--"), ["--term", "--corrections", "--help"])
        self.assertEqual(self.completed("check", "0088", "17", "--term", "4"), ["46", "47", "48", "49"])
        self.assertEqual(self.completed("lines", "READ"), ["README.md"])
        self.assertEqual(self.completed("tally", "lines.txt", "READ"), ["README.md"])
        self.assertEqual(self.completed("lines", "--c"), ["--corrections"])
        self.assertEqual(self.completed("iban", ""), [])


if __name__ == "__main__":
    unittest.main()
