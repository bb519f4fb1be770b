#!/usr/bin/env python3
"""Tests the command checklines: its words, its counts, its failures, its building, its help with the recipes, and its manual page. The program
must be built (make).

    tests/checklines.py [WORDS of unittest]"""
from __future__ import annotations

import fcntl
import os
import pathlib
import re
import shutil
import subprocess
import sys
import tempfile
import unittest

ROOT = pathlib.Path(__file__).resolve().parent.parent
SCRIPT = ROOT / "checklines"
SHELLS = [shell for shell in ("sh", "dash", "bash") if shutil.which(shell)]
RULES = (40, 41, 42, 43, 44, 45, 46, 47, 49, 50, 52, 53, 54, 55, 57, 561, 562)


def counts(of_rules: dict[int, str], of_none: str = "0 0") -> bytes:
    """The lines behind the answers: zeros but for some rules, and what has no rule."""
    lines = [f"{rule} {of_rules.get(rule, '0 0 0')}\n" for rule in RULES]
    return "".join([*lines, f"{of_none}\n"]).encode()


ONE_LINE = b"0088 34 71\n"
ITS_ANSWER = b"2 40 1 4\n"
ITS_OUTPUT = ITS_ANSWER + counts({40: "0 1 0"})


def said(command: list, folder: pathlib.Path | None = None, given: bytes = b"", path: str | None = None) -> tuple[int, bytes, str]:
    """The exit status, the output, and what was said on standard error."""
    environment = {**os.environ, "PATH": path or os.environ["PATH"]}
    done = subprocess.run(command, cwd=folder, input=given, env=environment, capture_output=True, check=False)
    return done.returncode, done.stdout, done.stderr.decode()


def in_shell(text: str, folder: pathlib.Path | None = None, path: str | None = None) -> tuple[int, bytes, str]:
    return said(["sh", "-c", text], folder, path=path)


def help_text() -> str:
    return said([SCRIPT, "--help"])[1].decode()


def path_without_rt() -> str:
    """The folders of commands that have no rt; a command that stands beside rt is missing then."""
    folders = os.environ["PATH"].split(":")
    return ":".join(f for f in folders if not pathlib.Path(f, "rt").exists())


class InFolder(unittest.TestCase):
    def setUp(self) -> None:
        place = tempfile.TemporaryDirectory()
        self.addCleanup(place.cleanup)
        self.folder = pathlib.Path(place.name).resolve()

    def refuses(self, got: tuple[int, bytes, str], status: int, message: str) -> None:
        self.assertEqual(got, (status, b"", f"checklines: {message}\n"))


class Words(InFolder):
    """The words on the command line, and the files that are handed over."""

    def test_a_file_and_standard_input(self) -> None:
        (self.folder / "lines").write_bytes(ONE_LINE)
        for words, given in (([], ONE_LINE), (["-"], ONE_LINE), (["--", "-"], ONE_LINE), (["lines"], b""), (["--", "lines"], b"")):
            self.assertEqual(said([SCRIPT, *words], self.folder, given), (0, ITS_OUTPUT, ""))

    def test_every_shell(self) -> None:
        for shell in SHELLS:
            self.assertEqual(said([shell, SCRIPT], self.folder, ONE_LINE), (0, ITS_OUTPUT, ""))
            self.assertEqual(said([shell, "checklines"], ROOT, ONE_LINE), (0, ITS_OUTPUT, ""))

    def test_a_file_whose_name_begins_with_a_dash(self) -> None:
        (self.folder / "-x").write_bytes(ONE_LINE)
        self.assertEqual(said([SCRIPT, "--", "-x"], self.folder), (0, ITS_OUTPUT, ""))
        self.refuses(said([SCRIPT, "-x"], self.folder), 2, "unknown option -x; checklines --help says what there is")

    def test_a_second_argument_is_named(self) -> None:
        for words in (["one", "two"], ["--", "one", "two"], ["-", "two", "three"]):
            message = "one file is read, and 'two' is a second argument; checklines --help says what there is"
            self.refuses(said([SCRIPT, *words], self.folder), 2, message)

    def test_files_that_can_not_be_read(self) -> None:
        self.refuses(said([SCRIPT, "none"], self.folder), 1, "none: no such file")
        self.refuses(said([SCRIPT, ""], self.folder), 1, ": no such file")
        self.refuses(said([SCRIPT, "."], self.folder), 1, ".: is a folder, not a file")

    def test_the_version_is_the_librarys(self) -> None:
        version = re.search(r'#define PARTYID_VERSION "(.*)"', (ROOT / "include/partyid.h").read_text())
        self.assertEqual(said([SCRIPT, "--version"]), (0, f"checklines {version[1]}\n".encode(), ""))

    def test_no_message_but_its_own(self) -> None:
        """Standard output or input closed, or full, by each shell."""
        for shell in SHELLS:
            call = f"{shell} {SCRIPT}"
            for words in ("", "--help", "--version"):
                self.refuses(in_shell(f"{call} {words} >&- </dev/null"), 1, "standard output is closed")
            self.refuses(in_shell(f"{call} <&-"), 1, "standard input is closed")
            self.refuses(in_shell(f"echo | {call} >/dev/full"), 1, "can't write: No space left on device")
            self.refuses(in_shell(f"{call} --help >/dev/full"), 1, "can't write")
            self.refuses(in_shell(f"{call} --version >/dev/full"), 1, "can't write")


class Counts(unittest.TestCase):
    """What stands behind the answers."""

    def counted(self, given: bytes, answers: bytes, behind: bytes) -> None:
        self.assertEqual(said([SCRIPT], given=given), (0, answers + behind, ""))

    def test_no_line_at_all(self) -> None:
        self.counted(b"", b"", counts({}))

    def test_each_verdict_of_a_rule_and_of_none(self) -> None:
        given = b"0211 34 IT12345678903\n0211 34 IT1\n0211 34 DE1\n0211 34 DE2\n0060 34 x\n0060 34 y\n0060 34 z\n0088 33 17\nx\n\n9944 31 DE"
        answers = b"1 47 2 0\n2 47 2 3\n" + 2 * b"3 47 2 0\n" + 3 * b"0 0 0 0\n" + b"2 0 0 10\n" + 2 * b"2 0 0 11\n" + b"3 562 2 0\n"
        self.counted(given, answers, counts({47: "1 1 2", 562: "0 0 1"}, "3 3"))

    def test_more_lines_than_are_read_at_once(self) -> None:
        self.counted(100_000 * ONE_LINE, 100_000 * ITS_ANSWER, counts({40: "0 100000 0"}))
        self.counted(b"x" * 200_000, b"2 0 0 11\n", counts({}, "0 1"))


class Failures(InFolder):
    """A run that can't read or write to the end says so, and prints no counts."""

    def test_nothing_can_be_read(self) -> None:
        self.refuses(in_shell(f"{SCRIPT} <.", self.folder), 1, "can't read: Is a directory")

    def test_reading_fails_behind_a_line(self) -> None:
        reading, writing = os.pipe()
        os.set_blocking(reading, False)
        os.write(writing, ONE_LINE)
        done = subprocess.run([SCRIPT], stdin=reading, capture_output=True, check=False)
        os.close(reading)
        os.close(writing)
        message = b"checklines: can't read: Resource temporarily unavailable\n"
        self.assertEqual((done.returncode, done.stdout, done.stderr), (1, ITS_ANSWER, message))

    def test_answers_can_not_be_written_where_the_counts_could(self) -> None:
        """Into a pipe that never waits, with too little room left for the answers: up to 4,096 bytes are written whole or not at all."""
        reading, writing = os.pipe()
        os.set_blocking(writing, False)
        size = fcntl.fcntl(writing, fcntl.F_SETPIPE_SZ, 1)
        before = b"." * (size - 600)
        os.write(writing, before)
        done = subprocess.run([SCRIPT], input=100 * ONE_LINE, stdout=writing, stderr=subprocess.PIPE, check=False)
        behind = counts({40: "0 100 0"})
        os.write(writing, behind)
        os.close(writing)
        with open(reading, "rb") as pipe:
            self.assertEqual(pipe.read(), before + behind)
        message = b"checklines: can't write: Resource temporarily unavailable\n"
        self.assertEqual((done.returncode, done.stderr), (1, message))

    def test_counts_can_not_be_written(self) -> None:
        self.refuses(in_shell(f"{SCRIPT} </dev/null >/dev/full"), 1, "can't write: No space left on device")

    def test_the_reader_has_gone(self) -> None:
        reading, writing = os.pipe()
        os.close(reading)
        done = subprocess.run([SCRIPT], input=ONE_LINE, stdout=writing, stderr=subprocess.PIPE, check=False)
        os.close(writing)
        self.assertEqual((done.returncode, done.stderr), (141, b""))


class Links(InFolder):
    """Called through symbolic links, from elsewhere."""

    def test_links(self) -> None:
        (self.folder / "here").mkdir()
        absolute, relative, folder = (self.folder / "here" / name for name in ("absolute", "relative", "folder"))
        absolute.symlink_to(SCRIPT)
        relative.symlink_to("absolute")
        folder.symlink_to(ROOT, target_is_directory=True)
        for link in (absolute, relative, folder / "checklines"):
            self.assertEqual(said([link], self.folder, ONE_LINE), (0, ITS_OUTPUT, ""))
        self.assertEqual(said(["checklines"], given=ONE_LINE, path=f"{folder}:{os.environ['PATH']}"), (0, ITS_OUTPUT, ""))


# An rt that proves nothing, builds where the program is not there, as rt does, and runs it.
RT = """#!/bin/sh
[ "$*" = run ] || exit 2
[ "${PWD##*/crates/}" = checklines ] || exit 2
[ ! -f ../../broken ] || { echo "rt: not proved" >&2; exit 1; }
[ ! -f ../../forgets ] || exit 0
mkdir -p out
if [ -x out/checklines ]; then
    echo "rt: nothing has changed since the last proved build" >&2
else
    printf '#!/bin/sh\\ncat\\n' >out/checklines && chmod +x out/checklines
fi
exec out/checklines
"""


class Building(InFolder):
    """A repository whose program writes what it reads, and whose rt is a script."""

    def setUp(self) -> None:
        super().setUp()
        self.root = self.folder / "a root"
        (self.root / "crates/checklines/src").mkdir(parents=True)
        for example in ("stdin", "stdout"):
            (self.root / "crates/checklines" / example).write_text("an example\n")
        (self.root / "crates.txt").touch()
        shutil.copy(SCRIPT, self.root)
        shutil.copytree(ROOT / "machine", self.root / "machine")
        self.command("rt", RT)
        self.command("uname", "#!/bin/sh\necho x86_64\n")

    def command(self, name: str, text: str) -> None:
        path = self.folder / "commands" / name
        path.parent.mkdir(exist_ok=True)
        path.write_text(text)
        path.chmod(0o755)

    def run_it(self) -> tuple[int, bytes, str]:
        return said([self.root / "checklines"], self.folder, b"x\n", f"{self.folder / 'commands'}:{path_without_rt()}")

    def builds(self) -> None:
        status, output, words = self.run_it()
        self.assertEqual((status, output), (0, b"x\n"), words)
        self.assertRegex(words, r"(?s)\Achecklines: proving and building .*\nchecklines: proved and built in \d+ s\n\Z")

    def runs(self) -> None:
        self.assertEqual(self.run_it(), (0, b"x\n", ""))

    def test_it_is_built_once(self) -> None:
        self.builds()
        self.runs()

    def test_it_is_built_again_after_a_change(self) -> None:
        self.builds()
        os.utime(self.root / "target/native/checklines", (0, 0))
        self.builds()
        self.runs()

    def test_it_is_built_again_where_it_was_removed(self) -> None:
        """Also where rt says that nothing has changed."""
        for removed in ("target/native", "crates/checklines/out"):
            self.builds()
            shutil.rmtree(self.root / "target/native")
            shutil.rmtree(self.root / removed, ignore_errors=True)
            self.builds()
            shutil.rmtree(self.root / "target")

    def test_what_to_do_is_said_where_rt_builds_nothing(self) -> None:
        (self.root / "forgets").touch()
        status, output, words = self.run_it()
        self.assertEqual((status, output), (2, b""))
        self.assertIn("left no crates/checklines/out/checklines; remove the folder crates/checklines/out and try again\n", words)
        self.assertTrue(words.endswith("checklines: the program could not be proved and built\n"))

    def test_what_rt_says_is_shown_where_it_fails(self) -> None:
        (self.root / "broken").touch()
        status, output, words = self.run_it()
        self.assertEqual((status, output), (2, b""))
        self.assertIn("rt: not proved\n", words)

    def test_rt_is_needed_to_build_and_not_to_run(self) -> None:
        self.builds()
        (self.folder / "commands/rt").unlink()
        for machine in ("x86_64", "aarch64"):
            self.command("uname", f"#!/bin/sh\necho {machine}\n")
            self.runs()
            (self.root / "target/native").rename(self.root / "away")
            lacking = "the program is not built from these sources, and the Rattle toolchain (the command rt) is not here to build it"
            self.refuses(self.run_it(), 2, lacking)
            (self.root / "away").rename(self.root / "target/native")

    def test_without_crates_it_is_an_installed_one(self) -> None:
        (self.root / "crates.txt").unlink()
        self.refuses(self.run_it(), 2, f"its program, {self.root}/../libexec/partyid/checklines, is missing: run 'make install' again in the repository's folder")


# What each recipe of the help writes, in a folder with parties.csv, crlf.txt and marked.txt.
RECIPES = {
    "awk -F, 'NR > 1 { print $2, 34, $3 }' parties.csv > lines.txt": b"",
    "checklines lines.txt | head -n -18 | paste - lines.txt": b"""\
1 40 1 0	0088 34 1234567890128
1 41 1 0	0192 34 123456785
2 41 1 4	0192 34 123456758
0 0 0 0	0060 34 123456789
""",
    "checklines lines.txt | head -n -18 | paste - lines.txt | grep -n '^2 '": b"3:2 41 1 4	0192 34 123456758\n",
    "checklines lines.txt | tail -n 18": counts({40: "1 0 0", 41: "1 1 0"}, "1 0"),
    r"tr -d '\r' < crlf.txt | checklines": b"1 42 1 0\n" + counts({42: "1 0 0"}),
    "tail -c +4 marked.txt | checklines": b"1 40 1 0\n" + counts({40: "1 0 0"}),
}


class Help(InFolder):
    """What --help says is so."""

    def test_it_fits_a_terminal(self) -> None:
        self.assertEqual([line for line in help_text().splitlines() if len(line) > 79], [])

    def test_its_recipes(self) -> None:
        shutil.copy(ROOT / "examples/parties.csv", self.folder)
        (self.folder / "crlf.txt").write_bytes(b"0184 34 DK12345678\r\n")
        (self.folder / "marked.txt").write_bytes(b"\xef\xbb\xbf0088 34 1234567890128\n")
        recipes = re.findall(r"^  (.*)$", section("Recipes"), re.M)
        self.assertEqual(recipes, list(RECIPES))
        for recipe, written in RECIPES.items():
            got = in_shell(recipe, self.folder, f"{ROOT}:{os.environ['PATH']}")
            self.assertEqual(got, (0, written, ""), recipe)

    def test_it_names_the_schemes_that_have_a_rule(self) -> None:
        lines = "".join(f"{scheme:04} 34 x\n" for scheme in range(10000))
        ruled = [f"{i:04}" for i, verdict in enumerate(verdicts(lines)) if verdict != "0"]
        self.assertEqual(sorted(re.findall(r"(?:^|  )  ?(\d{4})  ", section("Input"), re.M)), ruled)

    def test_it_names_the_terms(self) -> None:
        answers = answers_to("".join(f"0088 {term:02} 17\n" for term in range(100)))
        known = [f"{i:02}" for i, answer in enumerate(answers) if answer != "2 0 0 10"]
        self.assertEqual(sorted(re.findall(r"^  (\d\d)  ", section("Input"), re.M)), known)

    def test_it_names_every_reason(self) -> None:
        header = (ROOT / "include/partyid.h").read_text()
        reasons = {int(n): name for name, n in re.findall(r"PARTYID_REASON_(\w+) = (\d+)", header)}
        named = {int(n): name for n, name in re.findall(r"^ +(?:REASON +)?(\d+)  ([A-Z0-9_]+) ", section("Output"), re.M)}
        first, last, others = re.search(r"Reasons (\d+) to (\d+) \(([^)]*)\)", help_text()).groups()
        named.update(zip(range(int(first), int(last) + 1), others.split(", ")))
        self.assertEqual({0: "NO_REASON", **named}, reasons)


def section(heading: str) -> str:
    """What stands under a heading of the help, up to the next one."""
    return re.split(r"\n\n(\w[^\n]*):\n(?!\n)", help_text().partition(f"\n\n{heading}:\n")[2])[0]


def answers_to(lines: str) -> list[str]:
    """The output without the counts."""
    return said([SCRIPT], given=lines.encode())[1].decode().splitlines()[: -len(RULES) - 1]


def verdicts(lines: str) -> list[str]:
    return [answer.split()[0] for answer in answers_to(lines)]


UNESCAPED = {r"\-": "-", r"\(aq": "'", r"\(ga": "`", r"\(ha": "^", r"\(ti": "~", r"\e": "\\", r"\&": ""}


class ManualPage(unittest.TestCase):
    def setUp(self) -> None:
        self.page = said([ROOT / "man/from-help", SCRIPT])[1].decode()

    def test_it_has_the_words_of_the_help_and_no_others(self) -> None:
        headings = re.sub(r'^\.SH "(.*)"$', r"\1:", self.page, flags=re.M)
        text = re.sub(r"^\.[A-Za-z].*\n", "", headings, flags=re.M)
        text = re.sub(r"\\(?:-|e|&|\(..)", lambda escape: UNESCAPED[escape[0]], text)
        self.assertEqual(text.lower().split(), help_text().lower().split())

    def test_it_is_set_without_a_warning(self) -> None:
        if not shutil.which("groff"):
            self.skipTest("groff is not installed")
        self.assertEqual(said(["groff", "-man", "-ww", "-z"], given=self.page.encode()), (0, b"", ""))


if __name__ == "__main__":
    sys.exit(unittest.main())
