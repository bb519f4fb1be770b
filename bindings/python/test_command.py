"""Tests of the command line: what it says, and its exit statuses."""

from __future__ import annotations

import os
import signal
import subprocess
import sys
import tempfile
import time
import unittest
from unittest import mock

from running import HERE, Run, Word, environment, program, shell, within  # first: it keeps Python from writing beside the sources

import partyid
from partyid import RULES, TERMS, checks, library
from partyid.commands import COMMANDS

REFUSED = "2 40 1 4  refused by rule 40 (severity fatal): the form is met and the check figure is wrong\n"


class Commands(unittest.TestCase):
    def assert_says(self, status: int, beginning: str, *words: Word) -> None:
        said = within(*words)
        self.assertEqual((said.status, said.err), (status, ""), words)
        self.assertTrue(said.out.startswith(beginning), (words, said.out))

    def test_checks(self) -> None:
        self.assert_says(1, REFUSED, "check", "0088", "71")
        self.assert_says(0, "1 40 1 0  accepted by rule 40\n", "check", "0088", "17")
        self.assert_says(3, "0 0 0 0  no rule\n", "check", "0060", "x")
        self.assert_says(3, "3 47 2 0  let through unread by rule 47\n", "check", "0211", "")
        self.assert_says(0, "1 46 2 0  accepted", "check", "9907", "12345678901")
        self.assert_says(0, "1 562 2 0  accepted", "check", "--term", "31", "", "NL123456789B12")
        self.assert_says(1, "2 0 0 10  refused", "check", "0088", "17", "--term", str(2**32 + 34))
        self.assert_says(0, "1 0 0 0  accepted\n", "iban", "AA750")
        self.assert_says(1, "2 0 0 3  refused: the form", "creditor", "DE98ZZZ")
        self.assert_says(0, "1 0 0 0  accepted\n", "gln", "0088", "1234567890128")
        self.assert_says(3, "0 0 0 0  no rule\n", "gln", "0192", "1234567890128")

    def test_a_withdrawn_scheme_without_a_rule_is_named(self) -> None:
        self.assert_says(3, "0 0 0 0  no rule; scheme 9901 is withdrawn, its successor is 0096\n", "check", "9901", "x")
        self.assert_says(3, "0 0 0 0  no rule; scheme 9905 is withdrawn with no successor\n", "check", "9905", "x")
        self.assert_says(3, "0 0 0 0  no rule; scheme 9907 is withdrawn", "check", "9907", "12345678901", "--term", "29")

    def test_arguments_are_bytes(self) -> None:
        self.assert_says(0, "1 40 1 0", "check", "0088", b"\xc2\xa017")
        self.assert_says(1, "2 40 1 2", "check", "0088", b"17\xff")
        self.assert_says(3, "0 0 0 0", "check", b"\xff\xff\xff\xff", "17")
        self.assert_says(1, "2 40 1 3", "check", "0088", "-17")
        self.assert_says(1, "2 40 1 3", "check", "0088", "--", "--")
        self.assert_says(1, "2 40 1 3", "check", "0088", "--", "--corrections")
        self.assert_says(1, "2 0 0 3", "iban", "--", "--help")

    def test_work(self) -> None:
        self.assert_says(0, "0 1  the check figure is 9, the whole number 79\n", "complete", "0088", "7")
        self.assert_says(0, "0 2  the check figure is 51, the whole number 51824753556\n", "complete", "0151", "824753556")
        self.assert_says(1, "6 0  refused: no check figure", "complete", "0192", "00000006")
        self.assert_says(0, "0 3  numbers that the rule accepts, one slip away:\n31\n79\n17\n", "list", "0088", "71")
        self.assert_says(0, "0 0  no number", "list", "0192", "000000000")
        self.assert_says(1, "9 0  refused: the number is accepted", "list", "0088", "17")
        self.assert_says(1, "7 0  refused: only 0088, 0192, 0208, 0007 and 0151 can be completed or listed\n", "list", "0184", "17")
        self.assert_says(0, "2  withdrawn, its successor is 0096\n", "withdrawn", "9901")
        self.assert_says(0, "1  withdrawn with no successor\n", "withdrawn", "9905")
        self.assert_says(0, "0  not withdrawn\n", "withdrawn", "0088")

    def test_from_a_refused_number_to_its_corrections(self) -> None:
        form = "    rule 40 (GLN, Global Location Number (GS1)) asks for one or more digits, the last of them the GS1 check digit\n"
        self.assert_says(1, REFUSED + form + "    one slip away, and accepted by the rule (3): 31 79 17\n", "check", "0088", "71", "--corrections")
        self.assertEqual(within("check", "0088", "17", "--corrections").out, "1 40 1 0  accepted by rule 40\n")
        for wanted, scheme, content in (
            ("no number that the rule accepts is one slip away", "0192", "000000000"),
            ("no corrections: they are listed of 9 digits only", "0192", "12345678"),
            ("no corrections: they are listed of 1 to 20 digits only", "0088", "1" * 21),
            ("no corrections: they are listed of 1 to 20 digits only", "0088", "1" * 1024),
            ("no corrections: the content is over 1,024 bytes", "0088", "1" * 1025),
            ("corrections are listed for 0088, 0192, 0208, 0007, 0151 only", "0184", "1"),
        ):
            said = within("check", scheme, content, "--corrections")
            self.assertEqual((said.status, said.out.splitlines()[-1]), (1, f"    {wanted}"))

    def test_every_refusal_says_what_is_asked_for(self) -> None:
        for rule in RULES:
            said = within("check", rule.scheme, "NL!" if not rule.scheme else "IT!", "--term", "34" if rule.scheme else "31", "--corrections")
            self.assertIn(f"rule {rule.number} ({rule.whose}) asks for {rule.asks}\n", said.out)
        self.assertIn("a term is one of 29, 30,", within("check", "0088", "17", "--term", "1", "--corrections").out)

    def test_what_is_not_understood_is_status_2(self) -> None:
        for line in ("", "frob", "check 0088", "check 0088 17 17", "check 0088 17 --term", "iban AA750 --term 34", "check 0088 17 --term x", "check 0088 --trem",
                     "check 0088 17 --corr", "lines nosuchfile", "lines .", "lines a b", "tally nosuchfile", "tally .", "tally --corrections", "-- -",
                     "check 0088 17 -- 17"):
            words = line.split()
            said = within(*words)
            self.assertEqual((said.status, said.out), (2, ""), words)
            self.assertRegex(said.err, "^partyid: [ -~]*\n$")

    def test_what_to_do_is_said(self) -> None:
        self.assertIn("partyid check --help says more; as an argument -x stands behind --\n", within("check", "0088", "-x").err)
        self.assertEqual(within("check", "0088").err, "partyid: the following arguments are required: CONTENT; partyid check --help says more\n")
        self.assertIn("'frob'", within("--", "frob").err)

    def test_the_version(self) -> None:
        self.assertEqual(within("--version"), Run(0, f"partyid {partyid.__version__}\n", ""))


class Help(unittest.TestCase):
    def test_it_needs_no_library_and_promises_no_party(self) -> None:
        said = program("--help", PARTYID_LIBRARY="/no such library")
        self.assertEqual((said.status, said.err), (0, ""))
        self.assertIn("That says nothing about whether a party of that number\nexists", said.out)
        for case in (*partyid.Verdict, *partyid.Severity, *partyid.Reason):
            self.assertRegex(said.out, rf"\n +{case.value}  {case.name} +{case.words}\n")

    def test_it_says_what_terms_and_schemes_are(self) -> None:
        for words in (("--help",), ("check", "--help")):
            out = within(*words).out
            for term in TERMS:
                self.assertIn(f"\n  {term.number}  BT-{term.number}  {term.name}\n", out)
            for rule in RULES:
                self.assertRegex(out, rf"\n  {rule.scheme or '-'} +rule {rule.number} ")
                self.assertIn(f"  {rule.whose}\n", out)
            self.assertIn("partyid iban CONTENT", out)
            self.assertIn("for 0088, 0192, 0208, 0007, 0151.", out)

    def test_each_command_has_its_own(self) -> None:
        out = within("--help").out
        for command in COMMANDS:
            self.assertIn(command.about, out)
            said = within(command.name, "--help")
            self.assertEqual((said.status, said.err), (0, ""))
            self.assertTrue(said.out.startswith(f"usage: partyid {command.name} "), said.out)
            self.assertIn("That says nothing about whether a party of that number\nexists", said.out)
            for word in (*command.takes, *command.options):
                self.assertIn(f"  {word.split()[0]} ", said.out)


class Statuses(unittest.TestCase):
    """0 to 3, whatever happens; a status of the interpreter's would say something that is not so."""

    def test_a_full_device(self) -> None:
        for command in ("check 0088 17", "--help", "lines ../../examples/lines.txt --corrections", "tally ../../examples/lines.txt"):
            for unbuffered in ("", "-u"):
                said = shell(f"{sys.executable} {unbuffered} -m partyid {command} >/dev/full")
                self.assertEqual(said, Run(2, "", "partyid: [Errno 28] No space left on device\n"), command)

    def test_closed_ends(self) -> None:
        run = f"{sys.executable} -m partyid"
        self.assertEqual(shell(f"{run} check 0088 17 >&-"), Run(2, "", "partyid: standard output is closed\n"))
        self.assertEqual(shell(f"{run} --help >&-"), Run(2, "", "partyid: standard output is closed\n"))
        for command in ("lines", "tally"):
            self.assertEqual(shell(f"{run} {command} <&-"), Run(2, "", "partyid: standard input is closed; name a FILE\n"))
        self.assertEqual(shell(f"{run} check 0088 71 2>&-"), Run(1, REFUSED, ""))
        self.assertEqual(shell(f"{run} frob 2>&-"), Run(2, "", ""))
        self.assertEqual(shell(f"{run} frob 2>/dev/full"), Run(2, "", ""))
        self.assertEqual(shell(f"{run} lines ../../examples/lines.txt <&- >/dev/null").status, 1)

    def test_a_reader_that_has_seen_enough(self) -> None:
        said = shell(f"yes '0088 34 71' | head -n 300000 | ({sys.executable} -m partyid lines; echo $? >&2) | head -n 1")
        self.assertEqual((said.out, said.err), (REFUSED, "2\n"))

    def test_an_interruption(self) -> None:
        command, pipe = [sys.executable, "-m", "partyid", "lines"], subprocess.PIPE
        with subprocess.Popen(command, cwd=HERE, env=environment(), stdin=pipe, stdout=pipe, stderr=pipe) as running:
            assert running.stdin and running.stdout
            running.stdin.write(b"0088 34 71\n")
            running.stdin.flush()
            self.assertEqual(running.stdout.readline().decode(), REFUSED)  # before the input has ended
            time.sleep(0.05)
            running.send_signal(signal.SIGINT)
            out, err = running.communicate(timeout=20)
        self.assertEqual((running.returncode, out, err), (2, b"", b"partyid: interrupted\n"))

    def test_a_number_that_the_header_does_not_have(self) -> None:
        strange = mock.Mock(partyid_check=lambda *given: library.AnswerStruct(4, 40, 1, 0))
        with mock.patch.object(checks, "library", lambda: strange):
            said = within("check", "0088", "17")
        self.assertEqual((said.status, said.out), (2, ""))
        self.assertRegex(said.err, "^partyid: 4 is not a valid .*Verdict: .*not of one version.*\n$")

    def test_what_nobody_thought_of(self) -> None:
        with mock.patch.object(checks, "library", side_effect=ZeroDivisionError("strange")):
            said = within("check", "0088", "17")
        self.assertEqual((said.status, said.out), (2, ""))
        self.assertRegex(said.err, "^partyid: ZeroDivisionError: strange; .*report.*\n$")

    def test_a_library_that_is_not_there_is_named(self) -> None:
        said = program("check", "0088", "17", PARTYID_LIBRARY="/no such library")
        self.assertEqual((said.status, said.out), (2, ""))
        self.assertRegex(said.err, "^partyid: /no such library: .*make.*PARTYID_LIBRARY\n$")

    def test_a_file_that_can_not_be_read(self) -> None:
        with tempfile.TemporaryDirectory() as folder:
            said = within("lines", os.path.join(folder, "none"))
        self.assertEqual((said.status, said.out), (2, ""))
        self.assertIn("No such file", said.err)


if __name__ == "__main__":
    unittest.main()
