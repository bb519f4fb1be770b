"""Tests of the tally: which count a line raises, and where it is full."""

from __future__ import annotations

import copy
import io
import pickle
import unittest
from typing import Any
from unittest import mock

from running import ROOT  # first: it keeps Python from writing beside the sources

import partyid
from partyid import Reason, Tally, library, lines

MOST = 4_294_967_295
NUMBERS = [40, 41, 42, 43, 44, 45, 46, 47, 49, 50, 52, 53, 54, 55, 57, 561, 562]
FULL = (2, 0, 0, 12)

# a line of every kind that there is: each rule with each of its verdicts, no rule, an unknown term, a malformed head
KINDS = [f"{rule.scheme or '0000'} {34 if rule.scheme else 31} {content}".encode() for rule in partyid.RULES for content in (rule.example, "IT!", "NL!", "")]
KINDS += [b"0060 34 x", b"0088 35 17", b"frob", b"", b"0088 34 \xff\0", b"0088 34 " + b"0" * 2000]


def cell(rule: int, verdict: int) -> int:
    if rule:
        return 3 * NUMBERS.index(rule) + verdict - 1
    return {0: 51, 2: 52}[verdict]


def sources(text: bytes) -> list[lines.Source]:
    return [text, bytearray(text), memoryview(text), io.BytesIO(text)]


def counts_of(*given: tuple[int, int]) -> list[int]:
    """53 counts: a cell and its number, zero where none is given."""
    return [dict(given).get(place, 0) for place in range(53)]


class Feeding(unittest.TestCase):
    def test_a_line_raises_the_count_of_its_rule_and_verdict_alone(self) -> None:
        tally, wanted, seen = Tally(), [0] * 53, set()
        self.assertEqual(tally.counts, tuple(wanted))
        for line in KINDS * 2:
            answer = tally.feed(line)
            self.assertEqual(answer, partyid.answer_line(line))
            wanted[cell(answer.rule, answer.verdict)] += 1
            self.assertEqual(tally.counts, tuple(wanted), line)
            self.assertEqual(tally.count(answer.rule, answer.verdict), wanted[cell(answer.rule, answer.verdict)])
            seen.add(cell(answer.rule, answer.verdict))
        self.assertEqual(tally.total, 2 * len(KINDS))
        unread = {3 * NUMBERS.index(rule) + 2 for rule in NUMBERS if rule not in (47, 562)}  # the other rules let nothing through
        self.assertEqual(set(range(53)) - seen, unread)

    def test_every_count_has_its_place(self) -> None:
        tally = Tally(range(100, 153))
        for rule in NUMBERS:
            self.assertEqual([tally.count(rule, verdict) for verdict in (1, 2, 3)], [100 + cell(rule, verdict) for verdict in (1, 2, 3)])
        self.assertEqual((tally.count(0, 0), tally.count(0, 2)), (151, 152))
        self.assertEqual((tally.no_rule, tally.refused_without_rule, tally.total), (151, 152, sum(range(100, 153))))

    def test_many_lines_are_counted_as_each_is_alone(self) -> None:
        for count in (0, 1, 3000):
            some = (KINDS * 60)[:count]
            alone = Tally()
            answers = [alone.feed(line) for line in some]
            text = b"".join(line + b"\n" for line in some)
            for source in sources(text):
                tally = Tally()
                self.assertEqual((list(tally.feed_lines(source)), tally), (answers, alone))
            for source in sources(text):
                tally = Tally()
                self.assertEqual((tally.feed_numbers(source), tally), (partyid.answer_numbers(text), alone))

    def test_a_str_is_its_utf8(self) -> None:
        tally = Tally()
        self.assertEqual(tally.feed("0088 34 \u00a017"), (1, 40, 1, 0))
        self.assertEqual([answer.reason for answer in tally.feed_lines("0088 34 \ud800\n0088 34 17")], [Reason.UTF8, Reason.NO_REASON])
        self.assertEqual(tally.counts, tuple(counts_of((0, 2), (1, 1))))

    def test_lines_are_counted_although_no_answer_is_taken(self) -> None:
        tally = Tally()
        tally.feed_lines(b"0088 34 17\n0088 34 17")
        tally.feed_lines(io.BytesIO(b"0088 34 71\n"))
        self.assertEqual(tally.counts, tuple(counts_of((0, 2), (1, 1))))

    def test_a_file_is_read_in_blocks_wherever_they_end(self) -> None:
        text = b"\n".join(KINDS * 5)
        whole = Tally()
        whole.feed_lines(text)
        for block in (2100, 5000, len(text)):  # longer than what is read of a line
            with mock.patch.object(lines, "BLOCK", block):
                tally = Tally()
                tally.feed_lines(io.BytesIO(text))
            self.assertEqual(tally, whole)

    def test_the_lines_before_a_failure_are_counted(self) -> None:
        tally, file = Tally(), mock.Mock(spec=["read"], read=mock.Mock(side_effect=[b"0088 34 17\n0088 34 71\n0088", OSError("gone")]))
        with self.assertRaisesRegex(OSError, "gone"):
            tally.feed_lines(file)
        self.assertEqual(tally.counts, tuple(counts_of((0, 1), (1, 1))))

    def test_the_line_programs_own_lines_have_its_answers_and_counts(self) -> None:
        folder = ROOT / "crates" / "checklines"
        tally = Tally()
        written = [b"%d %d %d %d" % answer for answer in tally.feed_lines((folder / "stdin").read_bytes())]
        written += [b"%d %d %d %d" % (rule, *tally.counts[3 * i : 3 * i + 3]) for i, rule in enumerate(NUMBERS)]
        written += [b"%d %d" % tally.counts[51:]]
        self.assertEqual(written, (folder / "stdout").read_bytes().splitlines())


class Fullness(unittest.TestCase):
    def test_one_line_more_is_refused_and_changes_nothing(self) -> None:
        for counts in (counts_of((0, MOST)), counts_of((1, MOST - 7), (52, 7)), counts_of((3, 2**31), (51, 2**31)), [MOST] * 53):
            tally = Tally(counts)
            self.assertEqual(tally.feed("0088 34 17"), FULL)
            self.assertEqual(list(tally.feed_lines(b"0088 34 17\nfrob")), [FULL, FULL])
            self.assertEqual((tally.counts, tally.total), (tuple(counts), sum(counts)))

    def test_the_last_line_that_is_counted(self) -> None:
        for counts in (counts_of((0, MOST - 1)), counts_of((4, MOST - 8), (52, 7))):
            tally = Tally(counts)
            self.assertEqual([answer.reason for answer in tally.feed_lines("0088 34 71\n0088 34 71\n\n")], [Reason.CHECK, Reason.FULL, Reason.FULL])
            self.assertEqual((tally.total, tally.count(40, 2)), (MOST, counts[1] + 1))

    def test_it_is_said_in_words(self) -> None:
        self.assertEqual(str(Tally([MOST] * 53).feed("")), "refused: the tally is full")


class Values(unittest.TestCase):
    def test_one_goes_on_from_the_counts_of_another(self) -> None:
        first = Tally()
        first.feed("0088 34 17")
        second = Tally(first.counts)
        self.assertEqual(first, second)
        second.feed("0088 34 17")
        self.assertNotEqual(first, second)
        self.assertEqual((first.count(40, 1), second.count(40, 1)), (1, 2))
        self.assertEqual(Tally(iter(first.counts)), first)

    def test_a_copy_counts_for_itself(self) -> None:
        tally = Tally(range(53))
        for another in (copy.copy(tally), copy.deepcopy(tally), pickle.loads(pickle.dumps(tally)), eval(repr(tally))):
            self.assertEqual(another, tally)
            another.feed("frob")
            self.assertEqual((another.refused_without_rule, tally.refused_without_rule), (53, 52))

    def test_it_is_equal_to_no_other_thing_and_has_no_hash(self) -> None:
        self.assertNotEqual(Tally(), Tally().counts)
        self.assertEqual(repr(Tally()), "Tally()")
        with self.assertRaises(TypeError):
            hash(Tally())

    def test_what_is_not_53_counts_is_told_so(self) -> None:
        given: list[tuple[Any, type[Exception], str]] = [
            (range(52), ValueError, r"^a tally is made from 53 numbers, as in Tally\(another.counts\), and 52 are given$"),
            ((), ValueError, "and 0 are given$"),
            (iter(int, 1), ValueError, "and more are given$"),
            ([0] * 52 + [-1], ValueError, r"^a count is 0 to 4,294,967,295, and counts\[52\] is -1$"),
            ([0, 2**32] + [0] * 51, ValueError, r"counts\[1\] is 4,294,967,296$"),
            ([0.0] * 53, TypeError, "^a count is given as a whole number .*not as 0.0$"),
            ("0" * 53, TypeError, "not as '0'$"),
            ([None] * 53, TypeError, "not as None$"),
            (None, TypeError, r"^a tally is made from 53 numbers, as in Tally\(another.counts\), not from NoneType$"),
            (Tally(), TypeError, "not from Tally$"),
        ]
        for counts, error, said in given:
            with self.assertRaisesRegex(error, said):
                Tally(counts)

    def test_a_count_that_there_is_not_is_told_so(self) -> None:
        for rule, verdict in ((48, 1), (40, 0), (40, 4), (0, 1), (0, 3), (-1, 2), (2**32 + 40, 1)):
            with self.assertRaisesRegex(ValueError, f"^no line has rule {rule} with verdict {verdict}: rules 40, 41, .*, 562 have verdicts 1, 2 and 3, rule 0 has"):
                Tally().count(rule, verdict)
        with self.assertRaisesRegex(TypeError, "^a rule is given as a whole number"):
            Tally().count("40", 1)  # type: ignore[arg-type]

    def test_what_is_no_line_is_told_so_and_not_counted(self) -> None:
        tally = Tally()
        with self.assertRaises(TypeError):
            tally.feed(17)  # type: ignore[arg-type]
        with self.assertRaisesRegex(TypeError, "^feed_lines takes bytes, a str or a file opened for bytes, not list$"):
            tally.feed_lines(["0088 34 17"])  # type: ignore[arg-type]
        with self.assertRaisesRegex(TypeError, "^feed_numbers takes bytes"):
            tally.feed_numbers(None)  # type: ignore[arg-type]
        with self.assertRaisesRegex(TypeError, "open it for bytes"):
            tally.feed_lines(io.StringIO("0088 34 17\n"))  # type: ignore[arg-type]
        self.assertEqual(tally, Tally())

    def test_a_library_that_answers_fewer_lines_is_not_believed(self) -> None:
        answering = mock.Mock(partyid_tally_lines=lambda *given: library.BatchStruct(1, 11))
        with mock.patch.object(lines, "library", lambda: answering):
            with self.assertRaisesRegex(partyid.Disagreement, "1 answers to 2 lines"):
                Tally().feed_lines("0088 34 17\n0088 34 17\n")


if __name__ == "__main__":
    unittest.main()
