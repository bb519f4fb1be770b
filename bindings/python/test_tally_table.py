"""Tests of the tally command: its table, and the files that it reads."""

from __future__ import annotations

import os
import tempfile
import unittest
from collections import Counter
from unittest import mock

from running import Run, program, within  # first: it keeps Python from writing beside the sources

import partyid
from partyid import Tally, Verdict
from partyid.explain import LOOK_UP
from test_tally import KINDS, MOST, counts_of


def going_on(counts: list[int], given: bytes) -> Run:
    """The command, with a tally that has counted before."""
    with mock.patch("partyid.commands.Tally", lambda: Tally(counts)):
        return within("tally", given=given)


class Table(unittest.TestCase):
    def test_each_rule_has_its_row(self) -> None:
        text = b"\n".join([*KINDS, b"0088 34 17", b"0060 34 x"])
        said = within("tally", given=text)
        _, *rows, sums, no_rule, refused, total, last = said.out.splitlines()
        wanted = Counter((answer.rule, answer.verdict) for answer in partyid.answer_lines(text))
        for rule, row in zip(partyid.RULES, rows):
            three = [wanted[rule.number, verdict] for verdict in (Verdict.ACCEPTED, Verdict.REFUSED, Verdict.UNREAD)]
            self.assertEqual(row.split(maxsplit=6), [str(rule.number), rule.scheme or "-", *map(str, three), str(sum(three)), rule.whose])
        self.assertEqual(len(rows), 17)
        self.assertEqual([int(word) for word in sums.split()[1:]], [sum(int(row.split()[column]) for row in rows) for column in (2, 3, 4, 5)])
        self.assertEqual(no_rule, f"lines whose field no rule reads: {wanted[0, Verdict.NO_RULE]}")
        self.assertEqual(refused, f"lines refused without a rule (unknown term or malformed head; partyid lines FILE shows them): {wanted[0, Verdict.REFUSED]}")
        self.assertEqual((total, last), (f"lines counted: {len(KINDS) + 2}", LOOK_UP))
        self.assertEqual((said.status, said.err), (0, ""))

    def test_numbers_are_parted_and_stand_below_each_other(self) -> None:
        said = going_on(counts_of((0, 1_234_566), (1, 12), (25, 1000), (51, 9999), (52, 54321)), b"0088 34 17\n0060 34 x\nfrob\n")
        head, *rows = said.out.splitlines()[:19]
        self.assertEqual([head, rows[0], rows[8], rows[17]], [
            "rule  scheme   accepted  refused  let through unread        sum  whose number it is",
            "  40  0088    1,234,567       12                   0  1,234,579  GLN, Global Location Number (GS1)",
            "  49  0007            0    1,000                   0      1,000  Swedish organisation number",
            " sum          1,234,567    1,012                   0  1,235,579",
        ])
        self.assertEqual(said.out.splitlines()[19:-1], [
            "lines whose field no rule reads: 10,000",
            "lines refused without a rule (unknown term or malformed head; partyid lines FILE shows them): 54,322",
            "lines counted: 1,299,901",
        ])

    def test_lines_past_the_limit_are_told(self) -> None:
        said = going_on(counts_of((0, MOST - 1)), b"0088 34 17\n0088 34 17\nfrob\n")
        self.assertEqual((said.status, said.err), (1, ""))
        self.assertEqual(said.out.splitlines()[-3:], ["lines counted: 4,294,967,295", "lines not counted, because the tally is full: 2", LOOK_UP])
        full = going_on(counts_of((0, MOST - 1)), b"0088 34 17\n")
        self.assertEqual((full.status, full.out.splitlines()[-2]), (0, "lines counted: 4,294,967,295"))


class Files(unittest.TestCase):
    def setUp(self) -> None:
        folder = tempfile.TemporaryDirectory()
        self.addCleanup(folder.cleanup)
        self.folder = folder.name

    def file(self, name: str, data: bytes) -> str:
        path = os.path.join(self.folder, name)
        with open(path, "wb") as file:
            file.write(data)
        return path

    def assert_counts(self, wanted: list[int], *words: str, given: bytes = b"") -> None:
        """The numbers of rule 40's row, and how many lines are counted."""
        said = within("tally", *words, given=given)
        self.assertEqual((said.status, said.err), (0, ""))
        shown = said.out.replace(",", "").splitlines()
        self.assertEqual([int(word) for word in (*shown[1].split()[2:6], shown[-2].split()[-1])], wanted, words)

    def test_files_are_counted_together_and_none_is_standard_input(self) -> None:
        text, without = self.file("a", b"0088 34 17\n0088 34 71\n"), self.file("b", b"frob\n0088 34 17")
        self.assert_counts([1, 1, 0, 2, 2], text)
        self.assert_counts([3, 1, 0, 4, 6], without, text, without)  # no line is joined to the next file's
        self.assert_counts([1, 0, 0, 1, 1], given=b"0088 34 17")
        self.assert_counts([1, 0, 0, 1, 1], "-", given=b"0088 34 17")
        self.assert_counts([2, 1, 0, 3, 3], text, "-", given=b"0088 34 17")
        self.assert_counts([1, 1, 0, 2, 2], "--", text, given=b"0088 34 17")

    def test_odd_files(self) -> None:
        every = bytes(range(256)) * 10
        self.assert_counts([0, 0, 0, 0, 0])
        self.assert_counts([0, 0, 0, 0, 1], given=b"\n")
        self.assert_counts([0, 0, 0, 0, 11], given=every)
        self.assert_counts([0, 1, 0, 1, 11], given=b"0088 34 " + every)
        self.assert_counts([4000, 0, 0, 4000, 4000], self.file("many", b"0088 34 17\n" * 4000))

    def test_no_table_where_a_file_can_not_be_read(self) -> None:
        text = self.file("a", b"0088 34 17\n")
        for strange, why in ((os.path.join(self.folder, "none"), "No such file"), (self.folder, "Is a directory")):
            for words in ((strange,), (text, strange), (strange, text)):
                said = within("tally", *words)
                self.assertEqual((said.status, said.out), (2, ""))
                self.assertRegex(said.err, f"^partyid: .*{why}.*\n$")

    def test_a_program_of_its_own_tells_the_same(self) -> None:
        text = b"0088 34 71\n9901 34 x\n"
        self.assertEqual(program("tally", given=text), within("tally", given=text))


if __name__ == "__main__":
    unittest.main()
