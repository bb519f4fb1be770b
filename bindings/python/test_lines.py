"""Tests of many lines at once: as answers, as numbers, as they come."""

from __future__ import annotations

import io
import os
import tempfile
import tracemalloc
import unittest
from array import array
from typing import Iterator, Union
from unittest import mock

from running import ROOT  # first: it keeps Python from writing beside the sources

import partyid
from partyid import Verdict, library, lines

KINDS = [b"0088 34 71", b"0088 34 17", b"0060 34 x", b"", b"0211 34 It1", b"0088 34 \xff\0", b"0184 34 12345678\r"]


def some_lines(count: int) -> list[bytes]:
    return [KINDS[i % 8] if i % 8 < 7 else b"0088 34 " + b"0" * i for i in range(count)]


class Numbers(unittest.TestCase):
    def test_they_are_the_answers_of_each_line_alone(self) -> None:
        for count in (0, 1, 7, 3000):
            alone = [n for line in some_lines(count) for n in partyid.answer_line(line)]
            text = b"".join(line + b"\n" for line in some_lines(count))
            sources: list[Union[partyid.Content, io.BytesIO]] = [text, bytearray(text), memoryview(text), io.BytesIO(text)]
            for source in sources:
                numbers = partyid.answer_numbers(source)
                self.assertIsInstance(numbers, array)
                self.assertEqual((numbers.itemsize, numbers.tolist()), (4, alone))

    def test_a_last_line_without_newline_counts(self) -> None:
        self.assertEqual(partyid.answer_numbers("0088 34 17\n0088 34 71")[::4].tolist(), [1, 2])
        self.assertEqual(partyid.answer_numbers("\n")[3::4].tolist(), [11])
        self.assertEqual(len(partyid.answer_numbers("")), 0)

    def test_a_file_is_read_in_blocks_wherever_they_end(self) -> None:
        text = b"\n".join(some_lines(400))
        whole = partyid.answer_numbers(text)
        for block in (1, 2, 7, 64, 1000, len(text), len(text) + 1):
            with mock.patch.object(lines, "BLOCK", block):
                for file in (io.BytesIO(text), io.BufferedReader(io.BytesIO(text), 16)):  # type: ignore[arg-type]
                    self.assertEqual(b"".join(lines.blocks(file)).count(b"\n"), text.count(b"\n"))
        for block in (2000, 5000):  # longer than what is read of a line
            with mock.patch.object(lines, "BLOCK", block):
                self.assertEqual(partyid.answer_numbers(io.BytesIO(text)), whole)

    def test_of_a_line_that_does_not_end_no_more_than_two_blocks_are_kept(self) -> None:
        endless = io.BytesIO(b"0088 34 " + b"0" * 40000 + b"\n0088 34 17\n")
        with mock.patch.object(lines, "BLOCK", 2000):
            blocks = list(lines.blocks(endless))
        self.assertLess(max(map(len, blocks)), 8000)
        self.assertEqual([tuple(answer) for block in blocks for answer in partyid.answer_lines(block)], [(2, 40, 1, 1), (1, 40, 1, 0)])

    def test_no_object_is_made_for_a_line(self) -> None:
        text = b"0088 34 17\n" * 100_000
        tracemalloc.start()
        numbers = partyid.answer_numbers(text)
        taken = tracemalloc.get_traced_memory()[1]
        tracemalloc.stop()
        self.assertEqual(numbers[::4].count(Verdict.ACCEPTED), 100_000)
        self.assertLess(taken, 40 * 100_000)  # 16 bytes a line, and as much while they are made

    def test_a_file_of_text_is_told_so(self) -> None:
        with self.assertRaisesRegex(TypeError, "open it for bytes"):
            partyid.answer_numbers(io.StringIO("0088 34 17\n"))  # type: ignore[arg-type]

    def test_a_library_that_answers_fewer_lines_is_not_believed(self) -> None:
        answering = mock.Mock(partyid_answer_lines=lambda *given: library.BatchStruct(1, 11))
        with mock.patch.object(lines, "library", lambda: answering):
            with self.assertRaisesRegex(partyid.Disagreement, "1 answers to 2 lines"):
                partyid.answer_numbers("0088 34 17\n0088 34 17\n")


class Streams(unittest.TestCase):
    def test_each_line_comes_with_its_number_and_answer(self) -> None:
        wanted = [(i + 1, line, partyid.answer_line(line)) for i, line in enumerate(some_lines(2500))]
        with_newlines = [line + b"\n" for line in some_lines(2500)]
        with tempfile.TemporaryFile() as file:
            file.writelines(with_newlines)
            file.seek(0)
            self.assertEqual(list(partyid.check_lines(file)), wanted)
        for given in (some_lines(2500), iter(with_newlines), map(bytearray, with_newlines)):
            self.assertEqual(list(partyid.check_lines(given)), wanted)
        self.assertEqual(list(partyid.check_lines(some_lines(2500), at_once=3)), wanted)

    def test_text_is_taken(self) -> None:
        with open(ROOT / "examples" / "lines.txt", encoding="utf-8", newline="") as file:
            text = list(partyid.check_lines(file))
        with open(ROOT / "examples" / "lines.txt", "rb") as bytes_file:
            self.assertEqual(text, list(partyid.check_lines(bytes_file)))

    def test_no_more_lines_are_taken_than_asked_for(self) -> None:
        taken = []

        def endless() -> Iterator[bytes]:
            while True:
                taken.append(b"0088 34 17")
                yield taken[-1]

        stream = partyid.check_lines(endless(), at_once=1)
        self.assertEqual([next(stream).number for _ in range(5)], [1, 2, 3, 4, 5])
        self.assertEqual(len(taken), 5)

    def test_a_newline_within_a_line_makes_no_second_line(self) -> None:
        found = list(partyid.check_lines([b"0088 34 17\n0088 34 71", b"0088 34 1\n7\n", b"0088 34 17"]))
        self.assertEqual([line.answer.reason for line in found], [3, 3, 0])

    def test_what_is_no_lines_is_told_so(self) -> None:
        for text in ("0088 34 17\n", b"0088 34 17\n"):
            with self.assertRaisesRegex(TypeError, "answer_lines takes one text"):
                partyid.check_lines(text)  # type: ignore[arg-type]
        with self.assertRaisesRegex(ValueError, "1 or more"):
            partyid.check_lines([], at_once=0)
        with self.assertRaisesRegex(TypeError, "^answer_numbers takes bytes, a str or a file opened for bytes, not int$"):
            partyid.answer_numbers(17)  # type: ignore[arg-type]

    def test_lines_are_answered_before_the_pipe_is_closed(self) -> None:
        reading, writing = os.pipe()
        with open(reading, "rb") as file, open(writing, "wb") as pipe:
            blocks = lines.blocks(file)
            pipe.write(b"0088 34 17\n0088")
            pipe.flush()
            self.assertEqual(next(blocks), b"0088 34 17\n")
            pipe.write(b" 34 71")
            pipe.close()
            self.assertEqual(list(blocks), [b"0088 34 71"])


if __name__ == "__main__":
    unittest.main()
