"""Tests of what the package answers: python3 -m unittest, in this folder, runs them and the others.

What is said of single calls stands in ../cases.txt."""

from __future__ import annotations

import copy
import ctypes
import doctest
import pathlib
import pickle
import re
import unittest
from concurrent.futures import ProcessPoolExecutor
from typing import Any, Callable, Iterable, Iterator, Union
from unittest import mock

from running import HERE, ROOT  # first: it keeps Python from writing beside the sources

import partyid
from partyid import Reason, Verdict, library


def load_tests(loader: unittest.TestLoader, tests: unittest.TestSuite, pattern: Any) -> unittest.TestSuite:
    """The examples in the package's own text are tests too."""
    tests.addTests(doctest.DocTestSuite(partyid))
    return tests


# ---- The cases

Words = list[bytes]


def word_bytes(word: bytes) -> bytes:
    repeated = re.sub(rb"\{(\d+):([^}]*)\}", lambda m: m[2] * int(m[1]), word)
    return re.sub(rb"\\([0-9a-f]{2})", lambda m: bytes.fromhex(m[1].decode()), repeated)


def words(line: bytes) -> Words:
    return [word_bytes(quoted or plain) for quoted, plain in re.findall(rb"'([^']*)'|([^ ']+)", line)]


def cases() -> Iterator[tuple[bytes, str, Words, Words]]:
    """Each line of cases.txt, the function that it names, its arguments and the answer."""
    for line in (HERE.parent / "cases.txt").read_bytes().splitlines():
        if line and not line.startswith(b"#"):
            call, answer = line.split(b" =>")
            function, arguments = call.split(b" ", 1)
            yield line, function.decode(), words(arguments), words(answer)


def number_words(numbers: Iterable[int]) -> Words:
    return [b"%d" % number for number in numbers]


def settled(work: Callable[[], Union[str, list[str]]]) -> Words:
    """0 and what was written, or the reason of the refusal."""
    try:
        written = work()
    except partyid.Refusal as refusal:
        return number_words([refusal.reason])
    return [b"0", *(text.encode() for text in ([written] if isinstance(written, str) else written))]


def point_words(point: "partyid.Point | None") -> Words:
    return [b"%x" % point.code, b"%d" % point.len] if point else [b"0", b"0"]


def code_words(code: partyid.Code) -> Words:
    return number_words([code.answer]) + ([code.successor.encode()] if code.successor else [])


def tallied(counts: Iterable[bytes], feed: Callable[[partyid.Tally], Iterable[partyid.Answer]]) -> Words:
    """The answers that a tally of these counts gives, and its counts that are not 0."""
    given = {int(place): int(count) for place, count in (word.split(b":") for word in counts)}
    tally = partyid.Tally(given.get(place, 0) for place in range(partyid.TALLY_COUNTS))
    answers = number_words(n for answer in feed(tally) for n in answer)
    return answers + [b"%d:%d" % (place, count) for place, count in enumerate(tally.counts) if count]


CALLS: dict[str, Callable[..., Words]] = {
    "answer_line": lambda line: number_words(partyid.answer_line(line)),
    "answer_lines": lambda text: number_words(n for answer in partyid.answer_lines(text) for n in answer),
    "check": lambda scheme, term, content: number_words(partyid.check(scheme, int(term), content)),
    "complete": lambda scheme, body: settled(lambda: partyid.complete(scheme, body)),
    "decode": lambda content, at: point_words(partyid.decode(content, int(at))),
    "eas_value": lambda scheme, content: number_words(partyid.eas_value(scheme, content)),
    "is_valid_creditor_identifier": lambda content: number_words(partyid.is_valid_creditor_identifier(content)),
    "is_valid_iban_checksum": lambda content: number_words(partyid.is_valid_iban_checksum(content)),
    "is_white": lambda *codes: number_words({partyid.is_white(int(code, 16)) for code in codes}),
    "list": lambda scheme, content: settled(lambda: partyid.corrections(scheme, content)),
    "normalize_space": lambda content: settled(lambda: partyid.normalize_space(content)),
    "strip": lambda content: settled(lambda: partyid.strip(content)),
    "tally_line": lambda line, *counts: tallied(counts, lambda tally: [tally.feed(line)]),
    "tally_lines": lambda text, *counts: tallied(counts, lambda tally: tally.feed_lines(text)),
    "withdrawn": lambda code: code_words(partyid.withdrawn(code)),
}


class Cases(unittest.TestCase):
    def test_every_case_has_its_answer(self) -> None:
        for line, function, arguments, answer in cases():
            with self.subTest(line=line[:100]):
                self.assertEqual(CALLS[function](*arguments), answer)

    def test_every_function_has_cases(self) -> None:
        self.assertEqual({function for _, function, _, _ in cases()}, set(CALLS))


# ---- Contents of all kinds


class Contents(unittest.TestCase):
    def test_every_byte_has_an_answer(self) -> None:
        for byte in range(256):
            digit = Reason.NO_REASON if byte == ord("0") else Reason.CHECK
            other = Reason.UTF8 if byte >= 0x80 else Reason.FORM
            found = partyid.check(b"0088", 34, bytes([byte])).reason
            self.assertIs(found, digit if byte in b"0123456789" else other, byte)

    def test_a_str_is_its_utf8_and_every_str_has_an_answer(self) -> None:
        self.assertEqual(partyid.check("0088", 34, "\u00a017"), (1, 40, 1, 0))
        self.assertEqual(partyid.check("0088", 34, "\ud800"), (2, 40, 1, 2))
        self.assertEqual(partyid.check("\udcff", 34, ""), (0, 0, 0, 0))
        self.assertEqual(partyid.decode("é", 0), (0xE9, 2))

    def test_other_bytes_are_taken_and_other_types_are_not(self) -> None:
        self.assertEqual(partyid.check(bytearray(b"0088"), 34, memoryview(b"x17")[1:]), (1, 40, 1, 0))
        for content in (None, 17, ["17"]):
            with self.assertRaises(TypeError):
                partyid.check("0088", 34, content)  # type: ignore[arg-type]

    def test_a_number_that_c_can_not_hold_is_not_cut(self) -> None:
        for term in (2**32 + 34, 2**64 + 34, -1, 34 - 2**32):
            self.assertEqual(partyid.check("0088", term, "17"), (2, 0, 0, Reason.TERM), term)
        for code in (2**32 + 0x20, 0x20 - 2**32, 2**64 + 0x20):
            self.assertFalse(partyid.is_white(code), code)
        for at in (2**64, -(2**64), -1):
            self.assertIsNone(partyid.decode("1", at), at)

    def test_the_white_points_are_25(self) -> None:
        self.assertEqual(sum(partyid.is_white(code) for code in range(0x11000)), 25)

    def test_a_list_of_the_longest_number(self) -> None:
        # about 19 zeros and a one a weight of 3 wants a 3, a weight of 1 a 9, and the check digit a 0
        wanted = ["0" * i + ("3" if i % 2 == 0 else "9") + "0" * (18 - i) + "1" for i in range(19)] + ["0" * 20]
        self.assertEqual(partyid.corrections("0088", "0" * 19 + "1"), wanted)

    def test_many_lines_are_answered_as_each_is_alone(self) -> None:
        kinds = [b"0088 34 71", b"0088 34 17", b"0060 34 x", b"", b"0211 34 It1", b"0088 34 \xff\0"]
        for count in (1, 1023, 1024, 1025, 3000):
            lines = [kinds[i % 7] if i % 7 < 6 else b"0088 34 " + b"0" * i for i in range(count)]
            alone = [partyid.answer_line(line) for line in lines]
            self.assertEqual(list(partyid.answer_lines(b"\n".join(lines) + b"\n")), alone, count)

    def test_an_answer_is_told_in_words(self) -> None:
        refused = "refused by rule 40 (severity fatal): the form is met and the check figure is wrong"
        self.assertEqual(str(partyid.check("0088", 34, "71")), refused)
        self.assertEqual(str(partyid.check("0088", 34, "17")), "accepted by rule 40")  # no severity: it would alarm
        self.assertEqual(str(partyid.check("0211", 34, "")), "let through unread by rule 47")
        self.assertEqual(str(partyid.check("0060", 34, "x")), "no rule")
        self.assertEqual(str(partyid.withdrawn("9901")), "withdrawn, its successor is 0096")
        with self.assertRaisesRegex(partyid.Refusal, "no check figure completes the body"):
            partyid.complete("0192", "00000006")


# ---- Answers as values


def refusing() -> str:
    return partyid.complete("0192", "00000006")


class Values(unittest.TestCase):
    def test_a_refusal_comes_back_from_another_process(self) -> None:
        with self.assertRaises(partyid.Refusal) as caught:
            refusing()
        for there_and_back in (pickle.loads(pickle.dumps(caught.exception)), copy.deepcopy(caught.exception)):
            self.assertEqual((there_and_back.reason, str(there_and_back)), (Reason.NO_FIGURE, "no check figure completes the body"))
        with ProcessPoolExecutor(1) as pool:
            with self.assertRaisesRegex(partyid.Refusal, "no check figure completes the body"):
                pool.submit(refusing).result(timeout=20)

    def test_other_errors_come_back_too(self) -> None:
        for error in (partyid.Disagreement("4 is strange"), partyid.LibraryError("no library")):
            back = pickle.loads(pickle.dumps(error))
            self.assertEqual((type(back), str(back)), (type(error), str(error)))
            self.assertLess(len(str(back)), 200)

    def test_answers_and_codes_come_back_too(self) -> None:
        for value in (partyid.check("0088", 34, "71"), partyid.withdrawn("9901"), partyid.decode("1", 0), Reason.TERM):
            back = pickle.loads(pickle.dumps(value))
            self.assertEqual((back, type(back), str(back)), (value, type(value), str(value)))

    def test_an_answer_is_true_where_it_is_accepted(self) -> None:
        self.assertTrue(partyid.is_valid_iban_checksum("AA750"))
        for answer in (partyid.is_valid_iban_checksum("NOT AN IBAN"), partyid.check("0060", 34, "x"), partyid.check("0211", 34, ""), partyid.check("0088", 1, "17")):
            self.assertFalse(answer, answer)
            self.assertFalse(answer.accepted, answer)
        self.assertTrue(partyid.check("0088", 34, "71").refused)
        self.assertFalse(partyid.check("0060", 34, "x").refused)

    def test_a_code_is_true_where_it_is_withdrawn(self) -> None:
        self.assertTrue(partyid.withdrawn("9901") and partyid.withdrawn("9905"))
        self.assertFalse(partyid.withdrawn("0088"))

    def test_a_number_is_written_in_words(self) -> None:
        self.assertEqual((str(Reason.FORM), f"{Reason.FORM}", f"{Reason.FORM:d}"), ("the form is not met", "the form is not met", "3"))
        self.assertEqual((f"{Verdict.REFUSED:>9}", f"{Verdict.REFUSED:02x}", "%d" % Verdict.REFUSED), ("  refused", "02", "2"))

    def test_which_schemes_can_be_listed_is_said_where_it_is_refused(self) -> None:
        said = "only 0088, 0192, 0208, 0007 and 0151 can be completed or listed"
        with self.assertRaisesRegex(partyid.Refusal, said):
            partyid.corrections("0184", "12345678")
        with self.assertRaisesRegex(partyid.Refusal, said):
            partyid.complete("0184", "1")

    def test_what_is_no_number_is_told_so(self) -> None:
        for term in ("34", 34.0, None, b"34"):
            with self.assertRaisesRegex(TypeError, "^a term is given as a whole number"):
                partyid.check("0088", term, "17")  # type: ignore[arg-type]
        with self.assertRaisesRegex(TypeError, "^a code point is given as a whole number"):
            partyid.is_white(" ")  # type: ignore[arg-type]
        with self.assertRaisesRegex(TypeError, "^a place is given as a whole number"):
            partyid.decode("1", "0")  # type: ignore[arg-type]
        with self.assertRaisesRegex(TypeError, "^a scheme or a content is given as bytes or str, not as int"):
            partyid.check(88, 34, "17")  # type: ignore[arg-type]

    def test_what_counts_as_a_whole_number_is_one(self) -> None:
        self.assertEqual(partyid.check("0088", ctypes.c_uint32(34).value, "17"), partyid.check("0088", Whole(), "17"))


class Whole:
    def __index__(self) -> int:
        return 34


# ---- The library


class Library(unittest.TestCase):
    def test_it_is_looked_for_near_the_root_too(self) -> None:
        with mock.patch.dict("os.environ", {"PARTYID_LIBRARY": ""}):
            for place in ("/library.py", "/a/library.py", "/a/b/library.py"):
                self.assertIsInstance(library.library_path(pathlib.Path(place)), str)
            self.assertEqual(library.library_path(HERE / "partyid" / "library.py"), str(ROOT / "target/c/libpartyid.so"))

    def test_a_number_that_the_header_does_not_have_is_named(self) -> None:
        with self.assertRaisesRegex(ValueError, "^4 is not a valid .*Verdict.*not of one version"):
            library.answered(library.AnswerStruct(4, 0, 0, 0))
        with self.assertRaisesRegex(ValueError, "^3 is not a valid .*Severity"):
            library.answered(library.AnswerStruct(0, 0, 3, 0))
        with self.assertRaisesRegex(partyid.Disagreement, "^13 is not a valid .*Reason"):
            library.settle(13)


# ---- The names


FORMER = """AREA ANSWER_NUMBERS Answer Code Content LIST_DIGITS LibraryError Point Reason Refusal Severity Verdict Withdrawal answer_line answer_lines check complete
corrections decode eas_value is_valid_creditor_identifier is_valid_iban_checksum is_white main normalize_space strip withdrawn""".split()


class Names(unittest.TestCase):
    def test_every_name_stays(self) -> None:
        self.assertLessEqual(set(FORMER), set(partyid.__all__))
        for name in partyid.__all__:
            self.assertTrue(hasattr(partyid, name), name)
        self.assertTrue(callable(partyid.corrections) and callable(partyid.check))

    def test_the_version_is_the_librarys(self) -> None:
        found = re.search(r'^#define PARTYID_VERSION "(.*)"$', (ROOT / "include/partyid.h").read_text(), re.MULTILINE)
        self.assertEqual(partyid.__version__, found and found[1])


if __name__ == "__main__":
    unittest.main()
