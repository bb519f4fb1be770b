"""Tests of the lines command: answers to a file, what is wrong with each line, and with the file."""

from __future__ import annotations

import os
import tempfile
import unittest
from unittest import mock

from running import program, shell, within  # first: it keeps Python from writing beside the sources

import partyid
from partyid import lines
from partyid.explain import shown
from partyid.shape import HEADER, SHAPES

GOOD = ["0184 34 12345678", "0192 34 123456785", "0088 34 17"]


def file_of(text: str, ended: str = "\n") -> bytes:
    return (ended.join(text.split("\n")) + ended).encode()


class Answers(unittest.TestCase):
    def test_each_line_is_answered(self) -> None:
        for text, status, numbers in (
            (b"0088 34 71\n0088 34 17\n0060 34 x\n", 1, ["2 40 1 4", "1 40 1 0", "0 0 0 0"]),
            (b"0088 34 17\n0060 34 x", 3, ["1 40 1 0", "0 0 0 0"]),
            (b"0088 34 17", 0, ["1 40 1 0"]),
            (b"", 0, []),
        ):
            said = within("lines", "-", given=text)
            self.assertEqual((said.status, [line.split("  ")[0] for line in said.out.splitlines()], said.err), (status, numbers, ""))
            self.assertEqual(within("lines", given=text), said)
            with tempfile.NamedTemporaryFile() as file:
                file.write(text)
                file.flush()
                self.assertEqual(within("lines", file.name), said)

    def test_they_are_those_of_the_check_command(self) -> None:
        fields = [("0088", "71"), ("0088", "17"), ("9901", "x"), ("9905", ""), ("0060", "x"), ("0211", "It1"), ("9907", "12345678901")]
        text = "".join(f"{scheme} 34 {content}\n" for scheme, content in fields)
        self.assertEqual(within("lines", given=text.encode()).out, "".join(within("check", *field).out for field in fields))

    def test_a_program_of_its_own_answers_the_same(self) -> None:
        text = b"0088 34 71\n9901 34 x\n"
        self.assertEqual(program("lines", given=text), within("lines", given=text))
        self.assertEqual(program("lines", "--corrections", given=text), within("lines", "--corrections", given=text))


class Corrections(unittest.TestCase):
    def test_each_refused_line_is_told_with_its_corrections(self) -> None:
        text = b"0088 34 17\n0088 34 71\n0060 34 x\n9901 34 x\nfrob\n0088 35 1\n0211 34 \n0184 34 \xc2\xa01\xff\n"
        said = within("lines", "--corrections", given=text)
        self.assertEqual((said.status, said.err), (1, ""))
        self.assertEqual(said.out, """\
line 2: 0088 34 71
    refused by rule 40 (severity fatal): the form is met and the check figure is wrong
    rule 40 (GLN, Global Location Number (GS1)) asks for one or more digits, the last of them the GS1 check digit
    one slip away, and accepted by the rule (3): 31 79 17
line 4: 9901 34 x
    no rule; scheme 9901 is withdrawn, its successor is 0096
line 5: frob
    refused: the head of the line is malformed
    a line is SCHEME TERM CONTENT: four bytes, two digits and the rest, with one space between, as 0088 34 1234567890128
line 6: 0088 35 1
    refused: the term number is none that a rule reads
    a term is one of 29, 30, 31, 34, 46, 47, 48, 49, 60, 61, 63
line 8: 0184 34 <U+00A0>1<byte FF>
    refused by rule 42 (severity fatal): the content is not well-formed UTF-8
    rule 42 (Danish CVR number) asks for 8 digits, or DK and 8 digits, with no space around them
    corrections are listed for 0088, 0192, 0208, 0007, 0151 only
lines: 8; accepted: 1; refused: 4; without a rule: 2; let through unread: 1
A number that a rule accepts need not be any party's: look it up before you take it.
""")

    def test_every_correction_of_every_listed_scheme_is_told(self) -> None:
        for scheme, content in (("0088", "1234567890127"), ("0192", "123456784"), ("0208", "1234567895"), ("0007", "1234567898"), ("0151", "51824753557")):
            found = partyid.corrections(scheme, content)
            self.assertTrue(found)
            said = within("lines", "--corrections", given=f"{scheme} 34 {content}\n".encode())
            self.assertIn(f"accepted by the rule ({len(found)}): {' '.join(found)}\n", said.out)

    def test_the_whole_content_is_asked_about(self) -> None:
        said = within("lines", "--corrections", given=b"0088 34 " + b"1" * 1024)
        self.assertIn("no corrections: they are listed of 1 to 20 digits only\n", said.out)

    def test_line_numbers_go_on_from_block_to_block(self) -> None:
        text = b"0088 34 17\n" * 99 + b"0088 34 71\n"
        with mock.patch.object(lines, "BLOCK", 64):
            said = within("lines", "--corrections", given=text * 3)
        self.assertEqual([line for line in said.out.splitlines() if line.startswith("line ")], [f"line {n}: 0088 34 71" for n in (100, 200, 300)])
        self.assertIn("lines: 300; accepted: 297; refused: 3;", said.out)

    def test_what_is_accepted_is_counted_alone(self) -> None:
        said = within("lines", "--corrections", given="\n".join(GOOD).encode())
        self.assertEqual((said.status, said.out), (0, "lines: 3; accepted: 3; refused: 0; without a rule: 0; let through unread: 0\n"))

    def test_no_byte_reaches_the_screen_that_could_steer_it(self) -> None:
        self.assertEqual(shown(b"a\x1b[31m\t\x7f"), "a<U+001B>[31m<U+0009><U+007F>")
        self.assertEqual(shown(b"1" * 200), "1" * 100 + " ..")
        every = bytes(byte for byte in range(256) if byte != 10)
        self.assertTrue(all(" " <= c <= "~" or c == "\n" for c in within("lines", "--corrections", given=b"0088 34 " + every).out))


def without(shape: str) -> str:
    return "\n".join(GOOD).replace(" ", shape)


FILES = {
    "the file is UTF-16": (["\ufeff" + "\n".join(GOOD)], "utf-16-be"),
    "the file begins with a byte order mark": (["\ufeff" + "\n".join(GOOD)], "utf-8"),
    "lines end in CRLF": (["\r\n".join(GOOD)], "utf-8"),
    "fields are parted by commas or semicolons (CSV)": ([without(","), without(";"), "\n".join('"{}","{}","{}"'.format(*line.split(" ")) for line in GOOD)], "utf-8"),
    "fields are parted by tabs": ([without("\t")], "utf-8"),
    "line 1 looks like a table's header": (["scheme term content\n" + "\n".join(GOOD)], "utf-8"),
}


class Shapes(unittest.TestCase):
    def told(self, data: bytes) -> list[str]:
        """What the file's shape is said to be; a command to put it right stands behind each."""
        out = within("lines", "--corrections", given=data).out
        return [line for line in out.splitlines() if "; refused for it: " in line]

    def test_each_shape_is_named_where_it_is_why(self) -> None:
        self.assertEqual(set(FILES), {shape.what for shape in (*SHAPES, HEADER)})
        for what, (texts, encoding) in FILES.items():
            for text in texts:
                told = self.told((text + ("\r\n" if what.endswith("CRLF") else "\n")).encode(encoding))
                self.assertEqual([line.split("; refused for it")[0] for line in told], [what], text)

    def test_what_to_do_puts_it_right(self) -> None:
        with tempfile.TemporaryDirectory() as folder:
            for what, (texts, encoding) in FILES.items():
                for text in texts:
                    data = (text + ("\r\n" if what.endswith("CRLF") else "\n")).encode(encoding)
                    with open(os.path.join(folder, "FILE"), "wb") as file:
                        file.write(data)
                    command = self.told(data)[0].partition("; refused for it: ")[2].partition(": ")[2]
                    righted = shell(command, folder)
                    self.assertEqual((righted.out.splitlines(), righted.err), (GOOD, ""), command)

    def test_utf_16_is_seen_either_way_round_and_without_its_mark(self) -> None:
        for encoding in ("utf-16-le", "utf-16-be"):
            for mark in ("", "\ufeff"):
                told = self.told((mark + "\n".join(GOOD) + "\n").encode(encoding))
                self.assertRegex(told[0], "^the file is UTF-16; refused for it: [34] of [34];")

    def test_shapes_together_are_each_named(self) -> None:
        exported = ("\ufeffscheme\tterm\tnumber\r\n" + "\r\n".join(line.replace(" ", "\t") for line in GOOD) + "\r\n").encode("utf-16-le")
        wanted = ["the file is UTF-16", "lines end in CRLF", "fields are parted by tabs", "line 1 looks like a table's header"]
        self.assertEqual([line.split("; refused for it")[0] for line in self.told(exported)], wanted)
        exported = ("\ufeff" + "\r\n".join(line.replace(" ", ";") for line in GOOD) + "\r\n").encode()
        self.assertEqual(len(self.told(exported)), 3)

    def test_the_lines_that_it_is_why_for_are_counted(self) -> None:
        told = self.told(b"0184 34 12345678\r\n0088 34 71\r\n0088 34 17\r\n0096 34 1234567890\r\n")
        self.assertEqual(told, ["lines end in CRLF; refused for it: 2 of 3; take out the carriage returns: tr -d '\\r' <FILE"])

    def test_no_shape_is_blamed_that_is_not_why(self) -> None:
        for data in (b"0088 34 71\r\n", b"0088 34 7\t1\n", b"0088 34 1,2,3\n", b"0088 34 \xef\xbb\xbf17\n", b"0088 34 1\x007\n", b"0,0\n", b"\r\n", b"\t\n"):
            self.assertEqual(self.told(data), [], data)

    def test_only_the_beginning_of_the_file_has_a_mark_or_a_header(self) -> None:
        for line in ("\ufeff0088 34 17", "scheme term content"):
            data = ("\n".join([*GOOD, line, *GOOD]) + "\n").encode()
            for block in (1, 64, 1000):
                with mock.patch.object(lines, "BLOCK", block):
                    self.assertEqual(self.told(data), [], (line, block))

    def test_a_head_that_is_put_right_counts_although_the_number_is_wrong(self) -> None:
        self.assertEqual(len(self.told(b"0088\t34\t71\n")), 1)


if __name__ == "__main__":
    unittest.main()
