"""Examples of decoding, normalising and stripping."""
from paper.text import WHITE

# Points beside a white one, and those that only look white.
NEARLY_WHITE = (0x08, 0x0E, 0x1C, 0x1F, 0x21, 0x84, 0x86, 0x9F, 0xA1, 0x167F, 0x1681, 0x180E, 0x1FFF, 0x200B, 0x2027, 0x202A, 0x202E, 0x2030, 0x205E, 0x2060,
                0x2FFF, 0x3001, 0xFEFF)
POINTS = [chr(c) for c in (*sorted(WHITE), *NEARLY_WHITE)]

# The rows of RFC 3629 at both ends, and what lies just outside of them or is cut short.
ROWS = """
    00 7f 80 bf
    c080 c1bf c280 c27f c2c0 c2 dfbf df
    e09fbf e0a080 e0bfbf e0a0 e0 e18080 e1807f ecbfbf ed9fbf eda080 edbfbf ee8080 efbfbf efbf
    f08fbfbf f0908080 f09080 f18080c0 f3bfbfbf f48fbfbf f4908080 f5808080 ff"""

TEXTS = [
    # nothing; white alone; white before, behind and within
    "", " ", "\t\n", " \u3000\u00a0 ", " \t", "17", "\u00a017", " 1  2 \n\u2003 3 ", " 1\n\u30007 ", "a b", "a  b", "Zoë €😀",
    # not white; the sign of an escape
    "\u200b1\ufeff", "\u200b", "\\",
    # a surrogate, a lone continuation, cut short, past the last point
    b"1\xed\xa0\x80", b"\x80", b"1\xc2", b"\xc2\xa0\xc2", b"\xf4\x90\x80\x80", b"1\xff",
    # on both sides of 1,024 bytes; LONG comes before UTF8
    "1" * 1024, "1" * 1025, " " * 1024, " " * 1025, "\u00a0" * 512, "a" * 1022 + " b", b"1" * 1024 + b"\xff", b"1" * 1023 + b"\xff", "1" * 1022 + "é",
    "1" * 1023 + "é",
]


def examples():
    for content in (b"", *map(bytes.fromhex, ROWS.split()), "1é€😀", *POINTS):
        yield "d", content
    for command in "ns":
        for content in (*(f"1{p}{p}7{p}" for p in POINTS), *TEXTS):
            yield command, content
