"""The input of the line program's own example: the rules' whole example and the hard cases. Its last line has no newline."""
from paper.rules import BY_SCHEME, SCHEME_TERMS, VAT_TERMS

# Malformed heads: too short, empty, a wrong byte at each place, a third or a missing digit, a tab, a sign.
HEADS = [
    b"", b"0", b"0088", b"0088 34", b"0088 3", b"0088 34x", b"0088-34 17", b"0088 x4 17", b"0088 3x 17", b"0088 34-17", b"0088  34 17",
    b"0088 4 17", b"0088 034 17",
    b"0088 340 17", b"0088\t34 17", b"0088 34\t17", b"0088 +4 17", b" 0088 34 17", b"088 34 17", b"00088 34 17", "0088 3\u0664 17".encode(),
    b"\xef\xbb\xbf0088 34 17", b"\r",
]

# Schemes of any bytes, compared byte for byte; terms that are not named.
SCHEMES = [
    b"     34 17", b"\0\0\0\0 34 17", b"\xff\xfe\xc0\x80 34 17", b"008\xb8 34 17", "0é8 34 17".encode(), b"0088 00 17", b"0088 33 17",
    b"0088 35 17", b"0088 99 17",
    b"zzzz 99 \xff", b"zzzz 31 x", b"zzzz 31 NL123456789B01",
]

CONTENTS = [
    # a CR belongs to the content; NUL does too
    b"0088 34 17\r", b"0184 34 12345678\r", b"0096 34 1234567890\r", b"0088 34 1\x007", b"0088 34 \x00", b"0060 34 \x00",
    # not UTF-8, where a rule reads, where none does, and where the content would be let through
    b"0088 34 17\xff", b"0060 34 17\xff", b"0088 33 17\xff", b"0184 34 12345678\xc0\xaf", b"0088 34 \xed\xa0\x80", b"0211 34 \xf4\x90\x80\x80",
    b"0088 31 x\xe2\x80",
    b"0088 34 \xc2\xa017", b"0088 34 \xe3\x80\x8017\xe2\x80\xa8", b"0088 34 17\xe2\x80\x8b", b"0088 34 \xef\xbb\xbf17",
]

# What each scheme's rule accepts, and what it refuses.
YES = {
    b"0088": "1234567890128", b"0192": "123456785", b"0184": "DK12345678", b"0208": "0000009797", b"0201": "a1B2c3",
    b"0210": "ABCDEF+1G 2xyz3H", b"9907": "+1234567890",
    b"0211": "IT12345678903", b"0007": "1234567897", b"0151": "01000100000", b"0096": "1234567890", b"0198": "DK12345678", b"0106": "12345678",
    b"0190": "12345678901234567890", b"0217": "123456789012", b"9944": "NL123456789B01",
}
NO = {
    b"0088": "1234567890182", b"0192": "123456784", b"0184": "Dk12345678", b"0208": "0000009700", b"0201": "a1B2c", b"0210": "ABCDEF+1G 2xyzéH",
    b"9907": "12345678901+",
    b"0211": "it12345678904", b"0007": "1234567898", b"0151": "51824753557", b"0096": "123456789O", b"0198": "12345678", b"0106": "1234 5678",
    b"0190": "1234567890123456789", b"0217": "1234567890123", b"9944": "NL123456789b01",
}

OTHERS = """
0088 34 0|0088 34 505|0088 34 550|0192 34 000000140|0192 34 000000000|0208 34 1234567894|0007 34 0000000901|0007 34 0000000091|0151 34 51824753556|
0151 34 10000000000|0211 34 It1|0184 34  12345678""".replace("\n", "").encode().split(b"|")


def lengths():
    """About 1,024 bytes and beyond, read by a rule or by none."""
    for head in (b"0088 34 ", b"0060 34 ", b"0088 35 ", b"0211 34 ", b"0088 48 ", b"0184 34 "):
        yield from (head + b"0" * n for n in (1023, 1024, 1025, 1026, 5000))
    zeros = b"0088 34 " + b"0" * 1022
    yield from (b"0088 34 " + b" " * n + b"17" for n in (1022, 1023))
    yield from (zeros + "é".encode(), zeros + "0é".encode(), zeros + b"00\xff", zeros + b"0\xff", b"0088 3 " + b"0" * 5000, b"x" * 70000)


def every_scheme():
    """Nothing; each scheme both ways and with white around it; the terms of 9907 and of VAT numbers."""
    yield from (scheme + b" 34 " for scheme in sorted(BY_SCHEME))
    yield from (b"0088 31 ", b"0060 34 ")
    for scheme in sorted(YES):
        for term in (34, 29, 61):
            yield from (scheme + b" %d " % term + text.encode() for text in (YES[scheme], NO[scheme], f" {YES[scheme]}\u00a0"))
    for term in SCHEME_TERMS + VAT_TERMS:
        yield from (b"9907 %d 12345678901" % term, b"0192 %d NL123456789B01" % term, b"0192 %d NL1" % term)


def program_input():
    whole_example = [b"0088 34 71", b"0088 34 17", b"0060 34 x"]
    lines = [*whole_example, *HEADS, *SCHEMES, *CONTENTS, *lengths(), *every_scheme(), *OTHERS]
    return b"\n".join(lines) + b"\n0088 34 17"
