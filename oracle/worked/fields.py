"""Examples of the field check, and of the check figures by themselves."""
from paper.rules import BY_SCHEME, SCHEME_TERMS, VAT_TERMS

from .commands import joined

CODICE = [
    # 16 points, with integer texts of every kind in the two groups
    "ABCDEF+1G 2xyz3H", "RSSMRA85T10A562S", "abcdef-1g+2xyz3h", "ABCDEF 1G 2xyz3H", "ABCDEF1 G 2xyz3H", "ABCDEF\u00a01G 2xyz3H",
    # one group wrong, from the left
    "1SSMRA85T10A562S", "ABCDE1+1G 2xyz3H", "éBCDEF+1G 2xyz3H", "RSSMRA8XT10A562S", "ABCDEF++G 2xyz3H", "ABCDEF  G 2xyz3H", "ABCDEF+18 2xyz3H",
    "ABCDEF+1G2-xyz3H",
    "RSSMRA85T10A56SS", "ABCDEF+1G 2xyz+H", "ABCDEF+1G 2xyz33",
    # 11 points of an integer text
    "+1234567890", "12345678901", "++123456789", "+123456789x", "1234567890a",
    # another length: points are counted and not bytes, once white at the ends is gone
    "", "\u00a01234567890", "\u00a0123456789", "RSSMRA85T10A562", "1234567890", "123456789012", "ABCDEF12G34€€€5H", "ABCDEF12G34€5H",
    "ABCDEF+1G 2é€😀3H", "ABCDEF+1G 2é€😀3!", "ABCDEF+1G 2xé3H",
    b"ABCDEF+1G 2xyz3\xc3",
]

# What a rule says of a content by its scheme, at the term 34.
FIELDS = {
    "0088": ["0", "", "1234567890128", "505", "550", "\u00a017", "71", "17", "1234567890127", "12a", "1 7", " 17 ", "\u200b17", "-17",
             "0" * 1024, "１７", "1" * 1024],
    "0192": ["123456785", "000000140", "000000000", "123456784", "12345678", "1234567850", "12345678X", "\t123456785\n"],
    "0184": ["12345678", "DK12345678", " 12345678", "12345678 ", "dk12345678", "Dk12345678", "DK1234567", "DK1234567x", "DK123456",
             "1234567890", "", "DK123456789"],
    "0208": ["1234567894", "0000009797", "0000009700", "1234567895", "123456789", "0123.456.789", " 0000009797"],
    "0201": ["ABC123", "abcdef", "000000", "aZ09bY", "aZ0 bY", "aZ09b[", "aZ09b", "ABC12", "ABC1234", "ABC-12", "ABÉ12"],
    "0210": CODICE,
    "0211": ["IT12345678903", "it12345678903", "IT12345678904", "IT1234567890", "IT1234567890x", "it", "It1", "It12345678903", "",
             "iT12345678903", "DE123", "I", " ",
             " IT12345678903", "IT 12345678903"],
    "0007": ["1234567897", "0000000901", "0000000091", "1234567896", "123456789", "123456-7897", "0000000000"],
    "0151": ["51824753556", "10000000000", "01000100000", "00000000000", "51824753557", "5182475355", "51 824 753 556", "99999999999"],
    "0096": ["1234567890", " 1234567890", "123456789", "123456789a"],
    "0198": ["DK12345678", "12345678", "DK12345678 ", "Dk12345678", "KD12345678"],
    "0106": ["12345678", " 12345678", "1234567", "123456789"],
    "0190": ["12345678901234567890", "1234567890123456789", "123456789012345678901"],
    "0217": ["123456789012", "12345678901", "1234567890123"],
    "9944": ["NL123456789B12", "\u2003NL123456789B12", "NL123456789B01", "NL123456789B1", "NL123456789B0", "NL123456789C12", "NL123456789b01",
             "NL123456789B0:",
             "nl123456789B12", "nl123456789B01", ""],
}

# A content that each scheme's rule accepts, tried at every term; terms that are none, beside one, and the ends of the numbers.
ACCEPTED = {scheme: contents[0] for scheme, contents in FIELDS.items()} | {"0088": "1234567890128", "0210": "+1234567890", "9907": "+1234567890"}
TERMS = (*SCHEME_TERMS, *VAT_TERMS, 28, 32, 33, 35, 45, 50, 59, 62, 64, 0, 99, 255, 2**32 - 1)


def examples():
    for scheme, contents in FIELDS.items():
        yield from (("c", joined(scheme, 34, content)) for content in contents)
    yield from (("c", joined("9907", 49, content)) for content in CODICE)
    # VAT numbers, whatever the scheme is
    for term in VAT_TERMS:
        for scheme, content in (("0088", "NL123456789B12"), ("0088", "NL1"), ("0088", "DE123456789"), ("", ""), ("zzzzz", "NL123456789b12"), ("9944", "nl123456789B12"),
                                ("", "\u00a0NL123456789B12")):
            yield "c", joined(scheme, term, content)
    # too long and not UTF-8: read by a rule, let through by it, read by none
    yield from (("c", joined(*field)) for field in (
        ("0088", 34, "1" * 1025), ("0088", 34, b"1" * 1024 + b"\xff"), ("0088", 34, b"\xff"), ("0088", 34, b"1" * 1023 + b"\xff"), ("0211", 34, "x" * 1025),
        ("0211", 34, b"DE\xff"), ("0184", 34, "x" * 1025), ("0184", 34, b"1234567\xff"), ("0184", 34, "x" * 1024), ("", 31, b"NL\xed\xa0\x80"),
        ("", 63, "D" * 1025), ("0060", 34, "x" * 1025), ("0060", 34, b"\xff"), ("0088", 28, b"\xff"), ("0088", 33, "1" * 1025)))
    # schemes of no rule, and near misses
    for scheme in ("", "008", "00888", "0089", "0088\u00a0", "\u06600088", "008\0", "9901", "0060", "0000", "iso6523-actorid-upis"):
        yield "c", joined(scheme, 34, "17")
    for scheme in BY_SCHEME:
        yield from (("c", joined(scheme, term, ACCEPTED[scheme.decode()])) for term in TERMS)


# Check figures, with the place where a form is not met.
FIGURES = {
    40: "0 1234567890128 505 550 17 71 1234567890129 2234567890128 1234567890182 7300010000001 12345678901234567895 12345678901234567894 99999999999999999999".split()
        + ["", "12 4", "1234567890 28", "123456789012B", "-17", "1234567890128 "],
    41: "123456785 123456784 000000140 999999999 974760673 923609016 974760674 794760673 000000000 000000001".split()
        + ["12345678", "00000000", "1234567850", "0000000000", "12345678x", "12345678:", ":23456785", "/23456785"],
    43: "1234567894 1234567895 0000009797 0000009700 0000000097 0000000000 0202239951 0202239950 0220239951 9999999948 0000000196 0000000198".split()
        + ["123456789", "12345678 4", "123456789/"],
    49: "1234567897 0000000901 0000000091 0000000000 5560360793 5560360739 5560360794 1234567890".split() + ["123456789", "12345678970", "556036-079"],
    50: "51824753556 51824753557 10000000000 01000100000 00000000000 99999999999 51824753565 15824753556 53004085616 53004085617".split()
        + ["5182475355", "0100010000", "51 82475355", "5182475355O"],
    47: "IT12345678903 it12345678903 IT00000000000 IT07643520567 IT07643520576 IT12345678904".split()
        + ["IT1234567890", "IT12345678O03", "IT1234567890x", "It12345678903", "iT12345678903", "DE12345678903", "12345678903", "i", ""],
}


def figures():
    for rule, texts in FIGURES.items():
        yield from (("f", joined(rule, content)) for content in texts)
