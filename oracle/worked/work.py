"""Examples of completing and listing."""
from .commands import joined

BODIES = {
    "0088": ["7", "123456789012", "0", "1", "1234567890123456789"],
    "0192": ["12345678", "00000000", "00000006", "00000014"],
    "0208": ["12345678", "00000097", "00000000"],
    "0007": ["123456789", "000000090"],
    "0151": ["824753556", "000000000", "000000001", "999999999"],
}

NO_BODIES = {
    "0088": ["", "12345678901234567890", "12a", " 1"], "0192": ["1234567", "123456789"], "0208": ["1234567"], "0007": ["12345678"], "0151": ["8247535567"],
    "0184": ["12345678"], "": ["1"], "88": ["1"], "00888": ["1"], "0211": ["1"],
}

# Refused numbers, listed with one byte too little room, with enough and with more.
REFUSED = {
    "0088": ["71", "50", "1", "9", "1234567890127", "12345678901234567891"],
    "0192": ["123456784", "000000000", "000000001", "000000014"],
    "0208": ["1234567895", "1234567849", "0000009700", "0000009798"],
    "0007": ["1234567896", "0000000910"],
    "0151": ["51824753557", "00000000000", "15824753556", "51824753565"],
}

# Accepted, of another form or scheme, not readable; and a number with white around it.
OTHERS = {
    "0088": ["17", "", "12345678901234567890", "123456789012345678901", "7a", "7 1", " 71 ", "\u00a071", b"7\xff", "7" * 1025, b"7" * 1025 + b"\xff"],
    "0192": ["123456785", "12345678"], "0208": ["1234567894"], "0007": ["1234567897"], "0151": ["51824753556"], "0184": ["12345678", "71"], "": ["71"],
}


def examples():
    for room in (0, 1, 2, 5):
        for scheme, bodies in BODIES.items():
            yield from (("k", joined(room, scheme, body)) for body in bodies)
    for scheme, bodies in NO_BODIES.items():
        yield from (("k", joined(room, scheme, body)) for room in (2, 4) for body in bodies)
    for scheme, numbers in REFUSED.items():
        for number in numbers:
            enough = (2 * len(number) - 1) * len(number)
            yield from (("l", joined(room, scheme, number)) for room in (enough - 1, enough, enough + 7))
    for scheme, contents in OTHERS.items():
        yield from (("l", joined(room, scheme, content)) for room in (6, 20) for content in contents)
    yield from (("l", field) for field in ("9 0088  71 ", "15 0088 7 1"))
