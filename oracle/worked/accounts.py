"""Examples of IBAN, creditor identifier, strict GLN and the withdrawn codes."""
from .commands import joined

SHORT_ACCOUNTS = [
    # the shortest, either case; a wrong figure; too short; a digit, a letter or a stranger in the wrong place
    "AA750", "aa750", "AA751", "AA740", "AA75", "aa75", "A750", "1A750", "A1750", "A175 ", "AAA50", "AA7A0", "AA75-", "AA75Ö", "",
    # pairs that leave the same remainder; white within and around
    "AA0171", "AA9871", "AA75 0", "\u00a0AA750\u3000", " AA 7\t5\u00a00", "AA75\u200b0", "AA75-0",
    # the longest and one more; not UTF-8; too long
    "AA" + "0" * 32, "AA" + "0" * 33, "AA" + "0" * 34, b"AA75\xff", "A" * 1025, b"\xff" * 1025,
    "zZ78A1b2C3d4E5f6G7h8I9j0K1l2M3n4O5", "zZ84A1b2C3d4E5f6G7h8I9j0K1l2M3n4O5x", "zZ84A1b2C3d4E5f6G7h8I9j0K1l2M3n4O5x0",
    "GB82 WEST 1234 5698 7654 32", "GB28 WEST 1234 5698 7654 32",
]

IBANS = [
    "AD12 0001 2030 2003 5910 0100", "AT61 1904 3002 3457 3201", "BE68 5390 0754 7034", "CH93 0076 2011 6238 5295 7", "CZ65 0800 0000 1920 0014 5399",
    "DE89 3704 0044 0532 0130 00", "DK50 0040 0440 1162 43", "ES91 2100 0418 4502 0005 1332", "FI21 1234 5600 0007 85", "FR14 2004 1010 0505 0001 3M02 606",
    "GB29 NWBK 6016 1331 9268 19", "IE29 AIBK 9311 5212 3456 78", "IT60 X054 2811 1010 0000 0123 456", "LV80 BANK 0000 4351 9500 1",
    "MT84 MALT 0110 0001 2345 MTLC AST0 01S", "NL91 ABNA 0417 1643 00", "NO93 8601 1117 947", "PL61 1090 1014 0000 0712 1981 2874",
    "PT50 0002 0123 1234 5678 9015 4", "SE45 5000 0000 0583 9825 7466",
]

CREDITORS = [
    "DE98ZZZ09999999999", "DE98 ZZZ0 9999 9999 99", "AT61ZZZ01234567890", "ES50ZZZM23456789", "FR72ZZZ123456", "IT66ZZZA1B2C3D4E5F6G7H",
    "NL97ZZZ123456780001",
    "fr72zzz123456", "DE98ZZZ", "DE98ZZZ0", "D198ZZZ0", "DEA8ZZZ0", "DE98ZZZ-0", "DE98ZZ_0", "\u2003DE98ZZZ0", "DE98ZZÉ0", b"DE98ZZZ\xc2", "AA" + "0" * 33,
]

STRICT = {
    "0088": ["1234567890128", "1234567890127", "2134567890128", "123456789012", "12345678901280", " 1234567890128", "1234567890128 ",
             "123456789012 ", "123456789012A", "",
             "0", "505", "0" * 12, "0" * 13, "0" * 14, "1" * 1025, b"1" * 1024 + b"\xff", b"123456789012\xff", "１" * 13],
    "0089": ["1234567890127", b"\xff"], "008": ["1234567890127", "1234567890128"], "00888": ["1234567890127"], "00880": ["1234567890128"],
    "": ["1234567890127"],
    "0192": ["1234567890127"], "0060": ["1234567890128"], "9901": ["0" * 1025],
}

CODES = [
    *(f"99{n:02}" for n in (*range(9), 16, 17, 18, 20, 21, 22, *range(53, 60))), "0088", "0096",
    "", "none", " 9901", "990", "9901 ", "99010", "9905 none", "9901 0096",
]


def next_character(c):
    return chr(ord(c) + 1) if c not in "9Z" else "0" if c == "9" else "A"


def examples():
    for command in "ir":
        yield from ((command, content) for content in SHORT_ACCOUNTS + CREDITORS)
    for iban in IBANS:
        bare = iban.replace(" ", "")
        yield from (("i", content) for content in (iban, bare, iban.lower(), f"  {iban}\t"))
    # one character replaced by the next one, at every place
    for bare in (iban.replace(" ", "") for iban in IBANS[:11]):
        yield from (("i", bare[:at] + next_character(c) + bare[at + 1:]) for at, c in enumerate(bare))
    for scheme, contents in STRICT.items():
        yield from (("g", joined(scheme, content)) for content in contents)
    yield from (("w", code) for code in CODES)
