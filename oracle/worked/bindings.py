"""bindings/cases.txt, which every binding's test runs: its words, and the answers of paper."""
import re

from paper import accounts, corrections, lines, rules, tally, text
from paper.answers import Refusal

ENOUGH = 1024


def word_bytes(word):
    """`{n:text}` is the text n times, `\\hh` the byte of that hexadecimal number."""
    repeated = re.sub(rb"\{(\d+):([^}]*)\}", lambda m: m[2] * int(m[1]), word)
    return re.sub(rb"\\([0-9a-f]{2})", lambda m: bytes.fromhex(m[1].decode()), repeated)


def words(line):
    return [word_bytes(quoted or plain) for quoted, plain in re.findall(rb"'([^']*)'|([^ ']+)", line)]


def settled(work):
    """0 and what was written, or the reason of the refusal."""
    try:
        return [0, *work()]
    except Refusal as refusal:
        return [refusal.reason]


def withdrawn(code):
    successor = accounts.WITHDRAWN.get(code, b"")
    return [0] if successor == b"" else [2, successor] if successor else [1]


def decode(content, at):
    code, length = text.point(content, int(at)) or (0, 0)
    return [f"{code:x}", length]


def tallied(given, feed):
    """The answers that a tally of these counts gives, and its counts that are not 0."""
    counts = tally.fresh()
    for place, count in (word.split(b":") for word in given):
        counts[int(place)] = int(count)
    answers = [n for answer in feed(counts) for n in answer]
    return answers + [f"{place}:{count}" for place, count in enumerate(counts) if count]


CALLS = {
    "check": lambda scheme, term, content: rules.check(scheme, int(term), content),
    "is_valid_iban_checksum": accounts.iban,
    "is_valid_creditor_identifier": accounts.creditor,
    "eas_value": accounts.strict_gln,
    "withdrawn": withdrawn,
    "complete": lambda scheme, body: settled(lambda: [corrections.complete(scheme, body, ENOUGH)]),
    "list": lambda scheme, content: settled(lambda: corrections.corrections(scheme, content, ENOUGH)),
    "normalize_space": lambda content: settled(lambda: [text.normalized(text.readable(content))]),
    "strip": lambda content: settled(lambda: [text.stripped(text.readable(content))]),
    "decode": decode,
    "is_white": lambda *codes: sorted({int(int(code, 16) in text.WHITE) for code in codes}),
    "answer_line": lines.answer_line,
    "answer_lines": lambda content: [n for line in lines.split(content) for n in lines.answer_line(line.removesuffix(b"\n"))],
    "tally_line": lambda line, *given: tallied(given, lambda counts: [tally.tally_line(line, counts)]),
    "tally_lines": lambda content, *given: tallied(given, lambda counts: tally.tally_lines(content, counts, 4 * len(content))[0]),
}


def cases(source):
    """What each case tells, and what is right."""
    for line in source.splitlines():
        if line and not line.startswith(b"#"):
            call, told = line.split(b" =>")
            function, arguments = call.split(b" ", 1)
            right = CALLS[function.decode()](*words(arguments))
            yield call[:60].decode(), words(told), [w if isinstance(w, bytes) else str(w).encode() for w in right]
