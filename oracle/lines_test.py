#!/usr/bin/env python3
"""Holds the built program target/native/checklines against paper/, the rules read in Python: lines_test.py [SEED]

Random and adversarial inputs go through a pipe, in chunks of random sizes with pauses between them; every byte of the output is compared, the answers
and the counts after them. It fails too where a count that a line can raise never went up."""
import os, pathlib, random, subprocess, sys, threading, time

sys.dont_write_bytecode = True  # no folder beside the sources
from paper.answers import UNREAD
from paper.lines import split
from paper.rules import BY_SCHEME, RULES, SCHEME_TERMS, VAT_TERMS
from paper.tally import CELLS, TEXT_LINES, output
from paper.text import WHITE
from worked.program_lines import program_input

ROOT = pathlib.Path(__file__).resolve().parent.parent
PROGRAM = ROOT / "target" / "native" / "checklines"
TERMS = SCHEME_TERMS + VAT_TERMS

# ---- contents


def number(rng, n):
    return "".join(rng.choice("0123456789") for _ in range(n))


def completed(scheme, candidates):
    """The first of some numbers that the scheme's rule accepts."""
    rule = RULES[BY_SCHEME[scheme]]
    return next((c for c in candidates if rule.reason(c) == 0), "0")


def good(rng, scheme):
    """A text that the scheme's rule accepts."""
    n = lambda k: number(rng, k)
    letters = lambda k: "".join(rng.choice("ABCDEFGHIJKLMNOPQRSTUVWXYZabcxyz") for _ in range(k))
    if scheme in (b"0088", b"0192", b"0007"):
        while True:
            body = n({b"0088": rng.choice((1, 12, 13, 19)), b"0192": 8, b"0007": 9}[scheme])
            found = completed(scheme, [body + d for d in "0123456789"])
            if found != "0":
                return found
    if scheme == b"0208":
        body = n(8)
        return completed(scheme, [body + "%02d" % k for k in range(1, 98)])
    if scheme == b"0151":
        body = n(9)
        return completed(scheme, ["%02d" % k + body for k in range(11, 100)])
    if scheme == b"0211":
        body = n(10)
        return completed(scheme, [rng.choice(("IT", "it")) + body + d for d in "0123456789"] + ["it" + body + d for d in "0123456789"])
    return {
        b"0184": lambda: rng.choice(("DK", "")) + n(8), b"0201": lambda: letters(3) + n(3),
        b"0210": lambda: letters(6) + n(2) + letters(1) + n(2) + letters(1) + n(3) + letters(1), b"9907": lambda: n(11),
        b"0096": lambda: n(10), b"0198": lambda: "DK" + n(8), b"0106": lambda: n(8), b"0190": lambda: n(20),
        b"0217": lambda: n(12), b"9944": lambda: "NL" + n(9) + "B" + n(2),
    }[scheme]()


def damaged(rng, text):
    """A text with one thing wrong, or only white about it."""
    i = rng.randrange(len(text) + 1)
    white = chr(rng.choice(sorted(WHITE - {10})))
    kind = rng.randrange(6)
    if kind == 0:
        return text[:i] + rng.choice("0123456789XIT+-é\u200b") + text[i + 1:]
    if kind == 1:
        return text[:i] + text[i + 1:]
    if kind == 2:
        return text[:i] + white * rng.randrange(1, 3) + text[i:]
    if kind == 3:
        return white + text + white
    if kind == 4:
        return text[:i] + rng.choice("0123456789") + text[i:]
    return text[:i] + text[i + 1:i + 2] + text[i:i + 1] + text[i + 2:]


def content(rng, scheme):
    text = good(rng, scheme)
    for _ in range(rng.choice((0, 0, 1, 1, 2))):
        text = damaged(rng, text)
    data = text.encode()
    kind = rng.randrange(40)
    if kind == 0:
        i = rng.randrange(len(data) + 1)
        data = data[:i] + rng.choice((b"\xff", b"\xc0\xaf", b"\xed\xa0\x80", b"\xf4\x90\x80\x80", b"\xe2\x80", b"\0")) + data[i:]
    elif kind == 1:
        data = b" " * rng.randrange(1000, 1040) + data
    elif kind == 2:
        data = data[:1] * rng.choice((1023, 1024, 1025, 1026, 5000))
    return data.replace(b"\n", b" ")


# ---- inputs


def line(rng):
    scheme = rng.choice(sorted(BY_SCHEME))
    term = rng.choice(TERMS + (34, 34, 34, 49, 29))
    text = content(rng, scheme)
    kind = rng.randrange(30)
    head = scheme + b" %02d " % term
    if kind == 0:
        head = bytes(rng.choice(b"0149 8\0\xffA") for _ in range(8))
    elif kind == 1:
        head = head[:rng.randrange(9)]
        text = text[:rng.choice((0, 0, 5))]
    elif kind == 2:
        head = rng.choice((b"0060", b"    ", b"\0\0\0\0", b"008\xff")) + head[4:]
    elif kind == 3:
        head = head[:5] + b"%02d " % rng.randrange(100)
    elif kind == 4:
        head = scheme + b" 3%d4 " % rng.randrange(10)
    elif kind == 5:
        text = b"NL" + text if rng.random() < 0.5 else good(rng, b"9944").encode()
        head = scheme + b" %d " % rng.choice(VAT_TERMS)
    elif kind == 6:
        text += b"\r"
    return head + text


def usual(rng):
    return b"\n".join(line(rng) for _ in range(rng.randrange(1, 250))) + rng.choice((b"", b"\n", b"\n\n"))


def short_lines(rng):
    """More output than input: the output area fills before the window is used up."""
    return b"".join(rng.choice((b"\n", b"\n", b"x\n", b"0088 34\n")) for _ in range(rng.randrange(1, 40000)))


def long_lines(rng):
    """Lines about 1,033 bytes, about the window's 65,536 and up to 200,000."""
    parts = []
    for _ in range(rng.randrange(1, 5)):
        n = rng.choice((1024, 1025, 1026, 1032, 1033, 1034, 65520, 65535, 65536, 65537, 66569, 131072, rng.randrange(200000), 200000))
        head = rng.choice((b"0088 34 ", b"0060 34 ", b"0088 35 ", b"0088 3x ", b"0211 34 "))
        fill = rng.choice((b"1", b"0", b" ", b"\0", b"\xff", "é".encode()))
        parts.append((head + fill * n)[:rng.choice((n, n + 8))])
        parts += [line(rng) for _ in range(rng.randrange(3))]
    return b"\n".join(parts) + rng.choice((b"", b"\n"))


def at_the_edge(rng):
    """Lines that begin or end about the end of a full window."""
    first = line(rng)
    start = 65536 + rng.randrange(-40, 40)
    pad = max(0, start - len(first) - 2)
    return first + b"\n" + b"0088 34 " + b"7" * pad + b"\n" + usual(rng)


def any_bytes(rng):
    return bytes(rng.choice(b"0 8\n\n34\xc2\xa0\0") for _ in range(rng.randrange(0, 4000)))


KINDS = (usual, usual, usual, usual, usual, usual, short_lines, long_lines, at_the_edge, any_bytes)

# ---- running


def run(data, rng):
    """The program's output on an input that is cut at random places, and in how many pieces it was cut."""
    process = subprocess.Popen([PROGRAM], stdin=subprocess.PIPE, stdout=subprocess.PIPE, bufsize=0)
    got = []
    reader = threading.Thread(target=lambda: got.append(process.stdout.read()))
    reader.start()
    most = rng.choice((3, 50, 1033, 5000, 65536, 400000))
    at, cuts = 0, 0
    try:
        while at < len(data):
            # a few hundred pieces are enough; what is left goes in larger ones
            n = rng.randrange(1, (most if cuts < 200 else 400000) + 1)
            sent = os.write(process.stdin.fileno(), data[at:at + n])
            at += sent
            cuts += 1
            if cuts < 60:
                time.sleep(rng.choice((0, 0, 0.0002, 0.0005)))
    except BrokenPipeError:
        pass
    process.stdin.close()
    reader.join()
    process.wait()
    return got[0], cuts


#: The counts that a line can raise: a rule that is about every content lets none through unread.
REACHED = [(rule, verdict) for rule, verdict in CELLS if verdict != UNREAD or RULES[rule].prefixes != ("",)]


def compare(seed):
    rng = random.Random(seed)
    fixed = [b"", b"\n", b"x", b"0088 34 ", b"0088 34 17", b"0088 34 71\n0088 34 17\n0060 34 x\n", program_input()]
    seen, inputs, lines, size, pieces, wrong = set(), 0, 0, 0, 0, 0
    began = time.time()
    while inputs < 360:
        data = fixed[inputs] if inputs < len(fixed) else KINDS[inputs % len(KINDS)](rng)
        want = output(data)
        got, cuts = run(data, rng)
        answers = want.splitlines()[:-TEXT_LINES]
        seen.update(answers)
        inputs, lines, size, pieces = inputs + 1, lines + len(answers), size + len(data), pieces + cuts
        if got != want:
            wrong += 1
            report(inputs, data, want, got)
    print(f"checklines: {inputs} inputs of {lines:,} lines and {size:,} bytes in {pieces:,} pieces, "
          f"{len(seen)} different answers, {wrong} differences ({time.time() - began:.0f} s, seed {seed})")
    counted = {(int(rule), int(verdict)) for verdict, rule, *_ in map(bytes.split, seen)}
    missing = [cell for cell in REACHED if cell not in counted]
    print(f"{len(REACHED) - len(missing)} of the {len(REACHED)} counts that a line can raise went up")
    return wrong == 0 and not missing


def report(index, data, want, got):
    """The first line of the output that differs: an answer, with its line, or a line of the counts."""
    ours, theirs = got.split(b"\n"), want.split(b"\n")
    lines = split(data)
    at = next(i for i in range(max(len(ours), len(theirs))) if ours[i:i + 1] != theirs[i:i + 1])
    place = f"line {at + 1}: {lines[at][:80]!r} of {len(lines[at])} bytes" if at < len(lines) else f"line {at + 1 - len(lines)} of the counts"
    print(f"input {index}, {place}: paper {theirs[at:at + 1]}, program {ours[at:at + 1]}")


def main(words):
    if not PROGRAM.exists():
        print(f"{PROGRAM} is not built: run `make` first")
        return False
    return compare(int(words[0]) if words else 1)


if __name__ == "__main__":
    sys.exit(0 if main(sys.argv[1:]) else 1)
