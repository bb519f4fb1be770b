"""The commands of `cases` and `replay` (crates/examples/README.md), answered by paper."""
import re

from paper import accounts, corrections, lines, rules, tally, text
from paper.answers import FORM, Refusal


def escaped(content):
    """Plain ASCII as it is; any other byte, and `\\`, as `\\` and two hexadecimal digits."""
    return "".join(chr(b) if 0x20 <= b < 0x7F and b != 0x5C else f"\\{b:02x}" for b in content)


def unescaped(line):
    return re.sub(rb"\\([0-9a-f]{2})", lambda m: bytes([int(m[1], 16)]), line.encode("ascii"))


def raw(field):
    return field if isinstance(field, bytes) else str(field).encode()


def joined(*words):
    return b" ".join(map(raw, words))


def numbers(answer):
    return " ".join(map(str, answer))


def step(content, at):
    point = text.point(content, at)
    if point is None:
        return "refused"
    return f"{point[0]:04x}/{point[1]}" + "/white" * (point[0] in text.WHITE)


def steps(content):
    return " ".join(step(content, at) for at in range(len(content) + 1))


def written(change):
    def answer(content):
        try:
            found = change(text.readable(content)).encode()
        except Refusal as refusal:
            return f"{refusal.reason} 0 "
        return f"0 {len(found)} {escaped(found)}"
    return answer


def decimal(word):
    return min(int(word), 2**32 - 1)


def check(scheme, term, content):
    return numbers(rules.check(scheme, decimal(term), content))


def figure(number, content):
    rule, found = rules.RULES[int(number)], content.decode("latin-1")
    reason = rule.reason(found)
    return f"{reason} {rule.form(found)}" if reason == FORM else str(reason)


def withdrawn(code):
    if code not in accounts.WITHDRAWN:
        return "not withdrawn"
    successor = accounts.WITHDRAWN[code]
    return f"withdrawn, use {successor.decode()}" if successor else "withdrawn"


def work(does):
    """The reason, the count, and the whole area, which was so many dots."""
    def answer(room, scheme, content):
        room = min(int(room), 1024)
        try:
            found = does(scheme, content, room)
        except Refusal as refusal:
            return f"{refusal.reason} 0 " + "." * room
        return f"0 {len(found)} " + "".join(found).ljust(room, ".")
    return answer


def batch(room, content, answer_lines=lines.answer_lines):
    """How many lines and bytes were answered, and the whole area, which was so many numbers 999."""
    room = min(int(room), 64)
    answered, used = answer_lines(content, room)
    area = [number for answer in answered for number in answer]
    return numbers([len(answered), used] + area + [999] * (room - len(area)))


def tallied_batch(room, content):
    """The same, and every count of a tally that was fresh."""
    counts = tally.fresh()
    shown = batch(room, content, lambda data, room: tally.tally_lines(data, counts, room))
    return f"{shown} {numbers(counts)}"


def tallied_line(cell, count, line):
    """The answer, and every count of a tally that was zeros but for one count."""
    counts = tally.fresh()
    counts[decimal(cell) % len(counts)] = decimal(count)
    answer = tally.tally_line(line, counts)
    return f"{numbers(answer)} {numbers(counts)}"


# letter: how many words it reads, the content being the last, and its answer
COMMANDS = {
    "d": (1, steps),
    "n": (1, written(text.normalized)),
    "s": (1, written(text.stripped)),
    "c": (3, check),
    "f": (2, figure),
    "i": (1, lambda content: numbers(accounts.iban(content))),
    "r": (1, lambda content: numbers(accounts.creditor(content))),
    "g": (2, lambda scheme, content: numbers(accounts.strict_gln(scheme, content))),
    "w": (1, withdrawn),
    "k": (3, work(corrections.complete)),
    "l": (3, work(corrections.corrections)),
    "a": (1, lambda line: numbers(lines.answer_line(line))),
    "b": (2, batch),
    "t": (2, tallied_batch),
    "T": (3, tallied_line),
}


def answered(line):
    """An example with its answer behind it, as the programs write it."""
    words, answer = COMMANDS[line[0]]
    return f"{line} => {answer(*unescaped(line[2:]).split(b' ', words - 1))}"
