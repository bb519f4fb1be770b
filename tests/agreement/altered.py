"""Copies of the header and of the words' source, each altered in one place. A comparison that agrees with one of them does not compare that place."""
from __future__ import annotations

import re
from collections.abc import Callable, Iterator

from .header import CONSTANT, ENUM, FUNCTION, INLINE, STRUCT, items, without_comments

OTHER_TYPE = {
    "uint32_t": "uint64_t",
    "size_t": "uint32_t",
    "const void *": "void *",
    "void *": "const void *",
    "uint32_t *": "uint64_t *",
    "const uint32_t *": "uint32_t *",
    "struct partyid_answer *": "struct partyid_done *",
    "uint8_t": "uint16_t",
}


def renumbered(item: str) -> str:
    """The first number behind an = or in brackets, one higher."""
    return re.sub(r"(= |\[)(\d+)", lambda m: f"{m[1]}{int(m[2]) + 1}", item)


def renamed(item: str) -> str:
    """The declared name: the last of a type and a name, the first of a name and a number."""
    return re.sub(r"(\w+)(\s*(?:=.*|\[\d+\])?\s*)$", r"\1_other\2", item)


def retyped(item: str) -> str:
    found = re.search(r"(?:const )?(?:struct )?\w+(?: \*|(?= ))", item)
    return item.replace(found[0], OTHER_TYPE[found[0]], 1) if found and found[0] in OTHER_TYPE else item


def lists_altered(parts: list[str], changes: list[Callable[[str], str]]) -> Iterator[list[str]]:
    """Each item changed, left out, followed by another, and exchanged with the next."""
    for i, part in enumerate(parts):
        for change in changes:
            if change(part) != part:
                yield [*parts[:i], change(part), *parts[i + 1 :]]
        yield [*parts[:i], *parts[i + 1 :]]
        yield [*parts[: i + 1], renamed(part), *parts[i + 1 :]]
        if i + 1 < len(parts):
            yield [*parts[:i], parts[i + 1], part, *parts[i + 2 :]]


def bodies(text: str, pattern: re.Pattern[str], group: int, separator: str, changes: list[Callable[[str], str]]) -> Iterator[str]:
    for match in pattern.finditer(text):
        for parts in lists_altered(items(match[group], separator), changes):
            yield text[: match.start(group)] + separator.join(parts) + (";" if separator == ";" else "") + text[match.end(group) :]


def declarations(text: str, pattern: re.Pattern[str], name: int) -> Iterator[str]:
    """Each declaration renamed, left out, and with a second one of another name."""
    for match in pattern.finditer(text):
        other = text[: match.start(name)] + match[name].replace("artyid_", "artyid_other_").replace("ARTYID_", "ARTYID_OTHER_") + text[match.end(name) :]
        yield other
        yield text[: match.start()] + text[match.end() :]
        second = other[match.start() : match.end() + len(other) - len(text)]
        yield text[: match.end()] + "\n" + second + text[match.end() :]


def results(text: str) -> Iterator[str]:
    for match in (*FUNCTION.finditer(text), *INLINE.finditer(text)):
        for other in ("struct partyid_answer ", "struct partyid_done ", "bool ", "uint32_t ", "const char *"):
            if other != match[1]:
                yield text[: match.start(1)] + other + text[match.end(1) :]


def returned(text: str) -> Iterator[str]:
    """Each word of what an inline function returns, another one."""
    for match in INLINE.finditer(text):
        for word in re.finditer(r"\w+|[?:&*]|==|->", match[4]):
            at = match.start(4) + word.start()
            yield text[:at] + f"other({word[0]})" + text[at + len(word[0]) :]


def values(text: str) -> Iterator[str]:
    """Each number in a constant, one higher; and an argument without its brackets."""
    for match in CONSTANT.finditer(text):
        for number in re.finditer(r"\b\d+\b", match[2]):
            at = match.start(2) + number.start()
            yield text[:at] + str(int(number[0]) + 1) + text[at + len(number[0]) :]
        if "(n)" in match[2]:
            yield text[: match.start(2)] + match[2].replace("(n)", "n") + text[match.end(2) :]


def strangers(text: str) -> Iterator[str]:
    """Things that a header may have and this one has not."""
    for line in ("typedef int partyid_kind;", "extern int partyid_state;", "#define PARTYID_OTHER 1", "#include <stdio.h>", "union partyid_any { int n; };"):
        yield text.replace("\nenum partyid_verdict", f"\n{line}\nenum partyid_verdict")
    yield text.replace(", void *area", ", ...")
    yield text.replace("(void)", "()")
    yield text.replace("static inline ", "")


WORDS = re.compile(r"(?<=\] = )\"[^\"]*\"")
RULES = re.compile(r"(?<=rules\[\] = )\{[^}]*\}")

# each a place in the source of the words, and what it is altered to
OTHERWISE = {
    '"unknown"': '"no reason"',
    "number < count": "number < count - 1",
    "return PARTYID_VERSION;": 'return "0.0.0";',
    "VERDICTS = 3": "VERDICTS = 2",
    "return counts[NO_RULE];": "return counts[REFUSED_WITHOUT_RULE];",
    "return counts[REFUSED_WITHOUT_RULE];": "return counts[NO_RULE];",
    "        return 0;": "        return counts[NO_RULE];",
    "verdict <= PARTYID_VERDICT_UNREAD": "verdict <= PARTYID_VERDICT_UNREAD + 1",
    "    return 0;\n}": "    return counts[0];\n}",
}


def exchanged(source: str, found: list[re.Match[str]]) -> Iterator[str]:
    """Each exchanged with the next."""
    for one, next_one in zip(found, found[1:]):
        yield source[: one.start()] + next_one[0] + source[one.end() : next_one.start()] + one[0] + source[next_one.end() :]


def altered_words(source: str) -> Iterator[str]:
    """Each word another one, left out, and exchanged with the next; each rule of a tally another one, and exchanged; and what is told above."""
    found = list(WORDS.finditer(source))
    for match in found:
        yield source[: match.start()] + '"other words"' + source[match.end() :]
        yield source[: match.start()] + "0" + source[match.end() :]
    yield from exchanged(source, found)
    table = RULES.search(source)
    rules = list(re.compile(r"\d+").finditer(source, *table.span())) if table else []
    for match in rules:
        yield source[: match.start()] + str(int(match[0]) + 100) + source[match.end() :]
    yield from exchanged(source, rules)
    for place, other in OTHERWISE.items():
        yield source.replace(place, other, 1)


def altered_headers(source: str) -> Iterator[str]:
    text = without_comments(source)
    yield from bodies(text, ENUM, 2, ",", [renumbered, renamed])
    yield from bodies(text, STRUCT, 2, ";", [renumbered, renamed, retyped])
    yield from bodies(text, FUNCTION, 3, ",", [renamed, retyped])
    yield from bodies(text, INLINE, 3, ",", [renamed, retyped])
    yield from results(text)
    yield from returned(text)
    yield from values(text)
    yield from strangers(text)
    for pattern, name in ((ENUM, 1), (STRUCT, 1), (FUNCTION, 2), (INLINE, 2), (CONSTANT, 1)):
        yield from declarations(text, pattern, name)
