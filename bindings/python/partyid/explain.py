"""A refusal in words: why, what the rule asks for, and every correction."""

from __future__ import annotations

import functools

from .answers import Answer, Reason, Refusal
from .checks import withdrawn
from .library import answer_of
from .listing import corrections
from .tables import LINE_FORM, LISTED, TERM_FORM, Rule, rule_of

LOOK_UP = "A number that a rule accepts need not be any party's: look it up before you take it."
_SHOWN = 100
_NO_RULE = answer_of(0, 0, 0, 0)


def shown(line: bytes) -> str:
    """A line for the screen, its beginning if it is long. What is not printable ASCII is shown by its number, as <U+00A0> or <byte FF>."""
    text = line[: 4 * _SHOWN].decode("utf-8", "surrogateescape")
    start = text[:_SHOWN]
    plain = start.isascii() and start.isprintable()
    return (start if plain else "".join(map(_visible, start))) + (" .." if len(text) > _SHOWN else "")


def _visible(character: str) -> str:
    code = ord(character)
    if 0x20 <= code < 0x7F:
        return character
    return f"<byte {code - 0xDC00:02X}>" if 0xDC80 <= code <= 0xDCFF else f"<U+{code:04X}>"


@functools.lru_cache(maxsize=4096)
def no_rule(scheme: bytes) -> str:
    """That there is no rule, and that the scheme is withdrawn where it is."""
    code = withdrawn(scheme)
    return f"{_NO_RULE}; scheme {shown(scheme)} is {code}" if code else str(_NO_RULE)


def told(answer: Answer, scheme: bytes) -> str:
    """An answer in words; the scheme is looked at where it has no rule."""
    return no_rule(scheme) if answer == _NO_RULE else str(answer)


def refusal_told(answer: Answer, content: bytes) -> list[str]:
    """What a refused content would have to be, and its corrections."""
    if answer.reason is Reason.LINE:
        return [LINE_FORM]
    if answer.reason is Reason.TERM:
        return [TERM_FORM]
    rule = rule_of(answer.rule)
    return [f"rule {rule.number} ({rule.whose}) asks for {rule.asks}", _corrections_told(rule, content)] if rule else []


def _corrections_told(rule: Rule, content: bytes) -> str:
    if not rule.listed:
        return f"corrections are listed for {', '.join(LISTED)} only"
    try:
        found = corrections(rule.scheme, content)
    except Refusal as refusal:
        return f"no corrections: they are listed of {rule.listed} only" if refusal.reason is Reason.FORM else f"no corrections: {refusal}"
    if not found:
        return "no number that the rule accepts is one slip away"
    return f"one slip away, and accepted by the rule ({len(found)}): {' '.join(found)}"
