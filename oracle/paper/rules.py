"""The rules, and the check of a field."""
from typing import Callable, NamedTuple, Optional

from . import figures
from .answers import CHECK, FATAL, FORM, NO_RULE, REFUSED, TERM, UNREAD, WARNING, ZERO, Refusal, judged
from .forms import DANISH, DUTCH, ITALIAN, codice, digits, form
from .text import MOST, normalized, readable


class Rule(NamedTuple):
    severity: int
    scheme: Optional[bytes]
    form: Callable[[str], str]
    figure: Callable[[str], bool] = lambda text: True
    raw: bool = False
    #: What the rule is about; all else it lets through unread.
    prefixes: tuple = ("",)

    def reason(self, text):
        if self.form(text):
            return FORM
        if self.scheme == b"0192" and set(text) == {"0"}:
            return ZERO
        return 0 if self.figure(text) else CHECK


RULES = {
    40: Rule(FATAL, b"0088", digits(1, MOST), figures.gln),
    41: Rule(FATAL, b"0192", digits(9), figures.mod11),
    42: Rule(FATAL, b"0184", form(DANISH, ("#", 8, 8)), raw=True),
    43: Rule(FATAL, b"0208", digits(10), figures.mod97),
    44: Rule(WARNING, b"0201", form(("*", 6, 6))),
    45: Rule(WARNING, b"0210", codice),
    46: Rule(WARNING, b"9907", codice),
    47: Rule(WARNING, b"0211", ITALIAN, figures.italian, prefixes=("IT", "it")),
    49: Rule(FATAL, b"0007", digits(10), figures.luhn),
    50: Rule(FATAL, b"0151", digits(11), figures.abn),
    52: Rule(FATAL, b"0096", digits(10), raw=True),
    53: Rule(FATAL, b"0198", form(DANISH), raw=True),
    54: Rule(WARNING, b"0106", digits(8)),
    55: Rule(WARNING, b"0190", digits(20)),
    57: Rule(WARNING, b"0217", digits(12)),
    561: Rule(WARNING, b"9944", DUTCH),
    562: Rule(WARNING, None, DUTCH, prefixes=("NL",)),
}
BY_SCHEME = {rule.scheme: number for number, rule in RULES.items() if rule.scheme}
SCHEME_TERMS = (29, 30, 34, 46, 47, 49, 60, 61)
VAT_TERMS = (31, 48, 63)


def rule_for(scheme, term):
    if term in VAT_TERMS:
        return 562
    if scheme == b"9907" and term not in (34, 49):
        return None
    return BY_SCHEME.get(scheme)


def check(scheme, term, content):
    if term not in SCHEME_TERMS + VAT_TERMS:
        return REFUSED, 0, 0, TERM
    number = rule_for(scheme, term)
    if number is None:
        return NO_RULE, 0, 0, 0
    rule = RULES[number]
    try:
        text = readable(content)
    except Refusal as refusal:
        return judged(refusal.reason, number, rule.severity)
    text = text if rule.raw else normalized(text)
    if not text.startswith(rule.prefixes):
        return UNREAD, number, rule.severity, 0
    return judged(rule.reason(text), number, rule.severity)
