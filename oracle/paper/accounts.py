"""IBAN, creditor identifier, strict GLN and the withdrawn codes."""
from . import figures
from .answers import CHECK, FORM, NO_RULE, Refusal, judged
from .forms import CREDITOR, IBAN, digits
from .text import readable, stripped

#: Withdrawn codes with their successors; one has none.
WITHDRAWN = {
    b"9901": b"0096", b"9902": b"0184", b"9904": b"0198", b"9905": None, b"9906": b"0211", b"9907": b"0210", b"9917": b"0196", b"9921": b"0201",
    b"9954": b"0190", b"9955": b"0007", b"9956": b"0208", b"9958": b"0204",
}


def answered(content, reads, form, figure):
    try:
        text = reads(readable(content))
    except Refusal as refusal:
        return judged(refusal.reason)
    return judged(FORM if form(text) else 0 if figure(text) else CHECK)


def iban(content):
    return answered(content, stripped, IBAN, figures.iban)


def creditor(content):
    return answered(content, stripped, CREDITOR, lambda text: True)


def strict_gln(scheme, content):
    if scheme != b"0088":
        return NO_RULE, 0, 0, 0
    return answered(content, str, digits(13), figures.gln)
