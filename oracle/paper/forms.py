"""Forms: what is wrong with a text, in words; nothing where it fits.

A form is a choice of shapes. A shape is spelled by `#` a digit, `&` a letter, `*` either, any other character itself; its last character is repeated
up to a length from least to most."""
import string

from .text import normalized

DIGITS, LETTERS = set(string.digits), set(string.ascii_letters)
CLASSES = {"#": DIGITS, "&": LETTERS, "*": DIGITS | LETTERS}


def fitting(shape, text):
    """How many characters fit before the first that does not."""
    fits = [c in CLASSES.get(s, s) for s, c in zip(shape.ljust(len(text), shape[-1]), text)]
    return (fits + [False]).index(False)


def form(*shapes):
    """`length` where no shape has the text's, else `at` and the place up to which some shape fits."""
    def fault(text):
        places = [fitting(shape, text) for shape, least, most in shapes if least <= len(text) <= most]
        if not places:
            return "length"
        return "" if max(places) == len(text) else f"at {max(places)}"
    return fault


def digits(least, most=None):
    return form(("#", least, most or least))


DANISH = ("DK#", 10, 10)
DUTCH = form(("NL#########B#", 14, 14))
ITALIAN = form(("IT#", 13, 13), ("it#", 13, 13))
IBAN = form(("&&##*", 5, 34))
CREDITOR = form(("&&##*", 8, 35))


def integer_text(text):
    body = normalized(text)  # after trimming; white within is no digit
    body = body[1:] if body[:1] in ("+", "-") else body
    return body != "" and set(body) <= DIGITS


def codice(t):
    """The codice fiscale, over code points. Where it goes wrong is not asked."""
    fits = integer_text(t) if len(t) == 11 else (
        len(t) == 16 and set(t[:6]) <= LETTERS and integer_text(t[6:8]) and t[8] in LETTERS
        and integer_text(t[9:11]) and t[14] in DIGITS and t[15] in LETTERS)
    return "" if fits else "somewhere"
