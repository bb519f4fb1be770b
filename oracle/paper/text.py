"""Code points, white space, and what a rule reads of a content."""
from .answers import LONG, UTF8, Refusal

MOST = 1024
WHITE = {*range(0x09, 0x0E), 0x20, 0x85, 0xA0, 0x1680, *range(0x2000, 0x200B), 0x2028, 0x2029, 0x202F, 0x205F, 0x3000}


def point(content, at):
    """The code point that begins at a byte and how many bytes it takes; None where there is none."""
    for n in range(1, 5):
        try:
            text = content[at:at + n].decode("utf-8")
        except UnicodeDecodeError:
            continue
        if len(text) == 1:
            return ord(text), n
    return None


def readable(content):
    """The text of a content that a rule may read."""
    if len(content) > MOST:
        raise Refusal(LONG)
    try:
        return content.decode("utf-8")
    except UnicodeDecodeError:
        raise Refusal(UTF8) from None


def words(text):
    """The longest runs of code points that are not white."""
    return [word for word in "".join(" " if ord(c) in WHITE else c for c in text).split(" ") if word]


def normalized(text):
    return " ".join(words(text))


def stripped(text):
    return "".join(words(text))
