"""The examples that `cases` runs, by hand and by loops over what was chosen by hand: a command, and what it reads, as text or, where it is not UTF-8, as
bytes."""
from . import accounts, fields, lines, tallies, texts, work
from .commands import escaped, raw

GROUPS = (texts.examples, fields.examples, fields.figures, accounts.examples, work.examples, lines.examples, tallies.examples)


def examples():
    """The lines of `cases`, each once."""
    return list(dict.fromkeys(f"{command} {escaped(raw(field))}" for group in GROUPS for command, field in group()))
