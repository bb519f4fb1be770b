"""Examples of one line, and of many lines at once."""
from .commands import joined
from .program_lines import CONTENTS, HEADS, SCHEMES

BATCHES = ["0088 34 71\n0088 34 17\n0060 34 x\n", "0088 34 71\n0088 34 17", "", "\n", "x\n\n0060 34 x", "0088 34 17\r\n0184 34 12345678\r\n"]


def examples():
    yield from (("a", line) for line in HEADS + SCHEMES + CONTENTS)
    # room for no line, for some of them and for all
    for content in BATCHES:
        yield from (("b", joined(room, content)) for room in (0, 3, 4, 7, 8, 12, 14))
