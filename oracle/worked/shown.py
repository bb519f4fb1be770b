"""Answers that documents, the help text and the bindings' tests show to people, each beside the answer of paper."""
import re

from paper.corrections import corrections
from paper.rules import check
from paper.tally import output

from .bindings import cases
from .commands import answered, numbers


def examples(source):
    """`c 0088 34 71 => 2 40 1 4`, as the programs of the gate write it."""
    for line in re.findall(r"^ *([dnscfirgwklabtT] .* => .*)$", source, re.M):
        yield line, answered(line.split(" => ")[0])


def printed(text):
    r"""What printf makes of a text: \n, \r, \t, and \ooo for a byte."""
    letters = {b"n": b"\n", b"r": b"\r", b"t": b"\t"}
    return re.sub(rb"\\([nrt]|[0-7]{1,3})", lambda found: letters.get(found[1]) or bytes([int(found[1], 8)]), text.encode())


def line_program(source):
    """`$ printf 'LINES' | ./checklines` and the lines that it prints; or the first so many of them, by `| head -n COUNT` behind it."""
    for lines, count, told in re.findall(r"^ *\$ printf '(.*)' \| \./checklines(?: \| head -n (-?\d+))?\n((?: *\d[\d ]*\n)+)", source, re.M):
        yield [line.strip() for line in told.splitlines()], output(printed(lines)).decode().splitlines()[:int(count) if count else None]


def calls_of_c(source):
    """`partyid_check("0088", 4, 34, "71", 2); /* 2 40 1 4 */`, with or without casts."""
    text = r'(?:\([^)]*\))?"([^"]*)", \d+'
    for scheme, term, content, told in re.findall(rf"partyid_check\({text}, (\d+), {text}\);\s*/\* (.*) \*/", source):
        yield told, numbers(check(scheme.encode(), int(term), content.encode()))


def commands_of_python(source):
    """`partyid check SCHEME CONTENT` and `partyid list SCHEME CONTENT` with what they print."""
    for scheme, content, told in re.findall(r"^ *\$ .*partyid check (\S+) (\S+)\n *(\d+ \d+ \d+ \d+) ", source, re.M):
        yield told, numbers(check(scheme.encode(), 34, content.encode()))
    for scheme, content, told in re.findall(r"^ *\$ .*?partyid list (\S+) ([^\s;]+).*\n *0 \d+ .*\n((?: *\d+\n)+)", source, re.M):
        yield told.split(), corrections(scheme.encode(), content.encode(), 1024)


def calls_of_python(source):
    """`corrections("0088", "71"))  # ['31', '79', '17']`"""
    for scheme, content, told in re.findall(r"""corrections\("(.*)", "(.*)"\)\)? *# \[(.*)\]""", source):
        yield re.findall(r"\d+", told), corrections(scheme.encode(), content.encode(), 1024)


KINDS = (examples, line_program, calls_of_c, commands_of_python, calls_of_python)
#: Where something is shown; that nothing is found there would be a slip of the reader.
SOURCES = ("README.md", "docs/RULES.md", "crates/examples/README.md")


def shown(root):
    """The place, what is told there, and what is right."""
    others = {str(path.relative_to(root)) for path in (*root.glob("docs/*.md"), *root.glob("crates/*/README.md"), *root.glob("bindings/*/README.md"))}
    for place in sorted(others | set(SOURCES)):
        source = (root / place).read_text()
        found = [pair for kind in KINDS for pair in kind(source)]
        yield from ((place, told, right) for told, right in found)
        if place in SOURCES and not found:
            yield place, "nothing", "an answer"
    for call, told, right in cases((root / "bindings/cases.txt").read_bytes()):
        yield f"bindings/cases.txt: {call}", told, right
