"""Writes the manual page and the shell completion of partyid, from the texts and tables of its --help.

    python3 documents.py            writes man/partyid.1 and completion/partyid
    python3 documents.py --check    says which of them are not what would be written"""

from __future__ import annotations

import pathlib
import sys
from typing import Iterable

sys.dont_write_bytecode = True  # no folder beside the sources
import partyid
from partyid import manual
from partyid.commands import ARGUMENTS, COMMANDS, OPTIONS, Command

HERE = pathlib.Path(__file__).resolve().parent

# ---- The manual page


def roff(text: str) -> str:
    """Text as it stands: no dot at the beginning of a line is a request, and what is copied from the page can be run."""
    for plain, escaped in (("\\", "\\e"), ("-", "\\-"), ("'", "\\(aq"), ("^", "\\(ha")):
        text = text.replace(plain, escaped)
    return "\n".join(f"\\&{line}" if line.startswith(".") else line for line in text.splitlines())


def paragraph(text: str) -> str:
    return f".PP\n{roff(text)}\n"


def table(text: str) -> str:
    return f".PP\n.nf\n{roff(text)}\n.fi\n"


def synopsis(command: Command) -> str:
    options = ["[--term TERM]" if option == "--term" else f"[{option}]" for option in command.options]
    takes = [f"[{name}]" if name.startswith("FILE") else name for name in command.takes]
    return " ".join([command.name, *options, *takes])


def described(command: Command) -> str:
    said = [f".SS {roff(synopsis(command))}\n{roff(manual.sentence(command.about))}\n{roff(command.note)}\n".replace("\n\n", "\n")]
    said += [f".TP\n.B {roff(name)}\n{roff(OPTIONS[name])}\n" for name in command.options]
    said += [f".TP\n.I {name}\n{roff(ARGUMENTS[name])}\n" for name in command.takes]
    return "".join(said)


def sections() -> Iterable[tuple[str, str]]:
    recipes = "".join(paragraph(f"{recipe.title}:") + table(f"  {recipe.command}") for recipe in manual.RECIPES)
    numbers = "".join(f".SS {name}\n{table(lines)}" for name, lines in manual.NUMBERS.items())
    yield "NAME", "partyid \\- checks of party identifiers on invoices\n"
    yield "SYNOPSIS", "".join(f".B partyid\n{roff(synopsis(command))}\n.br\n" for command in COMMANDS)
    yield "DESCRIPTION", roff(manual.ABOUT) + "\n" + paragraph(manual.CAUTION)
    yield "COMMANDS", "".join(map(described, COMMANDS))
    yield "SCHEME", roff(manual.SCHEME_IS) + "\n" + table(manual.schemes())
    yield "TERM", roff(manual.TERM_IS) + "\n" + table(manual.terms())
    yield "FILES OF LINES", table(manual.LINE_IS)
    yield "ANSWERS", roff(manual.ANSWER_IS) + "\n" + table(manual.EXAMPLE) + numbers + paragraph(manual.COUNTED)
    yield "ACCOUNTS", roff(manual.IBAN_IS) + "\n"
    yield "EXIT STATUS", table(manual.STATUS)
    yield "ENVIRONMENT", f".TP\n.B PARTYID_LIBRARY\n{roff(manual.LIBRARY_IS)}\n"
    yield "EXAMPLES", recipes
    yield "SEE ALSO", ".BR checklines (1)\n"


def manual_page() -> str:
    head = f'.\\" Written by documents.py from the texts of partyid \\-\\-help\n.TH PARTYID 1 "" "partyid {partyid.__version__}"\n.nh\n.ad l\n'
    return head + "".join(f".SH {name}\n{text}" for name, text in sections())


# ---- The completion for bash


def arm(pattern: str, words: Iterable[str]) -> str:
    return f'        {pattern}) words="{" ".join(words)}" ;;\n'


def completion() -> str:
    schemes = [rule.scheme for rule in partyid.RULES if rule.scheme]
    listed = [rule.scheme for rule in partyid.RULES if rule.listed]
    names = [command.name for command in COMMANDS]
    of_files = [command.name for command in COMMANDS if any(name.startswith("FILE") for name in command.takes)]
    options = "".join(arm(command.name, [*command.options, "--help"]) for command in COMMANDS)
    return f"""\
# bash completion for partyid. Written by documents.py from the commands of partyid --help.
_partyid() {{
    local word=${{COMP_WORDS[COMP_CWORD]}} before=${{COMP_WORDS[COMP_CWORD - 1]}} command=${{COMP_WORDS[1]}} words=
    if [[ $COMP_CWORD -eq 1 ]]; then
        words="{" ".join(names)} --help --version"
    elif [[ $before == --term ]]; then
        words="{" ".join(str(term.number) for term in partyid.TERMS)}"
    elif [[ $word == -* ]]; then
        case $command in
{options}        esac
    elif [[ $COMP_CWORD -eq 2 ]]; then
        case $command in
{arm("check", schemes)}{arm("list | complete", listed)}{arm("gln", ["0088"])}        esac
    fi
    mapfile -t COMPREPLY < <(compgen -W "$words" -- "$word")
    if [[ $command =~ ^({"|".join(of_files)})$ && $word != -* && $COMP_CWORD -gt 1 ]]; then
        mapfile -t COMPREPLY < <(compgen -f -- "$word")
        compopt -o filenames 2>/dev/null
    fi
}}
complete -F _partyid partyid
"""


WRITTEN = {"man/partyid.1": manual_page, "completion/partyid": completion}


def main() -> int:
    stale = [name for name, text in WRITTEN.items() if not (HERE / name).exists() or (HERE / name).read_text("utf-8") != text()]
    if sys.argv[1:] == ["--check"]:
        for name in stale:
            print(f"{name} is not what documents.py writes: run it", file=sys.stderr)
        return 1 if stale else 0
    for name in stale:
        (HERE / name).parent.mkdir(exist_ok=True)
        (HERE / name).write_text(WRITTEN[name](), "utf-8")
    return 0


if __name__ == "__main__":
    sys.exit(main())
