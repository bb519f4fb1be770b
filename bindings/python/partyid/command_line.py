"""The command partyid, and python3 -m partyid: what is written on a command line, and exit statuses 0 to 3 whatever happens."""

from __future__ import annotations

import argparse
import functools
import os
import re
import sys
from typing import IO, Any, NoReturn, Optional, Sequence

from . import __version__
from .commands import ARGUMENTS, COMMANDS, DONE, FAILED, NAMED, OPTIONS, Command, UsageError
from .library import Disagreement
from .manual import ABOUT, CAUTION, sentence, whole

_KEPT = "\0"  # begins a word behind --; no word of a command line can have it


class _Parser(argparse.ArgumentParser):
    def error(self, message: str) -> NoReturn:
        plain = message.replace("\\x00", "").replace(_KEPT, "")
        raise UsageError(f"{plain}; {self.prog} --help says more")

    def print_help(self, file: Optional[IO[str]] = None) -> None:
        sys.stdout.write(self.format_help())  # argparse's own hides that it can't be written


class _Version(argparse.Action):
    def __call__(self, parser: argparse.ArgumentParser, *rest: Any) -> None:
        print(f"partyid {__version__}")
        parser.exit()


def parser() -> argparse.ArgumentParser:
    layout = functools.partial(argparse.RawDescriptionHelpFormatter, width=110, max_help_position=30)
    top = _Parser(prog="partyid", description=ABOUT, epilog=whole(), formatter_class=layout, allow_abbrev=False)
    top.add_argument("--version", action=_Version, nargs=0, help="say the version and exit")
    commands = top.add_subparsers(title="commands", metavar="COMMAND", dest="command", required=True)
    for command in COMMANDS:
        said = f"{sentence(command.about)}\n{command.note}".rstrip()
        more = "\n\n".join([*command.topics, CAUTION])
        sub = commands.add_parser(command.name, help=command.about, description=said, epilog=more, formatter_class=layout, allow_abbrev=False)
        _add_arguments(sub, command)
    return top


def _add_arguments(sub: argparse.ArgumentParser, command: Command) -> None:
    for name in command.takes:
        if name == "FILE":
            sub.add_argument("file", metavar=name, type=_argument, nargs="?", default=b"-", help=ARGUMENTS[name])
        elif name == "FILE ...":
            sub.add_argument("file", metavar="FILE", type=_argument, nargs="*", default=[b"-"], help=ARGUMENTS[name])
        else:
            sub.add_argument(name.lower(), metavar=name, type=_argument, help=ARGUMENTS[name])
    if "--term" in command.options:
        sub.add_argument("--term", metavar="TERM", type=_number, default=34, help=OPTIONS["--term"])
    if "--corrections" in command.options:
        sub.add_argument("--corrections", action="store_true", help=OPTIONS["--corrections"])


def _argument(word: str) -> bytes:
    return os.fsencode(word[len(_KEPT) :] if word.startswith(_KEPT) else word)


def _kept(words: Sequence[str]) -> list[str]:
    """Words behind the first -- as arguments, whatever they are: argparse would take out a second -- too."""
    end = words.index("--") if "--" in words else len(words)
    return [*words[:end], *(_KEPT + word for word in words[end + 1 :])]


def _hint(words: Sequence[str]) -> str:
    """Where a word looks like an option and is none: how to have it taken as it is."""
    known = {"-", "--", "-h", "--help", "--version", *OPTIONS}
    strange = next((word for word in words if word.startswith("-") and word.split("=")[0] not in known), None)
    return f"; as an argument {strange} stands behind --" if strange and "--" not in words else ""


def _number(word: str) -> int:
    if not re.fullmatch("[0-9]{1,20}", word):
        raise argparse.ArgumentTypeError("takes a number of at most 20 digits")
    return int(word)


def _run(words: Sequence[str]) -> int:
    if sys.stdout is None:
        raise UsageError("standard output is closed")
    try:
        given = parser().parse_args(_kept(words))
    except SystemExit:  # --help and --version have been written
        return DONE
    except UsageError as error:
        raise UsageError(f"{error}{_hint(words)}") from None
    return NAMED[given.command].run(given)


def _silence(descriptor: int) -> None:
    """What can't be written there is not tried again when Python ends, which would then leave a status of its own."""
    os.dup2(os.open(os.devnull, os.O_WRONLY), descriptor)


def _complain(what: str) -> None:
    if sys.stderr is None:
        return
    try:
        print(f"partyid: {what}", file=sys.stderr, flush=True)
    except OSError:
        _silence(2)


def _write_out() -> None:
    """What was written before a failure, if it can be."""
    try:
        sys.stdout.flush()
    except (OSError, AttributeError, KeyboardInterrupt):
        _silence(1)


def main(words: Optional[Sequence[str]] = None) -> int:
    """Runs a command; gives the exit status."""
    try:
        status = _run(sys.argv[1:] if words is None else words)
        sys.stdout.flush()
        return status
    except BrokenPipeError:
        pass  # the reader has seen enough
    except KeyboardInterrupt:
        _complain("interrupted")
    except (UsageError, Disagreement, OSError) as error:
        _complain(str(error))
    except Exception as error:  # a status of Python's own would say that a number is refused
        _complain(f"{type(error).__name__}: {error}; that should not happen, please report it with the command")
    _write_out()
    return FAILED
