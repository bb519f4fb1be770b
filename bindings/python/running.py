"""How the tests run the command line: within the test, or as a program of its own."""

from __future__ import annotations

import contextlib
import io
import os
import pathlib
import subprocess
import sys
from typing import NamedTuple, Union
from unittest import mock

sys.dont_write_bytecode = True  # no folder beside the sources
from partyid import main

HERE = pathlib.Path(__file__).resolve().parent
ROOT = HERE.parents[1]
Word = Union[str, bytes]


class Run(NamedTuple):
    """The exit status of a command, what it wrote and what it complained of."""

    status: int
    out: str
    err: str


def within(*words: Word, given: bytes = b"") -> Run:
    out, err, stdin = io.StringIO(), io.StringIO(), io.TextIOWrapper(io.BytesIO(given))
    with contextlib.redirect_stdout(out), contextlib.redirect_stderr(err), mock.patch("sys.stdin", stdin):
        status = main([os.fsdecode(word) for word in words])
    return Run(status, out.getvalue(), err.getvalue())


def environment(**more: str) -> dict[str, str]:
    """This one, but that output is buffered as it is for users."""
    kept = {name: value for name, value in os.environ.items() if name != "PYTHONUNBUFFERED"}
    return {**kept, "PYTHONDONTWRITEBYTECODE": "1", **more}


def program(*words: Word, given: bytes = b"", **more: str) -> Run:
    done = subprocess.run([sys.executable, "-m", "partyid", *words], cwd=HERE, env=environment(**more), input=given, capture_output=True, check=False)
    return Run(done.returncode, done.stdout.decode("ascii"), done.stderr.decode("ascii"))


def shell(command: str, folder: Union[str, pathlib.Path] = HERE) -> Run:
    """A command of the shell, where partyid is this package's."""
    path = f"{folder}:{os.environ['PATH']}"
    done = subprocess.run(["bash", "-c", command], cwd=folder, env=environment(PATH=path), stdin=subprocess.DEVNULL, capture_output=True, check=False)
    return Run(done.returncode, done.stdout.decode(), done.stderr.decode())


def put_command(folder: Union[str, pathlib.Path]) -> None:
    """A command partyid in a folder."""
    command = pathlib.Path(folder) / "partyid"
    command.write_text(f"#!{sys.executable}\nimport sys\nsys.path.insert(0, {str(HERE)!r})\nfrom partyid.command_line import main\nsys.exit(main())\n")
    command.chmod(0o755)
