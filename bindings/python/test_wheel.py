"""Tests of the wheel in an empty environment, and of what make install puts in place."""

from __future__ import annotations

import importlib.util
import os
import pathlib
import re
import subprocess
import sys
import tempfile
import unittest
import zipfile
from typing import Union

from running import HERE, ROOT, environment  # first: it keeps Python from writing beside the sources

import partyid

REFUSED = "2 40 1 4  refused by rule 40 (severity fatal): the form is met and the check figure is wrong\n"
USED = "import partyid, partyid.library; print(partyid.library.library()._name, partyid.corrections('0088', '71'), partyid.__version__)"


def done(*command: Union[str, pathlib.Path], folder: Union[str, pathlib.Path] = ROOT, status: int = 0) -> str:
    """What a command says that has nothing of this repository at hand."""
    env = {name: value for name, value in environment().items() if name not in ("PYTHONPATH", "PARTYID_LIBRARY")}
    run = subprocess.run(list(command), cwd=folder, env=env, stdout=subprocess.PIPE, stderr=subprocess.STDOUT, text=True, check=False)
    if run.returncode != status:
        raise AssertionError(f"{command} ended with {run.returncode}\n{run.stdout}")
    return run.stdout


def has_pip() -> bool:
    said = subprocess.run([sys.executable, "-m", "pip", "--version"], capture_output=True, text=True, check=False).stdout
    found = re.match(r"pip (\d+)\.(\d+)", said)
    return bool(found and (int(found[1]), int(found[2])) >= (22, 3))  # since then it installs for another Python


class Wheel(unittest.TestCase):
    def setUp(self) -> None:
        folder = tempfile.TemporaryDirectory()
        self.addCleanup(folder.cleanup)
        self.folder = pathlib.Path(folder.name)

    def built(self) -> pathlib.Path:
        name = done(sys.executable, HERE / "wheel_backend.py", self.folder / "wheels").strip()
        return self.folder / "wheels" / name

    def test_it_holds_the_package_and_the_proved_library(self) -> None:
        with zipfile.ZipFile(self.built()) as wheel:
            names = set(wheel.namelist())
            self.assertEqual(wheel.read("partyid/libpartyid.so"), (ROOT / "target/c/libpartyid.so").read_bytes())
            self.assertLessEqual({f"partyid/{path.name}" for path in (HERE / "partyid").glob("*.py")}, names)
            self.assertIn("partyid/py.typed", names)
            recorded = {line.split(",")[0] for line in wheel.read(f"partyid-{partyid.__version__}.dist-info/RECORD").decode().splitlines()}
        self.assertEqual(recorded, names)

    def test_the_same_files_make_the_same_wheel(self) -> None:
        first = self.built().read_bytes()
        self.assertEqual(self.built().read_bytes(), first)

    def test_it_is_installed_without_a_network_and_answers(self) -> None:
        environment_folder = self.folder / "environment"
        if has_pip():
            done(sys.executable, "-m", "venv", "--without-pip", environment_folder)
            pip: list[Union[str, pathlib.Path]] = [sys.executable, "-m", "pip", "--python", environment_folder / "bin/python"]
        else:
            if not importlib.util.find_spec("ensurepip"):
                self.skipTest("neither pip nor ensurepip is here")
            done(sys.executable, "-m", "venv", environment_folder)  # with the pip that Python brings
            pip = [environment_folder / "bin/python", "-m", "pip"]
        done(*pip, "install", "--no-index", "--no-deps", "--disable-pip-version-check", self.built())
        binaries = environment_folder / "bin"
        self.assertEqual(done(binaries / "partyid", "check", "0088", "71", folder="/", status=1), REFUSED)
        self.assertEqual(done(binaries / "python", "-m", "partyid", "check", "0088", "71", folder="/", status=1), REFUSED)
        library, rest = done(binaries / "python", "-c", USED, folder="/").split(" ", 1)
        self.assertTrue(library.startswith(os.path.realpath(environment_folder)), library)
        self.assertEqual(rest, f"['31', '79', '17'] {partyid.__version__}\n")
        for path in ("share/man/man1/partyid.1", "share/bash-completion/completions/partyid"):
            self.assertTrue((environment_folder / path).exists(), path)

    def test_pip_builds_it_by_pyproject(self) -> None:
        if not has_pip():
            self.skipTest("pip is not here")
        done(sys.executable, "-m", "pip", "wheel", "--no-index", "--no-deps", "--no-build-isolation", "--disable-pip-version-check", "-w", self.folder / "by_pip", HERE)
        built = self.built()
        self.assertEqual([path.name for path in (self.folder / "by_pip").iterdir()], [built.name])

    def test_without_the_library_it_says_what_to_do(self) -> None:
        with self.assertRaisesRegex(AssertionError, "no such library is not there; run make"):
            done("env", "PARTYID_LIBRARY=/no such library", sys.executable, HERE / "wheel_backend.py", self.folder)


class Installed(unittest.TestCase):
    def test_make_installs_the_command_and_takes_it_away_again(self) -> None:
        with tempfile.TemporaryDirectory() as folder:
            prefix = f"PREFIX={folder}"
            done("make", "-s", "install-python", prefix)
            self.assertEqual(done(f"{folder}/bin/partyid", "check", "0088", "71", folder="/", status=1), REFUSED)
            for path in ("share/man/man1/partyid.1", "share/bash-completion/completions/partyid"):
                self.assertTrue((pathlib.Path(folder) / path).exists(), path)
            done("make", "-s", "uninstall-python", prefix)
            self.assertEqual([path for path in pathlib.Path(folder).rglob("*") if not path.is_dir()], [])
            self.assertFalse((pathlib.Path(folder) / "lib/partyid").exists())


if __name__ == "__main__":
    unittest.main()
