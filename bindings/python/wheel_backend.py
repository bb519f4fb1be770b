"""Builds the wheel, with the proved library in it: make wheel, or pip by pyproject.toml. Needs Python alone.

    python3 wheel_backend.py FOLDER     writes the wheel there and says its name

The library is the file that PARTYID_LIBRARY names, else target/c/libpartyid.so of the repository."""

from __future__ import annotations

import base64
import hashlib
import os
import pathlib
import re
import sys
import sysconfig
import zipfile
from typing import Any, Optional

HERE = pathlib.Path(__file__).resolve().parent
SHARED = {"man/partyid.1": "share/man/man1/partyid.1", "completion/partyid": "share/bash-completion/completions/partyid"}


def get_requires_for_build_wheel(config_settings: Any = None) -> list[str]:
    return []


def build_wheel(wheel_directory: str, config_settings: Any = None, metadata_directory: Optional[str] = None) -> str:
    name, version = project("name"), package_version()
    tag = "py3-none-" + re.sub("[-.]", "_", sysconfig.get_platform())
    info = f"{name}-{version}.dist-info"
    files = {**package_files(name), **shared_files(f"{name}-{version}.data"), **information(info, tag)}
    record = "".join(f"{path},{digest(data)},{len(data)}\n" for path, data in files.items()) + f"{info}/RECORD,,\n"
    wheel = f"{name}-{version}-{tag}.whl"
    with zipfile.ZipFile(pathlib.Path(wheel_directory) / wheel, "w", zipfile.ZIP_DEFLATED) as out:
        for path, data in {**files, f"{info}/RECORD": record.encode()}.items():
            out.writestr(entry(path), data)
    return wheel


def build_sdist(sdist_directory: str, config_settings: Any = None) -> str:
    raise SystemExit("partyid is built in its repository, where the library is proved: make wheel there")


def project(key: str) -> str:
    """A line of pyproject.toml; Python reads TOML from 3.11 on only."""
    found = re.search(rf'^{key} = "(.*)"$', (HERE / "pyproject.toml").read_text("utf-8"), re.MULTILINE)
    assert found, key
    return found[1]


def package_version() -> str:
    found = re.search(r'^__version__ = "(.*)"$', (HERE / "partyid/__init__.py").read_text("utf-8"), re.MULTILINE)
    assert found
    return found[1]


def package_files(name: str) -> dict[str, bytes]:
    files = {f"{name}/{path.name}": path.read_bytes() for path in sorted((HERE / name).iterdir()) if path.suffix in (".py", ".typed")}
    return {**files, f"{name}/libpartyid.so": library().read_bytes()}


def library() -> pathlib.Path:
    path = pathlib.Path(os.environ.get("PARTYID_LIBRARY") or HERE.parents[1] / "target/c/libpartyid.so")
    if not path.exists():
        raise SystemExit(f"{path} is not there; run make in the repository's folder first, or name the library in PARTYID_LIBRARY")
    return path


def shared_files(folder: str) -> dict[str, bytes]:
    return {f"{folder}/data/{path}": (HERE / file).read_bytes() for file, path in SHARED.items()}


def information(info: str, tag: str) -> dict[str, bytes]:
    headers = [
        "Metadata-Version: 2.1",
        f"Name: {project('name')}",
        f"Version: {package_version()}",
        f"Summary: {project('description')}",
        f"Requires-Python: {project('requires-python')}",
        "Description-Content-Type: text/markdown",
    ]
    readme = (HERE / project("readme")).read_text("utf-8")
    texts = {
        "METADATA": "\n".join(headers) + f"\n\n{readme}",
        "WHEEL": f"Wheel-Version: 1.0\nGenerator: partyid\nRoot-Is-Purelib: false\nTag: {tag}\n",
        "entry_points.txt": f"[console_scripts]\npartyid = {project('partyid')}\n",
        "NOTICE": (HERE.parents[1] / "NOTICE").read_text("utf-8"),
    }
    return {f"{info}/{name}": text.encode() for name, text in texts.items()}


def digest(data: bytes) -> str:
    return "sha256=" + base64.urlsafe_b64encode(hashlib.sha256(data).digest()).rstrip(b"=").decode()


def entry(path: str) -> zipfile.ZipInfo:
    """The same files make the same wheel, byte for byte."""
    info = zipfile.ZipInfo(path)
    info.compress_type = zipfile.ZIP_DEFLATED
    info.external_attr = (0o755 if path.endswith(".so") else 0o644) << 16
    return info


if __name__ == "__main__":
    if len(sys.argv) != 2:
        raise SystemExit("usage: python3 wheel_backend.py FOLDER")
    os.makedirs(sys.argv[1], exist_ok=True)
    print(build_wheel(sys.argv[1]))
