"""The Python binding, looked at from within: importing it loads no library."""
from __future__ import annotations

import ctypes
import importlib
import pathlib
import sys
import types

from .interface import Function, Interface, Typed, Unreadable, differing, upper_snake
from .rust_binding import Cases, types_of

TYPES = {
    ctypes.c_uint32: "uint32_t",
    ctypes.c_size_t: "size_t",
    ctypes.c_bool: "bool",
    ctypes.c_uint8 * 4: "uint8_t[4]",
    ctypes.c_void_p: "const void *",  # an address, so that a text can be handed over from any byte on
    ctypes.POINTER(ctypes.c_uint8): "void *",
    ctypes.POINTER(ctypes.c_uint32): "uint32_t *",
}


def load(folder: pathlib.Path, name: str) -> types.ModuleType:
    sys.path.insert(0, str(folder))
    try:
        return importlib.import_module(name)
    finally:
        sys.path.remove(str(folder))


def c_type(kind: type) -> str:
    if isinstance(kind, type) and issubclass(kind, ctypes.Structure):
        return f"struct {struct_name(kind)}"
    if kind not in TYPES:
        raise Unreadable(f"partyid/library.py: a type that is not known here: {kind}")
    return TYPES[kind]


def struct_name(struct: type) -> str:
    """AnswerStruct -> partyid_answer."""
    return f"partyid_{struct.__name__.removesuffix('Struct').lower()}"


def read_structs(module: types.ModuleType) -> dict[str, list[Typed]]:
    structs = [v for v in vars(module).values() if isinstance(v, type) and issubclass(v, ctypes.Structure)]
    return {struct_name(s): [(c_type(kind), name) for name, kind in s._fields_] for s in structs}


def read_functions(module: types.ModuleType) -> dict[str, Function]:
    return {name: Function(c_type(gives), [(c_type(t), "") for t in takes]) for name, (gives, takes) in module.FUNCTIONS.items()}


def read_enums(module: types.ModuleType, cases: dict[str, Cases]) -> dict[str, Cases]:
    """The enums are found by their names, Verdict for verdict."""
    found = {enum: getattr(module, enum.capitalize(), None) for enum in cases}
    return {enum: [(name, int(m)) for name, m in kind.__members__.items()] for enum, kind in found.items() if kind}


def read_constants(module: types.ModuleType, wanted: dict[str, str]) -> dict[str, str]:
    """PARTYID_AREA is AREA there. A macro has no namesake, and the version is no constant of the library."""
    names = [name for name in wanted if "(" not in name and "VERSION" not in name]
    return {name: str(getattr(module, name.removeprefix("PARTYID_"), "missing")) for name in names}


def python_disagreements(folder: pathlib.Path, wanted: Interface, cases: dict[str, Cases]) -> list[str]:
    module, library = load(folder, "partyid"), load(folder, "partyid.library")
    numbers = {enum: [(upper_snake(case), number) for case, number in numbered] for enum, numbered in cases.items()}
    constants = read_constants(module, wanted.constants)
    return (
        differing("enum", numbers, read_enums(module, cases))
        + differing("constant", {name: wanted.constants[name] for name in constants}, constants)
        + differing("struct", wanted.structs, read_structs(library))
        + differing("function", types_of(wanted.functions), read_functions(library))
    )
