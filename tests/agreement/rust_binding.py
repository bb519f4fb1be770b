"""The Rust binding: the numbers of its enums, its constants, and the declarations in raw.rs."""
from __future__ import annotations

import pathlib
import re

from .interface import Function, Interface, Typed, Unreadable, contrast, differing

Cases = list[tuple[str, int]]

TYPES = {
    "u32": "uint32_t",
    "usize": "size_t",
    "bool": "bool",
    "[u8; 4]": "uint8_t[4]",
    "*const u8": "const void *",
    "*mut u8": "void *",
    "*mut u32": "uint32_t *",
    "*mut [u8; AREA]": "void *",
    "*mut [u32; TALLY_COUNTS]": "uint32_t *",
}


def code_of(source: str) -> str:
    """A source without its comments and the tests behind it, which may well name wrong numbers."""
    return re.sub(r"//.*", "", source.split("#[cfg(test)]")[0])


# ---- Enums and constants


def numberings(code: str, enum: str) -> list[Cases]:
    """Each way in which code gives numbers to the cases of an enum: in its declaration, from a case to a number, and back."""
    declared = [re.findall(r"\b(\w+) = (\d+)\b", body) for body in re.findall(rf"\b{enum}\b[^{{}};]*\{{([^{{}}]*)\}}", code)]
    to_number = re.findall(rf"\b{enum}::(\w+)(?:\(_\))? => (\d+)\b", code)
    to_case = [(case, number) for number, case in re.findall(rf"\b(\d+) => (?:Some\()?{enum}::(\w+)", code)]
    return [[(case, int(number)) for case, number in way] for way in (*declared, to_number, to_case) if way]


def enum_disagreements(code: str, cases: dict[str, Cases]) -> list[str]:
    """The enums are found by their names, Verdict for verdict; each must be numbered, and everywhere as in the definitions."""
    found = []
    for enum, wanted in cases.items():
        ways = numberings(code, enum.capitalize())
        if not ways:
            found.append(f"enum {enum.capitalize()}: no numbers found")
        found += [f"enum {enum.capitalize()}: {contrast(wanted, way)}" for way in ways if way != wanted]
    return found


def constant_disagreements(code: str, constants: dict[str, str]) -> list[str]:
    """AREA is PARTYID_AREA; a constant that has no such namesake is the binding's own."""
    found = []
    for name, value in re.findall(r"\bconst (\w+): \w+ = ([\d_]+);", code):
        wanted = constants.get(f"PARTYID_{name}", value)
        if wanted != value.replace("_", ""):
            found.append(f"constant {name}: expected {wanted}, found {value}")
    return found


# ---- The declarations in raw.rs


def c_type(kind: str, structs: dict[str, list[Typed]]) -> str:
    struct = f"partyid_{kind.lower()}"
    if struct in structs:
        return f"struct {struct}"
    if kind not in TYPES:
        raise Unreadable(f"raw.rs: a type that is not known here: {kind}")
    return TYPES[kind]


def fields(body: str) -> list[tuple[str, str]]:
    return [(name, kind.strip()) for name, kind in re.findall(r"(?:pub )?(\w+): ([^,]+?)\s*(?:,|$)", body.strip())]


def read_structs(code: str) -> dict[str, list[Typed]]:
    found: dict[str, list[Typed]] = {}
    for repr_c, name, body in re.findall(r"(#\[repr\(C\)\]\n(?:#\[.*\]\n)*)?pub struct (\w+) \{([^}]*)\}", code):
        if not repr_c:
            raise Unreadable(f"raw.rs: {name} is not laid out as in C")
        found[f"partyid_{name.lower()}"] = [(c_type(kind, {}), field) for field, kind in fields(body)]
    return found


def read_functions(code: str, structs: dict[str, list[Typed]]) -> dict[str, Function]:
    return {
        name: Function(c_type(kind, structs), [(c_type(k, structs), p) for p, k in fields(parameters)])
        for name, parameters, kind in re.findall(r"\bfn (partyid_\w+)\(([^)]*)\) -> ([^;]+);", code)
    }


def types_of(functions: dict[str, Function]) -> dict[str, Function]:
    """Without the parameters' names: a binding may call a length as it likes."""
    return {name: Function(f.result, [(kind, "") for kind, _ in f.parameters]) for name, f in functions.items()}


def raw_disagreements(source: str, wanted: Interface) -> list[str]:
    structs = read_structs(code_of(source))
    functions = read_functions(code_of(source), structs)
    return differing("struct", wanted.structs, structs) + differing("function", types_of(wanted.functions), types_of(functions))


def rust_disagreements(sources: pathlib.Path, wanted: Interface, cases: dict[str, Cases]) -> list[str]:
    code = "\n".join(code_of(path.read_text()) for path in sorted(sources.glob("*.rs")))
    return (
        enum_disagreements(code, cases)
        + constant_disagreements(code, wanted.constants)
        + raw_disagreements((sources / "raw.rs").read_text(), wanted)
    )
