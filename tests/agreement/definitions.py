"""What the definitions and the declarations of the crates ask of a header."""
from __future__ import annotations

import pathlib
import re

from .interface import Function, Interface, Typed, Unreadable, upper_snake

# the definition that numbers the cases of each enum, and where it stands
NUMBERED = {
    "verdict": ("answer/specs/Numbers.antt", "verdict_number"),
    "severity": ("answer/specs/Numbers.antt", "severity_number"),
    "reason": ("answer/specs/Numbers.antt", "reason_number"),
}
# the cases that the definitions write as None and Some, each with the place of the equation that gives its number
PLACED = {
    "severity": [("NoSeverity", "answer/specs/Numbers.antt", r"^or_zero number None = (\d+)$")],
    "reason": [("NoReason", "answer/specs/Numbers.antt", r"^or_zero number None = (\d+)$")],
    "withdrawal": [
        ("NotWithdrawn", "partyid/specs/Plain.antt", r"^plain_code None = four_bytes (\d+) \[\]$"),
        ("NoSuccessor", "partyid/specs/Plain.antt", r"^plain_successor None = four_bytes (\d+) \[\]$"),
        ("Successor", "partyid/specs/Plain.antt", r"^plain_successor \(Some code\) = four_bytes (\d+) code$"),
    ],
}
# the enums of an answer, which have words for a reader
WORDED = ["verdict", "severity", "reason"]
EQUATION = re.compile(r"(\w+) = (\d+)")

STRUCT = re.compile(r"(#\[repr\(C\)\]\n(?:#\[.*\]\n)*)?pub struct (\w+) \{([^}]*)\}")
FUNCTION = re.compile(r"#\[unsafe\(no_mangle\)\]\s+pub extern \"C\" fn (\w+)\(([^)]*)\)\s*->\s*(\w+)")

SCALARS = {"u8": "uint8_t", "u32": "uint32_t", "usize": "size_t", "bool": "bool"}
SLICES = {"&[u8]": "const void *", "&mut [u8]": "void *", "&mut [u32]": "uint32_t *"}


def equations(text: str, name: str) -> list[tuple[str, int]]:
    """The numbers that a definition gives by its equations, each case with its own."""
    found = []
    for line in re.findall(rf"^{name} (?!:)(.*)$", text, re.M):
        equation = EQUATION.fullmatch(line)
        if not equation:
            raise Unreadable(f"not a case and a number: {name} {line}")
        found.append((equation[1], int(equation[2])))
    if not found:
        raise Unreadable(f"no equation of {name}")
    return found


def number_in(crates: pathlib.Path, file: str, *patterns: str) -> str:
    """The one number that each of some places in a file gives."""
    text = (crates / file).read_text()
    found = {number for pattern in patterns for number in re.findall(pattern, text, re.M) or ["nothing"]}
    if len(found) != 1 or "nothing" in found:
        raise Unreadable(f"{file}: {patterns} give {sorted(found)}")
    return found.pop()


def cases(crates: pathlib.Path) -> dict[str, list[tuple[str, int]]]:
    """Each enum of the header with its cases by the definitions: {"verdict": [("NoRule", 0), ..]}."""
    found = {}
    for enum in [*NUMBERED, *(enum for enum in PLACED if enum not in NUMBERED)]:
        found[enum] = [(name, int(number_in(crates, file, pattern))) for name, file, pattern in PLACED.get(enum, [])]
        if enum in NUMBERED:
            file, definition = NUMBERED[enum]
            found[enum] += equations((crates / file).read_text(), definition)
    return found


def area(crates: pathlib.Path) -> str:
    return number_in(
        crates, "text/specs/Answer.antt", r"^readable_of s = pick \(nat_le \(length s\) (\d+)\)", r"^padded l = l \+\+ replicate \((\d+) - length l\) 0$"
    )


def answer_numbers(crates: pathlib.Path, structs: dict[str, list[Typed]]) -> str:
    """The numbers that a line has room for are those of an answer, in the order of its struct."""
    answers = (crates / "answer/specs/Answers.antt").read_text()
    written = re.search(r"^answer_numbers a =([^\[]*)\[\]$", answers, re.M)
    if not written or re.findall(r"\ba\.(\w+)", written[1]) != [name for _, name in structs["partyid_answer"]]:
        raise Unreadable("answer/specs/Answers.antt: answer_numbers has other numbers than PartyidAnswer, or in another order")
    return number_in(crates, "batch/specs/Batch.antt", r"^numbers_each = (\d+)$")


def most_digits(crates: pathlib.Path) -> str:
    """The most digits of a number that is listed: of the five rows, each with its form of a number, the one that takes the most."""
    forms = dict(re.findall(r"^(\w+) = (digits \d+ \d+)$", (crates / "forms/specs/Table.antt").read_text(), re.M))
    rows = re.findall(r"^row \w+ = row_from \w+ \w+ (\w+|\(digits \d+ \d+\)) ", (crates / "corrections/specs/Five.antt").read_text(), re.M)
    if len(rows) != 5:
        raise Unreadable(f"corrections/specs/Five.antt: {len(rows)} rows with a form of a number")
    return str(max(int(forms.get(row, row.strip("()")).split()[2]) for row in rows))


def constants(crates: pathlib.Path, structs: dict[str, list[Typed]]) -> dict[str, str]:
    listing = (crates / "corrections/specs/Listing.antt").read_text()
    room = re.search(r"^room_for n = (.*)$", listing, re.M)
    if not room:
        raise Unreadable("corrections/specs/Listing.antt: no equation of room_for")
    return {
        "PARTYID_AREA": area(crates),
        "PARTYID_LIST_DIGITS": most_digits(crates),
        "PARTYID_LIST_ROOM(n)": room[1],
        "PARTYID_ANSWER_NUMBERS": answer_numbers(crates, structs),
        "PARTYID_TALLY_COUNTS": number_in(crates, "tally/specs/Cell.antt", r"^tally_size = (\d+)$"),
        "PARTYID_TALLY_LIMIT": number_in(crates, "tally/specs/Tally.antt", r"^limit = (\d+)$"),
    }


# ---- The declarations of crates/partyid


def struct_name(name: str) -> str:
    """PartyidAnswer -> partyid_answer."""
    return upper_snake(name).lower()


def split_fields(body: str) -> list[tuple[str, str]]:
    """name: type, .. -> [(name, type), ..]."""
    fields = [f.strip().removeprefix("pub ") for f in body.split(",") if f.strip()]
    return [(name.strip(), kind.strip()) for name, kind in (f.split(":", 1) for f in fields)]


def scalar(kind: str) -> str:
    if kind not in SCALARS:
        raise Unreadable(f"a type that is not known here: {kind}")
    return SCALARS[kind]


def struct_fields(name: str, body: str) -> list[Typed]:
    fields = [(scalar(kind), field) for field, kind in split_fields(body)]
    if name == "PartyidCode":
        # the prover takes no array in an enum, so that the successor is four fields there
        four = [("uint8_t", letter) for letter in "abcd"]
        if fields[1:] != four:
            raise Unreadable(f"PartyidCode has other fields than a, b, c, d: {fields}")
        fields[1:] = [("uint8_t[4]", "successor")]
    return fields


def lent_arrays(numbers: dict[str, str]) -> dict[str, str]:
    """An area for a text, and the counts of a tally."""
    return {f"&mut [u8; {numbers['PARTYID_AREA']}]": "void *", f"&mut [u32; {numbers['PARTYID_TALLY_COUNTS']}]": "uint32_t *"}


def parameter(name: str, kind: str, arrays: dict[str, str]) -> list[Typed]:
    """A slice is a pointer and a length; an array lent is a pointer alone."""
    if kind in SLICES:
        return [(SLICES[kind], name), ("size_t", f"{name}_len")]
    return [(arrays[kind] if kind in arrays else scalar(kind), name)]


def result(kind: str, structs: dict[str, list[Typed]]) -> str:
    if struct_name(kind) in structs:
        return f"struct {struct_name(kind)}"
    return scalar(kind)


def read_structs(text: str) -> dict[str, list[Typed]]:
    found = {}
    for repr_c, name, body in STRUCT.findall(text):
        if not repr_c:
            raise Unreadable(f"{name} is not laid out as in C")
        found[struct_name(name)] = struct_fields(name, body)
    return found


def read_functions(text: str, structs: dict[str, list[Typed]], arrays: dict[str, str]) -> dict[str, Function]:
    found = {}
    for name, parameters, kind in FUNCTION.findall(text):
        typed = [pair for p in split_fields(parameters) for pair in parameter(*p, arrays)]
        found[name] = Function(result(kind, structs), typed)
    if len(found) != text.count("no_mangle"):
        raise Unreadable(f"{text.count('no_mangle')} functions are marked no_mangle and {len(found)} could be read")
    return found


# ---- What the header has beside the proved functions


def word_functions(enums: list[str]) -> dict[str, Function]:
    """The version, the words for the numbers of each enum of an answer, and a tally's count."""
    words = {f"partyid_{enum}_words": Function("const char *", [("uint32_t", enum)]) for enum in enums}
    count = Function("uint32_t", [("const uint32_t *", "counts"), ("uint32_t", "rule"), ("uint32_t", "verdict")])
    return {"partyid_version": Function("const char *", []), **words, "partyid_tally_count": count}


def by_answers(call: str, *counts: Typed) -> tuple[Function, str]:
    """A proved call for many lines, with an array of answers in the place of numbers."""
    taken = [("const void *", "text"), ("size_t", "text_len"), *counts]
    names = ", ".join(name for _, name in taken)
    returned = f"{call}({names}, out_len == 0 ? NULL : &out->verdict, out_len * PARTYID_ANSWER_NUMBERS)"
    return Function("struct partyid_batch", [*taken, ("struct partyid_answer *", "out"), ("size_t", "out_len")]), returned


INLINES = {
    "partyid_check_lines": by_answers("partyid_answer_lines"),
    "partyid_tally_check_lines": by_answers("partyid_tally_lines", ("uint32_t *", "counts")),
}


def version_constants(version: str) -> dict[str, str]:
    parts = dict(zip(("MAJOR", "MINOR", "PATCH"), version.split(".")))
    return {"PARTYID_VERSION": f'"{version}"', **{f"PARTYID_VERSION_{name}": number for name, number in parts.items()}}


def read_definitions(crates: pathlib.Path, version: str) -> Interface:
    text = "".join(path.read_text() for path in sorted((crates / "partyid/src").glob("*.rt")))
    structs = read_structs(re.sub(r"//.*", "", text))
    numbers = constants(crates, structs)
    return Interface(
        enums={
            f"partyid_{enum}": [(f"PARTYID_{enum.upper()}_{upper_snake(case)}", number) for case, number in numbered]
            for enum, numbered in cases(crates).items()
        },
        structs=structs,
        functions=read_functions(re.sub(r"//.*", "", text), structs, lent_arrays(numbers)),
        words=word_functions(WORDED),
        inlines=INLINES,
        constants={**version_constants(version), **numbers},
    )
