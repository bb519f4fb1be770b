"""include/partyid.h as an interface. Every word of it must be understood, so that nothing stands in it that is not compared."""
from __future__ import annotations

import re

from .interface import Function, Interface, Typed, Unreadable

ENUM = re.compile(r"enum (partyid_\w+) \{([^}]*)\};")
STRUCT = re.compile(r"struct (partyid_\w+) \{([^}]*)\};")
FUNCTION = re.compile(r"((?:struct partyid_\w+|bool|uint32_t) |const char \*)(partyid_\w+)\(([^)]*)\);")
INLINE = re.compile(r"static inline (struct partyid_\w+ )(partyid_\w+)\(([^)]*)\)\n\{\n    return ([^;]*);\n\}")
CONSTANT = re.compile(r"^#define (PARTYID_\w+(?:\(n\))?) (\d+(?=u$)|.+)u?$", re.M)
DECLARATIONS = (ENUM, STRUCT, INLINE, FUNCTION, CONSTANT)

# what the functions give that decide nothing: words, and a count
UNPROVED = ("const char *", "uint32_t")

# a cast that both languages take without a warning, which a constant may use
SIZE = """#ifdef __cplusplus
#define PARTYID_SIZE(n) static_cast<size_t>(n)
#else
#define PARTYID_SIZE(n) ((size_t)(n))
#endif
"""

# what a header has beside its declarations
FRAME = re.compile(
    r"^(?:#ifndef PARTYID_H|#define PARTYID_H|#include <std(?:bool|def|int)\.h>|#ifdef __cplusplus|extern \"C\" \{|\}|#endif)$", re.M
)
TYPED = re.compile(r"((?:const )?(?:struct )?\w+(?: \*| ))(\w+)(\[\d+\])?")


def without_comments(text: str) -> str:
    return re.sub(r"/\*.*?\*/", "", text, flags=re.S)


def typed(text: str) -> Typed:
    """const uint8_t *content -> ("const uint8_t *", "content")."""
    found = TYPED.fullmatch(" ".join(text.split()))
    if not found:
        raise Unreadable(f"not a type and a name: {text.strip()}")
    return found[1].rstrip(" ") + (found[3] or ""), found[2]


def enumerator(text: str) -> tuple[str, int]:
    found = re.fullmatch(r"(\w+) = (\d+)", text.strip())
    if not found:
        raise Unreadable(f"not a name and a number: {text.strip()}")
    return found[1], int(found[2])


def items(body: str, separator: str) -> list[str]:
    """The parts of a body; the separator may also stand behind the last."""
    parts = body.split(separator)
    return parts if parts[-1].strip() else parts[:-1]


def parameters(text: str) -> list[Typed]:
    """None are written as void: empty brackets would take any in C."""
    if not text.strip():
        raise Unreadable("a function with empty brackets")
    return [] if text.strip() == "void" else [typed(p) for p in items(text, ",")]


def function(match: re.Match[str]) -> tuple[str, Function]:
    return match[2], Function(match[1].strip(), parameters(match[3]))


def constant(text: str) -> str:
    """A number or a text, or a macro's body without its outer brackets; each argument must be cast to size_t."""
    plain = text.replace("PARTYID_SIZE(n)", "n").strip()
    return plain[1:-1] if plain.startswith("((") and plain.endswith(")") else plain


def table(pairs: list[tuple]) -> dict:
    """A table by name; a name that is there twice would hide an entry."""
    names = [name for name, _ in pairs]
    if len(set(names)) < len(names):
        raise Unreadable(f"declared twice: {', '.join(sorted({n for n in names if names.count(n) > 1}))}")
    return dict(pairs)


def without_size(text: str) -> str:
    if text.count(SIZE) != 1:
        raise Unreadable("PARTYID_SIZE is missing, twice there or another one")
    return text.replace(SIZE, "")


def read_header(source: str) -> Interface:
    text = without_size(without_comments(source))
    rest = text
    for pattern in (*DECLARATIONS, FRAME):
        rest = pattern.sub("", rest)
    if rest.strip():
        raise Unreadable(f"not understood: {' '.join(rest.split())[:200]}")
    functions = table([function(m) for m in FUNCTION.finditer(text)])
    return Interface(
        enums=table([(m[1], [enumerator(e) for e in items(m[2], ",")]) for m in ENUM.finditer(text)]),
        structs=table([(m[1], [typed(f) for f in items(m[2], ";")]) for m in STRUCT.finditer(text)]),
        functions={name: f for name, f in functions.items() if f.result not in UNPROVED},
        words={name: f for name, f in functions.items() if f.result in UNPROVED},
        inlines=table([(m[2], (function(m)[1], " ".join(m[4].split()))) for m in INLINE.finditer(text)]),
        constants=table([(m[1], constant(m[2])) for m in CONSTANT.finditer(text)]),
    )
