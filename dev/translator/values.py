"""Translates the types and values of a module to C, and its loads and stores."""
from __future__ import annotations

import re
from collections.abc import Iterator

from translator.reading import CannotTranslate, Function, Module

# The sizes of types in memory, in bytes.
SIZES = {"i8": 1, "i16": 2, "i32": 4, "i64": 8, "ptr": 8, "i128": 16}
C_TYPES = {
    "void": "void",
    "i1": "u8",
    "i8": "u8",
    "i16": "u16",
    "i32": "u32",
    "i64": "u64",
    "ptr": "u8 *",
    "i128": "u128",
    "i256": "u256",
}
BITS = {"i1": 1, "i8": 8, "i16": 16, "i32": 32, "i64": 64}


class Values(Module):
    """Translates values. `here` is the function that they belong to, and `records` has the names in C of structs and
    vectors.
    """

    def __init__(self, text: str, exports: list[str]) -> None:
        super().__init__(text, exports)
        self.records: dict[str, str] = {}
        self.here = Function("", "", [], "")

    def type_of(self, name: str) -> str:
        """Returns the type in C for a type of the module."""
        if name in C_TYPES:
            return C_TYPES[name]
        if name not in self.records:
            if name.startswith("{"):
                self.records[name] = "struct_" + "_".join(self.fields(name))
            elif name.startswith("<") and name.endswith(("x i8>", "x i1>")):
                self.records[name] = "vector_" + name.split()[0][1:]
            else:
                raise CannotTranslate(f"the type {name}")
        return self.records[name]

    def fields(self, record: str) -> list[str]:
        return record[2:-2].split(", ")

    def offsets(self, record: str) -> Iterator[tuple[int, str, str]]:
        """Yields the offset, the name and the type of each field of a record."""
        at = 0
        for letter, kind in zip("abcdefgh", self.fields(record), strict=False):
            size = SIZES[kind]
            at = (at + size - 1) // size * size
            yield at, letter, kind
            at += size

    def value(self, kind: str, text: str) -> str:
        """Returns the expression of C for a value of a type of the module."""
        if text.startswith("%"):
            if text in self.here.variables:
                raise CannotTranslate(f"the address of a variable: {text}")
            return f"(u8 *){self.local(text)}" if text in self.here.places else self.local(text)
        if text.startswith("@"):
            return self.address(text)
        if text in ("true", "false"):
            return str(int(text == "true"))
        if kind == "ptr" and text == "null":
            return "(u8 *)0"
        if kind in BITS:
            number = int(text) % (1 << BITS[kind])
            return f"UINT64_C({number})" if kind == "i64" else f"{number}u"
        if kind == "i128":
            number = int(text) % (1 << 128)
            return f"wide(UINT64_C({number >> 64}), UINT64_C({number % (1 << 64)}))"
        if kind.startswith("<") and text == "zeroinitializer":
            return f"zero_{self.type_of(kind)}"
        raise CannotTranslate(f"the value {text} of {kind}")

    def local(self, text: str) -> str:
        return re.sub(r"\W", "_", text[1:])

    def address(self, text: str) -> str:
        return f"(u8 *){'&' if len(self.constants.get(text[1:], '')) > 1 else ''}{self.constant(text)}"

    def constant(self, text: str) -> str:
        if text[1:] not in self.constants:
            raise CannotTranslate(f"the value {text}")
        return re.sub(r"\W", "_", text[1:])

    def load(self, kind: str, place: str) -> str:
        """Returns the expression of C that loads a value of a type from a place."""
        if place in self.here.variables:
            return self.local(place)
        return self.load_from(kind, self.value("ptr", place))

    def load_from(self, kind: str, at: str) -> str:
        if kind == "i8":
            return f"*({at})"
        if kind in SIZES:
            return f"ld{'p' if kind == 'ptr' else SIZES[kind] * 8}({at})"
        if kind.startswith("{"):
            parts = (self.load_from(one, f"{at} + {offset}" if offset else at) for offset, _, one in self.offsets(kind))
            return f"({self.type_of(kind)}){{{', '.join(parts)}}}"
        return f"ld_{self.type_of(kind)}({at})"

    def store(self, kind: str, place: str, value: str) -> str:
        """Returns the statement that stores a value of C at a place."""
        if place in self.here.variables:
            return f"{self.local(place)} = {value};"
        at = self.value("ptr", place)
        if not kind.startswith("{"):
            return self.store_at(kind, at, value)
        if not re.fullmatch(r"\w+", value):
            raise CannotTranslate(f"a store of {value}")
        parts = ((f"{at} + {offset}" if offset else at, letter, one) for offset, letter, one in self.offsets(kind))
        return " ".join(self.store_at(one, there, f"{value}.{letter}") for there, letter, one in parts)

    def store_at(self, kind: str, at: str, value: str) -> str:
        if kind == "i8":
            return f"*({at}) = {value};"
        if kind in SIZES:
            return f"st{'p' if kind == 'ptr' else SIZES[kind] * 8}({at}, {value});"
        raise CannotTranslate(f"a store of {kind}")

    def size_of(self, kind: str) -> int:
        """Returns the size of a type in memory, in bytes."""
        if kind in SIZES:
            return SIZES[kind]
        if kind.startswith("<") and kind.endswith("x i8>"):
            return int(kind.split()[0][1:])
        if kind.startswith("{"):
            return max(offset + SIZES[one] for offset, _, one in self.offsets(kind))
        raise CannotTranslate(f"the size of {kind}")
