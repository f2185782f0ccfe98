#!/usr/bin/python3 -B
"""Prints site/src/model/layout.js: the position of each field of each struct of mars.h in memory, as cffi knows
it, the numbers of results, limits and edits, and the names of cells and errors.

usage: site/tools/layout.py > site/src/model/layout.js
"""
from __future__ import annotations

import json
import re
import sys
from collections.abc import Iterator
from pathlib import Path
from typing import Any

from cffi import FFI

sys.path.insert(0, str(Path(__file__).resolve().parents[2] / "python"))
from corewar.model.header import characters, content, declarations, enumerations, names  # noqa: E402

# The kinds of numbered errors: the results that have such errors, and those inside expressions (EXPRESSION) and source
# texts (TEXT).
ERRORS = """SETTINGS PARAMETERS EXPRESSION ASSEMBLY TEXT LOAD PLACEMENT BATTLE BLOCK EDIT WARRIOR LINEUP""".split()
# By the first name of an enumeration, the name of the list that is printed of its names.
LISTS = {"DAT": "OPCODES", "A": "MODIFIERS", "DONE": "RESULTS"}
# The first names of the opcodes, modifiers and modes, whose numbers are not printed one by one.
CELLS = "DAT", "A", "IMMEDIATE"


def number_lines() -> Iterator[str]:
    """Yields the numbers of names, and the lists of names."""
    for one in enumerations():
        first = next(iter(one))
        if first not in CELLS and not any(all(name.startswith(f"{kind}_") for name in one) for kind in ERRORS):
            yield from (f"export const {name} = {number};" for name, number in one.items())
        if first in LISTS:
            yield f"export const {LISTS[first]} = {json.dumps(list(one))};"


def error_lines() -> Iterator[str]:
    """Yields the names of errors."""
    yield from ("", "/** The names of errors by their numbers. */", "export const ERROR_NAMES = {")
    for kind in ERRORS:
        yield f"  {kind}: {{ {', '.join(f'{number}: {json.dumps(name)}' for number, name in names(kind).items())} }},"
    yield "};"


def struct_lines(name: str, kind: Any) -> Iterator[str]:
    """Yields the size of a struct and the positions of its fields."""
    yield from ("", f"export const {name} = {{", f"  size: {ffi.sizeof(kind)},")
    yield from (f"  {field}: {place.offset}," for field, place in kind.fields)
    yield "};"


ffi = FFI()
ffi.cdef(declarations(content()))
lines = ["// Written by site/tools/layout.py from mars.h; do not edit."]
lines += [
    f"export const VERSION = {ffi.dlopen(None).MARS_VERSION};",
    f"export const MODES = {json.dumps(characters())};",
]
lines += [*number_lines(), *error_lines()]
for struct in re.findall(r"^\} (\w+);", content(), re.M):
    lines += struct_lines(struct, ffi.typeof(struct))
print("\n".join(lines))
