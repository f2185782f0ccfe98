"""Calls the library for C, natively and as mars.wasm, with the records and lists of definitions."""
from __future__ import annotations

import json
import os
import shutil
import struct
import subprocess
import sys
from collections.abc import Sequence
from functools import lru_cache
from typing import Any

from evaluating.base import Value

TOP = os.path.abspath(os.path.join(os.path.dirname(__file__), "..", "..", ".."))
WASM = os.path.join(TOP, "build", "mars.wasm")
SCRIPT = os.path.join(TOP, "dev", "checks", "comparing", "wasm.mjs")


@lru_cache(maxsize=None)
def library() -> tuple[Any, Any]:
    """Returns the types of the header, and the library; only a comparison with the library needs its binding."""
    sys.path.insert(0, os.path.join(TOP, "python"))
    from corewar.engine import binding

    return binding.library()


def plain(value: Any) -> Value:
    """Returns a value of C as definitions have it: structures as records, arrays as lists."""
    if isinstance(value, int):
        return value
    kind = library()[0].typeof(value)
    if kind.kind == "array":
        return tuple(map(plain, value))
    return {name: plain(getattr(value, name)) for name, _ in kind.fields}


def new(kind: str, value: Any) -> Any:
    """Returns a pointer to a new value of C, of a type of the header."""
    return library()[0].new(kind, value)


def made_of(value: Value) -> Any:
    """Returns a value of definitions as the binding takes it to fill a structure."""
    if isinstance(value, dict):
        return {name: made_of(part) for name, part in value.items()}
    return list(map(made_of, value)) if isinstance(value, tuple) else value


def array(kind: str, values: Sequence[Value]) -> tuple[Any, int]:
    """Returns a pointer to values, and their number."""
    return new(f"{kind}[]", [made_of(value) for value in values]), len(values)


def room(kind: str, count: int) -> tuple[Any, int]:
    """Returns a pointer to this many values, all 0, and their number."""
    return new(f"{kind}[]", count), count


def rows_in(pointer: Any, count: int) -> tuple[Value, ...]:
    """Returns this many values at a pointer."""
    return tuple(plain(pointer[index]) for index in range(count))


def call(name: str, *given: Any) -> Value:
    """Calls the library. Returns the error as a record, whose code is 0 if there is none."""
    fault = new("MarsFault *", {"code": 0})
    answer = getattr(library()[1], name)(*given, fault)
    # ROOM is not an error, so only its code is used.
    return {**plain(fault[0]), "code": answer}


def read_text(name: str, *given: Any) -> Value:
    """Returns the text that a call writes, or its error."""
    length, size = new("size_t *", 0), 1 << 12
    while True:
        buffer = new("uint8_t[]", size)
        fault = call(name, *given, buffer, size, length)
        if fault["code"] != library()[1].MARS_ROOM:
            return fault if fault["code"] else tuple(buffer[0 : length[0]])
        size = length[0]


# ---- Turns, natively and in mars.wasm

ROWS = ("MarsRecord", "MarsTouched")


def play(words: Sequence[int], turns: int, counts: dict[str, int]) -> Value:
    """Executes turns of a battle. Returns the error code, the words, and as many rows of each kind as `counts` has."""
    block, rows = array("uint32_t", words), {kind: room(kind, counts[kind]) for kind in ROWS}
    error = call("mars_play", *block, turns, *rows["MarsRecord"], *rows["MarsTouched"])
    return {"error": error["code"], "words": tuple(block[0]), **{kind: rows_in(*row) for kind, row in rows.items()}}


def has_wasm() -> bool:
    """Returns whether mars.wasm was built, and there is a Node to run it."""
    return os.path.isfile(WASM) and bool(shutil.which("node"))


@lru_cache(maxsize=None)
def node() -> subprocess.Popen[str]:
    """Returns the process that executes turns in mars.wasm. Each process of this script starts its own."""
    return subprocess.Popen(["node", SCRIPT, WASM], stdin=subprocess.PIPE, stdout=subprocess.PIPE, text=True)


def play_in_wasm(words: Sequence[int], turns: int, counts: dict[str, int]) -> Value:
    """Executes turns of a battle in mars.wasm, by the site's engine, with the results of `play`."""
    process = node()
    assert process.stdin and process.stdout
    print(json.dumps([words, turns, *(counts[kind] for kind in ROWS)]), file=process.stdin, flush=True)
    after, *found = json.loads(process.stdout.readline())
    rows = {kind: room(kind, counts[kind]) for kind in ROWS}
    for kind, numbers in zip(ROWS, found):
        library()[0].buffer(rows[kind][0])[0 : 4 * len(numbers)] = struct.pack(f"<{len(numbers)}I", *numbers)
    return {"error": 0, "words": tuple(after), **{kind: rows_in(*row) for kind, row in rows.items()}}
