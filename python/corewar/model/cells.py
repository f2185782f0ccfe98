"""Cells, as numbers and as text. The numbers are those of the library's header."""
from __future__ import annotations

import re
from typing import Any

import numpy as np
from numpy.typing import NDArray

from .types import Cell, Records
from .errors import CorewarError
from .header import characters, enumeration
from .settings import MAX_DIGITS

OPCODES, MODIFIERS, MODES = [*enumeration("DAT")], [*enumeration("A")], characters()
OPERAND = rf"([{re.escape(MODES)}])(-?\d{{1,{MAX_DIGITS}}})"
TEXT = re.compile(rf"({'|'.join(OPCODES)})\.({'|'.join(MODIFIERS)}) {OPERAND}, {OPERAND}", re.ASCII)
# The type of a cell in an array.
CELL = np.dtype([*((name, "u1") for name in ("op", "modifier", "a_mode", "b_mode")), ("a", "u4"), ("b", "u4")])


def columns(records: Records) -> dict[str, NDArray[Any]]:
    """Returns an array of records as columns without nested fields, as `pandas.DataFrame` takes them. For example, the
    field `address` of the first `change` is the column `change_0_address`.
    """
    if records.ndim > 1:
        parts = {str(index): columns(records[:, index]) for index in range(records.shape[1])}
    elif records.dtype.names:
        parts = {name: columns(records[name]) for name in records.dtype.names}
    else:
        return {"": records}
    return {f"{name}_{rest}".rstrip("_"): column for name, part in parts.items() for rest, column in part.items()}


def signed(number: int, core: int) -> int:
    """Returns a number as it is printed: the equivalent number nearest to 0, positive for half the core size."""
    return number - core if number > core // 2 else number


def cell_limits(core: int) -> Cell:
    """Returns a limit for each number of a cell in a core of a size: each number is from 0 to less than its limit."""
    return len(OPCODES), len(MODIFIERS), len(MODES), len(MODES), core, core


def cell_text(cell: Cell | np.void, core: int) -> str:
    """Returns a cell as text, as `mars` lists it: `cell_text(history.state(0).cells[0], 8000)` is `"MOV.I $0, $1"`.

    `core` is the core size; numbers above half of it are printed as negative ones. Raises `CorewarError` if a number is
    out of its range.
    """
    numbers = cell.tolist() if isinstance(cell, np.void) else cell
    op, modifier, a_mode, b_mode, a, b = numbers
    if not all(0 <= number < limit for number, limit in zip(numbers, cell_limits(core))):
        raise CorewarError(f"expected the numbers of a cell, below {cell_limits(core)}, not {numbers}")
    return f"{OPCODES[op]}.{MODIFIERS[modifier]} {MODES[a_mode]}{signed(a, core)}, {MODES[b_mode]}{signed(b, core)}"


def cell_of(text: str, core: int) -> Cell:
    """Returns the numbers of a cell that is written as `cell_text` returns it, in a core of a size. Raises
    `CorewarError` for any other text, and for a core without cells.
    """
    found = TEXT.fullmatch(text)
    if core < 1:
        raise CorewarError(f"expected a core size of 1 or more, not {core}")
    if found is None:
        raise CorewarError(f"expected a cell such as `MOV.I $0, $1`, not `{text}`")
    op, modifier, a_mode, a, b_mode, b = found.groups()
    kinds = OPCODES.index(op), MODIFIERS.index(modifier), MODES.index(a_mode), MODES.index(b_mode)
    return *kinds, int(a) % core, int(b) % core
