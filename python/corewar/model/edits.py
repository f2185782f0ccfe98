"""Edits of a battle, as values."""
from __future__ import annotations

from dataclasses import dataclass

import numpy as np

from .types import Cell
from .cells import cell_text
from .header import enumeration

# The kinds of an edit.
SET, MOVE, KILL, ADD = enumeration("SET_CELL").values()


@dataclass(frozen=True)
class Edit:
    """An edit of a battle. The static methods return edits of each kind; `Battle.edit` and `History.edited` check them.

    - `what`: 1 sets cells, 2 moves a process, 3 kills a process, 4 adds a process
    - `warrior`: the number of a warrior, from 0
    - `index`: the index of a process in the warrior's queue; the next one has index 0
    - `address`, `last`: the first and the last cell to set; or the new address of a process
    - `cell`: the new cell

    A field that its kind does not use is 0.
    """

    what: int
    warrior: int = 0
    index: int = 0
    address: int = 0
    last: int = 0
    cell: Cell = (0, 0, 0, 0, 0, 0)

    @staticmethod
    def set(address: int, cell: Cell | np.void) -> Edit:
        """Returns the edit that sets a cell to the numbers of another one, from `cell_of` or from an array of cells."""
        return Edit.fill(address, address, cell)

    @staticmethod
    def fill(first: int, last: int, cell: Cell | np.void) -> Edit:
        """Returns the edit that sets the cells from `first` to `last`."""
        numbers: Cell = cell.tolist() if isinstance(cell, np.void) else cell
        return Edit(SET, address=first, last=last, cell=numbers)

    @staticmethod
    def move(warrior: int, index: int, address: int) -> Edit:
        """Returns the edit that moves a process to an address."""
        return Edit(MOVE, warrior, index, address)

    @staticmethod
    def kill(warrior: int, index: int) -> Edit:
        """Returns the edit that removes a process; a warrior without a process is dead."""
        return Edit(KILL, warrior, index)

    @staticmethod
    def add(warrior: int, address: int) -> Edit:
        """Returns the edit that adds a process at the end of a warrior's queue."""
        return Edit(ADD, warrior, address=address)

    def text(self, core: int) -> str:
        """Returns the command of the debugger that makes this edit, for this core size."""
        if self.what == SET:
            where = f"edit {self.address}" if self.address == self.last else f"fill {self.address} {self.last}"
            return f"{where} {cell_text(self.cell, core)}"
        if self.what == MOVE:
            return f"move {self.warrior} {self.index} {self.address}"
        return f"kill {self.warrior} {self.index}" if self.what == KILL else f"spawn {self.warrior} {self.address}"
