"""Turns in blocks: their records, the state before them, and the cells that they changed and read."""
from __future__ import annotations

from collections.abc import Callable
from dataclasses import dataclass
from functools import cached_property
from typing import Any

import numpy as np
from numpy.lib.recfunctions import repack_fields
from numpy.typing import NDArray

from ..engine.battles import Battle
from ..model.types import Cells, Records


@dataclass(frozen=True, eq=False)
class Touches:
    """Cells that turns accessed, in the order of the turns, each with its turn and warrior."""

    turns: NDArray[np.int64]
    addresses: NDArray[np.uint32]
    warriors: NDArray[np.uint32]

    def of(self, turn: int) -> slice:
        """Returns the slice of the arrays that has the cells of a turn."""
        return slice(*np.searchsorted(self.turns, [turn, turn + 1]))


@dataclass(frozen=True, eq=False)
class Changes(Touches):
    """The cells that turns changed."""

    before: Cells
    after: Cells


def changes_of(first: int, records: Records) -> Changes:
    """Returns the changes of the turns after `first`. Several writes of a cell in one turn are one change, from the
    cell before the first write to the cell after the last one.
    """
    kinds = records.dtype["change"].base
    places, writes = writes_of(records)
    rows, address, before, after = places // 3, writes[:, 0], writes[:, 1:4], writes[:, 4:]
    is_last = np.ones(len(rows), bool)
    # A turn has at most three writes, so an earlier one of the same cell is one or two places before.
    for ahead in (1, 2):
        earlier = np.flatnonzero((rows[ahead:] == rows[:-ahead]) & (address[ahead:] == address[:-ahead]))
        before[earlier + ahead] = before[earlier]
        is_last[earlier] = False
    differs = (before[:, 0] != after[:, 0]) | (before[:, 1] != after[:, 1]) | (before[:, 2] != after[:, 2])
    used = np.flatnonzero(is_last & differs)
    turns, warriors = first + 1 + rows[used], records["warrior"][rows[used]]
    cells = [words.take(used, axis=0).view(kinds[name])[:, 0] for name, words in (("before", before), ("after", after))]
    return Changes(turns, address[used], warriors, *cells)


def writes_of(records: Records) -> tuple[NDArray[np.intp], NDArray[np.uint32]]:
    """Returns the place of each write and its words: the address, the cell before and the cell after. Each turn has
    three places, numbered on from those of the turn before it. NumPy copies words many times faster than structures.
    """
    fields: Any = records.dtype.fields
    change, start = fields["change"]
    words = records.view(np.uint32).reshape(len(records), records.itemsize // 4)
    words = words[:, start // 4 : (start + change.itemsize) // 4].reshape(-1, change.base.itemsize // 4)
    is_used = np.stack([records["changes"] > place for place in range(3)], axis=1)
    places = np.flatnonzero(is_used)
    return places, words.take(places, axis=0)


class Block:
    """Turns `first` + 1 to `last` of a battle: their records without the writes, their changes, and the state before
    them. `touched` returns the cells that they touch.
    """

    def __init__(self, first: int, start: Battle, records: Records, touched: Callable[[], Records]) -> None:
        self.first, self.last, self.start = first, first + len(records), start
        self.changes = changes_of(first, records)
        self._writes, self.touched = records["change"]["address"].copy(), touched
        # The writes are four fifths of a record.
        self.records: Records = repack_fields(records[[name for name in records.dtype.names or () if name != "change"]])

    @cached_property
    def reads(self) -> Touches:
        """The cells that turns touched without writing them, some more than once. They are computed when needed."""
        touched = self.touched()
        address, used = touched["address"], np.arange(touched["address"].shape[1]) < touched["count"][:, None]
        for place in range(self._writes.shape[1]):
            is_written = address == self._writes[:, place, None]
            used &= ~(is_written & (place < self.records["changes"])[:, None])
        rows = np.nonzero(used)[0]
        return Touches(self.first + 1 + rows, address[used], self.records["warrior"][rows])

    @property
    def written(self) -> NDArray[np.uint32]:
        """The address of each write of the turns, also of those that changed nothing."""
        found: NDArray[np.uint32] = self._writes[np.arange(3) < self.records["changes"][:, None]]
        return found

    @property
    def last_writes(self) -> Touches:
        """The cell that each turn wrote last, also if that changed nothing. The modes of operands write first, then the
        instruction itself.
        """
        rows = np.flatnonzero(self.records["changes"])
        addresses = self._writes[rows, self.records["changes"][rows] - 1]
        return Touches(self.first + 1 + rows, addresses, self.records["warrior"][rows])

    def rewritten(self, turn: int) -> list[int]:
        """Returns the cells that a turn wrote and left as they were."""
        row = turn - self.first - 1
        written = self._writes[row, : self.records["changes"][row]].tolist()
        changed = self.changes.addresses[self.changes.of(turn)].tolist()
        return [address for address in dict.fromkeys(written) if address not in changed]

    def count(self, turn: int) -> int:
        """Returns the number of changes up to a turn."""
        return int(np.searchsorted(self.changes.turns, turn, "right"))

    def cells(self, turn: int) -> Cells:
        """Returns the core after a turn."""
        cells, count = self.start.cells.copy(), self.count(turn)
        cells[self.changes.addresses[:count]] = self.changes.after[:count]
        return cells

    def cell(self, address: int, turn: int) -> np.void:
        """Returns a cell after a turn."""
        found = np.flatnonzero(self.changes.addresses[: self.count(turn)] == address)
        cell: np.void = self.changes.after[found[-1]] if len(found) else self.start.cells[address]
        return cell

    @cached_property
    def _queued(self) -> list[tuple[NDArray[np.uint32], NDArray[np.intp], NDArray[np.intp]]]:
        """For each warrior the addresses that it queued, and, after each turn, their number and the number of its
        turns.
        """
        used = np.arange(2) < self.records["queued"][:, None]
        found = []
        for warrior in range(len(self.start.queues)):
            own = self.records["warrior"] == warrior
            queued, turns = np.cumsum(np.where(own, self.records["queued"], 0)), np.cumsum(own)
            found.append((self.records["process"][used & own[:, None]], queued.astype(np.intp), turns.astype(np.intp)))
        return found

    def queue(self, warrior: int, turn: int) -> NDArray[np.uint32]:
        """Returns the addresses of a warrior's processes after a turn, the next one first: all that were queued,
        without the first one for each turn that it made.
        """
        if turn == self.first:
            return self.start.queues[warrior]
        processes, queued, turns = self._queued[warrior]
        place = turn - self.first - 1
        queue: NDArray[np.uint32] = np.concatenate([self.start.queues[warrior], processes[: queued[place]]])
        return queue[turns[place] :]

    def next_warrior(self, turn: int) -> int:
        """Returns the warrior whose turn is next after a turn."""
        return self.start.next if turn == self.first else int(self.records["next"][turn - self.first - 1])

    def cycle(self, turn: int) -> int:
        """Returns the number of cycles completed after a turn."""
        return self.start.cycle if turn == self.first else int(self.records["cycle"][turn - self.first - 1])
