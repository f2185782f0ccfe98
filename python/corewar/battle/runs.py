"""A run of a battle: its states and the pasts of cells at regular distances. To get them after other turns, the turns
between are played.
"""
from __future__ import annotations

from dataclasses import dataclass
from typing import Any

import numpy as np

from ..engine.battles import Battle, battle_of_words
from ..model.types import Pasts
from ..model.edits import Edit

# The number of turns between two marks, at least.
STRIDE = 65_536
# The maximum number of marks of a run, an even number, and of their bytes together.
MAX_MARKS, MAX_MARK_BYTES = 64, 64 << 20
# The owner of a cell that no warrior wrote or was loaded in, and of a cell that an edit changed last. The owner of any
# other cell is the number of a warrior.
NOBODY, BY_HAND = 255, 254


class Run:
    """A battle from its start, or from an edit, to its end.

    - `first`: the turn after which it starts
    - `marks`: copies of the battle as bytes, after the turn `first` and after every `stride` turns from there
    - `ending`: the battle at its end
    - `edit`, `before`: the edit, and the battle before it; None if the run starts with the battle

    The constructor plays a battle to its end. If the marks become too many, every other one is dropped, and the stride
    doubles. Pasts are followed when they are needed, since that takes several times as long.
    """

    def __init__(self, battle: Battle, edit: Edit | None = None, before: Battle | None = None) -> None:
        self.first, self.ending, self.edit, self.before = battle.turns, battle, edit, before
        marks, self.stride = [bytes(battle)], STRIDE
        # An even number, so that the battle is at the last mark after every other one is dropped.
        max_marks = max(2, min(MAX_MARKS, MAX_MARK_BYTES // len(marks[0]) // 2 * 2))
        battle.play(self.stride)
        while not battle.over:
            marks.append(bytes(battle))
            if len(marks) > max_marks:
                marks, self.stride = marks[::2], 2 * self.stride
            battle.play(self.stride)
        self.marks = tuple(marks)
        # The pasts at the marks for which they are known; and the battle and its pasts that were requested last.
        self._pasts: dict[int, Pasts] = {}
        self._latest: tuple[Battle, Pasts] | None = None

    def __getstate__(self) -> dict[str, Any]:
        # The pasts are computed again when they are needed.
        return {**vars(self), "_pasts": {}, "_latest": None}

    def at(self, turn: int) -> Battle:
        """Returns a copy of the battle after a turn."""
        battle = battle_of_words(self.marks[self._mark(turn)])
        battle.play(turn - battle.turns)
        return battle

    def _mark(self, turn: int) -> int:
        """Returns the index of the last mark up to a turn."""
        return min((turn - self.first) // self.stride, len(self.marks) - 1)

    @property
    def is_followed(self) -> bool:
        """Whether the pasts at the start are known."""
        return bool(self._pasts)

    def follow_from(self, pasts: Pasts) -> None:
        """Takes the pasts at the start. If the run starts with an edit, `pasts` are those before it, and the cells that
        the edit changed get the owner BY_HAND.
        """
        start = pasts.copy()
        if self.before:
            changed = np.flatnonzero(self.before.cells != battle_of_words(self.marks[0]).cells)
            start["owner"][changed], start["turn"][changed] = BY_HAND, self.first
            # No other cell has these origins.
            start["origin"][changed] = max(len(pasts), int(pasts["origin"].max()) + 1) + np.arange(len(changed))
        self._pasts[0] = start

    def followed(self, turn: int) -> tuple[Battle, Pasts]:
        """Returns copies of the battle and of its pasts after a turn. The pasts at the start must be known."""
        mark, latest = self._mark(turn), self._latest
        # The keys are listed at once: another thread may add some.
        known = max(index for index in [*self._pasts] if index <= mark)
        if latest and self.first + known * self.stride <= latest[0].turns <= turn:
            battle, pasts = latest[0].copy(), latest[1].copy()
        else:
            battle, pasts = battle_of_words(self.marks[known]), self._pasts[known].copy()
        for index in range(known + 1, mark + 1):
            battle.follow(pasts, self.first + index * self.stride - battle.turns)
            self._pasts[index] = pasts.copy()
        if turn > battle.turns or latest is None:
            battle.follow(pasts, turn - battle.turns)
            self._latest = battle.copy(), pasts.copy()
        return battle, pasts


@dataclass(frozen=True)
class Segment:
    """The turns of a run that a history has: up to the next edit, or to the end."""

    run: Run
    last: int

    @staticmethod
    def whole(run: Run) -> Segment:
        """Returns all turns of a run."""
        return Segment(run, run.ending.turns)

    @property
    def first(self) -> int:
        """The turn after which the segment starts."""
        return self.run.first
