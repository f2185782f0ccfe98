"""Conditions on turns, and searches for them in a battle, forwards and backwards."""
from __future__ import annotations

from collections.abc import Iterator, Sequence
from dataclasses import dataclass
from operator import itemgetter

import numpy as np

from ..engine.binding import MAX_UINT32, array
from ..model.cells import OPCODES
from ..model.errors import CorewarError
from ..model.header import enumeration
from ..model.types import Records
from .history import History, spans
from .runs import BY_HAND

EXECUTES, CHANGES, READS = enumeration("EXECUTES").values()
WARRIOR, QUEUED, DIED, ADDRESS, OWNER, TURN, ORIGIN, OPCODE, NEW_OPCODE = enumeration("NUMBER_WARRIOR").values()
# The conditions on cells, each with the way in which a turn uses the cell; and the conditions on a warrior, each with a
# number of the turn and its value.
CELL_CONDITIONS = {"at": EXECUTES, "changes": CHANGES, "reads": READS}
WARRIOR_CONDITIONS = {"splits": (QUEUED, 2), "ends": (QUEUED, 0), "dies": (DIED, 1)}
# The way, the number and the range of a condition of the library, as in `MarsCondition`.
Row = tuple[int, int, int, int]
# The condition that all turns meet.
ALL: Row = (EXECUTES, ADDRESS, 0, MAX_UINT32)


@dataclass(frozen=True)
class Condition:
    """A condition on a turn, and on a cell that it uses.

    - `word`: what the turn did. It executed (`at`), changed (`changes`) or read (`reads`) the cell; its warrior gained
      a process (`splits`), lost one (`ends`) or died (`dies`); or it did anything (`moves`). For the last four words
      the cell is the one that the turn executed
    - `cells`: the range of the cell's address, from the first to the last; if the last is smaller, the range goes
      around the end of the core
    - `of`: the warrior that changed the cell last, or that was loaded there
    - `origin`: the range, given in the same way, of the address at which the cell's instruction was loaded
    - `was`, `becomes`: the cell's opcode before the turn, such as `DAT`, and the opcode that the turn gave it in place
      of another
    - `by`: the warrior of the turn

    None stands for any. Warriors have their numbers in the order of turns. The constructor raises `CorewarError` for
    another word, or an opcode that does not exist.
    """

    word: str
    cells: tuple[int, int] | None = None
    of: int | None = None
    origin: tuple[int, int] | None = None
    was: str | None = None
    becomes: str | None = None
    by: int | None = None

    def __post_init__(self) -> None:
        words = (*CELL_CONDITIONS, *WARRIOR_CONDITIONS, "moves")
        if self.word not in words:
            raise CorewarError(f"no condition `{self.word}`; expected {', '.join(words)}")
        for opcode in (self.was, self.becomes):
            if opcode not in (None, *OPCODES):
                raise CorewarError(f"no opcode `{opcode}`; the opcodes are {', '.join(OPCODES)}")

    def rows(self, core: int) -> list[Row]:
        """Returns the conditions of the library, all of which a turn must meet, for a core of this size. Raises
        CorewarError if an address is outside the core.
        """
        for address in (*(self.cells or ()), *(self.origin or ())):
            if not 0 <= address < core:
                raise CorewarError(f"no cell {address}; the core has cells 0 to {core - 1}")
        way, event = CELL_CONDITIONS.get(self.word, EXECUTES), WARRIOR_CONDITIONS.get(self.word)
        values = {OWNER: self.of, OPCODE: None if self.was is None else OPCODES.index(self.was), WARRIOR: self.by}
        rows = [(way, number, value, value) for number, value in values.items() if value is not None]
        rows += [(way, ADDRESS, *self.cells)] if self.cells else [(way, ADDRESS, 0, MAX_UINT32)]
        if self.becomes:
            opcode = OPCODES.index(self.becomes)
            # A range whose end is below its start goes around.
            rows += [(way, NEW_OPCODE, opcode, opcode), (way, OPCODE, opcode + 1, (opcode - 1) & MAX_UINT32)]
        if self.origin:
            # Cells that an edit set have origins above the core, which only the second row keeps out of a range around
            # the end of the core.
            rows += [(way, ORIGIN, *self.origin), (way, ORIGIN, 0, core - 1)]
        return rows + ([(way, event[0], event[1], event[1])] if event else [])


# Conditions, all of which one turn must meet; those with the same word are about the same cell.
Joined = Sequence[Condition]


def by_warrior(warrior: int) -> Row:
    """Returns the condition that a turn is made by this warrior."""
    return EXECUTES, WARRIOR, warrior, warrior


def find(
    history: History, rows: Sequence[Row], first: int = 0, last: int | None = None, forward: bool = True
) -> Iterator[Records]:
    """Yields the turns after `first`, up to `last` or the end, that meet all conditions of the library: an array
    for each of the `spans`, the last span first if not `forward`. Each array is in the order of the turns and has the
    fields of `MarsFound`; its pasts are known only if a condition is about a past.
    """
    parts = spans(history, first, history.end if last is None else last)
    is_past_asked = any(OWNER <= number <= ORIGIN for _, number, *_ in rows)
    for start, end in parts if forward else reversed(parts):
        # Without conditions on pasts, the pasts at the start do not matter.
        if is_past_asked:
            battle, pasts = history.followed(start)
        else:
            battle, pasts = history.state(start), array("MarsPast", history.core)
        yield battle.follow(pasts, end - start, rows)


def places_in(
    history: History, joined: Joined, first: int = 0, last: int | None = None, forward: bool = True
) -> Iterator[Records]:
    """Yields the places at which conditions hold, as `find` yields turns. A place is a number of executed turns: that
    of the turn that meets the conditions or, for `at`, of the turn before it.
    """
    rows = [row for one in joined for row in one.rows(history.core)]
    for found in find(history, rows, first, last, forward):
        # `at` is about the turn after the place.
        found["turn"] -= any(one.word == "at" for one in joined)
        yield found


def places(history: History, joined: Joined) -> Records:
    """Returns all places at which conditions hold, in order."""
    return np.concatenate([*places_in(history, joined)])


def search(
    history: History, conditions: Sequence[Joined], turn: int, forward: bool = True
) -> tuple[int, Joined] | None:
    """Returns the first place after a turn at which one of the conditions holds, with that condition, or None if there
    is no such place. If not `forward`, it is the last place before the turn.
    """
    span = (turn, history.end) if forward else (0, turn)
    for parts in zip(*(places_in(history, joined, *span, forward) for joined in conditions)):
        found = []
        for joined, held in zip(conditions, (part["turn"] for part in parts)):
            near = held[held > turn][:1] if forward else held[held < turn][-1:]
            found += [(int(place), joined) for place in near]
        if found:
            return (min if forward else max)(found, key=itemgetter(0))
    return None


def last_change(history: History, address: int, turn: int) -> int | None:
    """Returns the turn, up to this one, that changed a cell last, or None if the cell is as it was loaded or edited."""
    past = history.pasts(turn)[address]
    return int(past["turn"]) if past["turn"] and past["owner"] != BY_HAND else None


def last_copy(history: History, address: int, turn: int) -> int | None:
    """Returns the last turn, up to this one, in which the instruction that a cell has was copied there in place of
    another one, or None if there is no such turn.
    """
    origin = int(history.pasts(turn)[address]["origin"])
    # A range whose end is below its start goes around.
    rows = [(CHANGES, ADDRESS, address, address), (CHANGES, ORIGIN, origin + 1, (origin - 1) & MAX_UINT32)]
    return next((int(found["turn"][-1]) for found in find(history, rows, 0, turn, False) if len(found)), None)


def executed(history: History, first: int, last: int, rows: Sequence[Row] = (ALL,)) -> Records:
    """Returns the turns after `first` up to `last` that meet all conditions of the library, with the cell that each
    executed and its past: an array with the fields of `MarsFound`.
    """
    parts = [array("MarsFound", 0)]
    for start, end in spans(history, first, last):
        battle, pasts = history.followed(start)
        parts.append(battle.follow(pasts, end - start, rows))
    return np.concatenate(parts)
