"""The history of a battle: the state after any turn, who changed a cell, and the effects of edits.

A run of a battle is kept as marks, whole battles at regular distances, and any other state is played from the mark
before it. The library follows the past of each cell and searches for turns. The records of turns are read in blocks.
"""
from __future__ import annotations

from collections.abc import Iterator
from functools import cached_property, lru_cache
from html import escape
from importlib import import_module
from typing import TYPE_CHECKING, Any

import numpy as np
from numpy.typing import NDArray

from ..engine.battles import Battle
from ..engine.binding import array
from ..engine.calls import Match
from ..model.types import Owners, Pasts, Records
from ..model.edits import Edit
from ..model.errors import CorewarError
from ..model.printing import make_distinct
from ..model.settings import whole
from .births import births_of
from .blocks import Block
from .runs import NOBODY, Run, Segment

if TYPE_CHECKING:
    # These modules describe histories, and are loaded when a history needs them.
    from corewar.analysis.causes import Why
    from corewar.analysis.turns import Turn
    from corewar.battle.conditions import Condition
    from corewar.pages.player import Player

# The number of turns of a block, and of blocks in the cache, 5 to 13 MB each.
BLOCK_SIZE, CACHED_BLOCKS = 65_536, 24


class History:
    """The battle of a round from its start to its end, with the edits made in it.

    - `match`: the match
    - `round`: the round, from 0

    Turns are numbered from 1; "after turn 0" is the start. Warriors are numbered from 0 in the order of their turns.
    `warriors` has them in this order, and `names` their names, made distinct. A history never changes: an edit returns
    another history, which shares the turns before the edit. The constructor runs the whole battle; it raises
    `MarsError` if the match is invalid, and `CorewarError` if it has more than 16 warriors.
    """

    def __init__(self, match: Match, round: int = 0) -> None:
        self.match, self.round, self.core = match, round, match.settings.core
        self.segments = [Segment.whole(Run(Battle(match, round)))]
        self.warriors = match.warriors[round % len(match.warriors) :] + match.warriors[: round % len(match.warriors)]
        self.names = make_distinct([warrior.called for warrior in self.warriors])
        # Histories that edits make from this one share the cache. A cache of the module would keep the runs of all
        # histories.
        self._blocks = lru_cache(maxsize=CACHED_BLOCKS)(read_block)

    def __repr__(self) -> str:
        return f"<History of {', '.join(self.names)}, round {self.round}, {self.end} turns>"

    def _repr_html_(self) -> str:
        """Returns a table of the end of the battle in HTML, for notebooks."""
        battle, cells = self.ending, np.bincount(self.owners(self.end), minlength=NOBODY + 1).tolist()
        lines = [f"<tr><th>warrior</th><th>after {self.end:,} turns</th><th>processes</th><th>cells</th></tr>"]
        for number, name in enumerate(self.names):
            death = self.death(number)
            fate = "alive" if death is None else f"died in turn {death:,}"
            row = (escape(name), fate, f"{len(battle.queues[number]):,}", f"{cells[number]:,}")
            lines.append(f"<tr>{''.join(f'<td>{text}</td>' for text in row)}</tr>")
        return f"<table>{''.join(lines)}</table>"

    def figure(self) -> Any:
        """Returns the picture that `corewar picture` writes, as a figure of matplotlib with `savefig`. Raises
        `ImportError` without matplotlib.
        """
        try:
            timeline = self._load("pictures.timeline")
        except ImportError as missing:
            advice = "Debian's python3-matplotlib, or with pip corewar[pictures]"
            raise ImportError(f"a figure requires matplotlib, {advice}: {missing}") from None
        return timeline.figure_of(self, timeline.whole(self))

    def player(self, turn: int = 0, height: int = 700) -> Player:
        """Returns an object that a notebook shows as the page of `corewar page`, with the battle after a turn, in a
        frame of this height in pixels. Its `page` is the HTML. Raises `CorewarError` if the site is not built.
        """
        found: Player = self._load("pages.player").player_of(self, turn, height)
        return found

    def why(self, warrior: int | str, turns: int = 4) -> Why:
        """Returns a `Why`: how the battle ended for a warrior, given by number, name or file, and why.

        - `turns`: the maximum number of its turns before its death that are described

        Raises `CorewarError` if there is no such warrior.
        """
        found: Why = self._load("analysis.causes").why_of(self._formatter, self.warrior(str(warrior)), turns)
        return found

    def trace(self, first: int = 1, last: int | None = None) -> list[Turn]:
        """Returns a `Turn` for each turn from `first` to `last` or the end. Raises `CorewarError` if the battle has no
        such turn.
        """
        last = self.end if last is None else last
        return [self._formatter.turn_of(turn) for turn in range(first, last + 1)]

    def find(self, *conditions: Condition) -> NDArray[np.int64]:
        """Returns the numbers of the turns that meet all conditions, in order. If one of the conditions is `at`, each
        number is one less, and may be 0: after the turn with this number, the cell is about to be executed.

        Conditions with the same word are about the same cell. Raises `CorewarError` without a condition, or if the core
        has no such cell.
        """
        if not conditions:
            raise CorewarError("expected a condition")
        found: Records = self._load("battle.conditions").places(self, conditions)
        return found["turn"].astype(np.int64)

    def born(self, turn: int, warrior: int | str, index: int = 0) -> tuple[list[int], int | None]:
        """Returns the turns in which a process and its ancestors were born, its own birth first; and the turn after
        which an edit added the earliest ancestor, or None if that ancestor was loaded.

        - `turn`: the turn after which, with the edits made after that turn, the process is in the queue
        - `warrior`: its warrior, by number, name or file
        - `index`: its index in the queue; the next one has index 0

        Raises `CorewarError` if there is no such turn, warrior or process.
        """
        self._segment(turn)
        return births_of(self.segments, turn, self.warrior(str(warrior)), index)

    def _load(self, module: str) -> Any:
        """Returns a module of the package that itself imports this one; so it is loaded only when it is needed."""
        return import_module(f"corewar.{module}")

    @cached_property
    def _formatter(self) -> Any:
        """The formatter that describes turns, with the sources of the warriors."""
        return self._load("analysis.formatting").BattleFormatter(self, self._load("battle.labels").Sources(self))

    def __getstate__(self) -> dict[str, Any]:
        # The cache cannot be pickled, and the formatter is made again when it is needed.
        return {name: value for name, value in vars(self).items() if name not in ("_blocks", "_formatter")}

    def __setstate__(self, state: dict[str, Any]) -> None:
        vars(self).update(state, _blocks=lru_cache(maxsize=CACHED_BLOCKS)(read_block))

    def warrior(self, named: str) -> int:
        """Returns the number of the warrior with this number, name or file, or of the only warrior whose name begins
        with this text. Raises `CorewarError` if there is none.
        """
        number = whole(named)
        if number is not None and number < len(self.names):
            return number
        for names, name in ((self.names, named), ([name.lower() for name in self.names], named.lower())):
            if name in names:
                return names.index(name)
        for number, warrior in enumerate(self.warriors):
            if named and named in warrior.files:
                return number
        begun = [number for number, name in enumerate(self.names) if name.lower().startswith(named.lower())]
        if named and not named.isdecimal() and len(begun) == 1:
            return begun[0]
        listing = ", ".join(f"{number} {name}" for number, name in enumerate(self.names))
        raise CorewarError(f"no warrior `{named}`; the warriors are {listing}")

    @property
    def end(self) -> int:
        """The number of the last turn."""
        return self.segments[-1].last

    @property
    def edits(self) -> tuple[tuple[int, Edit], ...]:
        """The edits in order, each as a pair: the number of the turn after which it was made, and the edit."""
        return tuple((one.first, one.run.edit) for one in self.segments if one.run.edit)

    def _segment(self, turn: int) -> Segment:
        """Returns the segment of the state after a turn, with the edits made after that turn. Raises CorewarError."""
        if not 0 <= turn <= self.end:
            raise CorewarError(f"the battle has turns 0 to {self.end}")
        return next(segment for segment in reversed(self.segments) if segment.first <= turn)

    def block(self, turn: int) -> Block:
        """Returns the block of the state after a turn, with the edits made after that turn. Raises CorewarError."""
        segment = self._segment(turn)
        first = turn - (turn - segment.first) % BLOCK_SIZE
        return self._blocks(segment.run, first, min(BLOCK_SIZE, segment.last - first))

    def block_of(self, turn: int) -> Block:
        """Returns the block with the record of a turn, from 1. Raises CorewarError."""
        self._segment(turn)
        return self.block(turn - 1)

    def blocks(self, first: int = 0, last: int | None = None) -> Iterator[Block]:
        """Yields the blocks with the turns after `first`, up to `last` or the end."""
        turn, last = first, self.end if last is None else last
        self._segment(last)
        while turn < last:
            block = self.block(turn)
            yield block
            turn = block.last

    def record(self, turn: int) -> np.void:
        """Returns the record of a turn, from 1, without its writes, with the fields of `MarsRecord`. Raises
        `CorewarError` if the battle has no such turn.
        """
        block = self.block_of(turn)
        record: np.void = block.records[turn - block.first - 1]
        return record

    def state(self, turn: int) -> Battle:
        """Returns the battle after a turn. Raises `CorewarError` if the battle has no such turn."""
        return self._segment(turn).run.at(turn)

    def executed(self, turn: int) -> np.void:
        """Returns the cell that a turn executed, as it was before the turn."""
        block = self.block_of(turn)
        return block.cell(int(self.record(turn)["address"]), turn - 1)

    def head(self, turn: int) -> int | None:
        """Returns the address that is executed next after a turn, or None if the battle is over."""
        block = self.block(turn)
        return None if turn == self.end else int(block.queue(block.next_warrior(turn), turn)[0])

    @property
    def ending(self) -> Battle:
        """The battle at its end."""
        return self.segments[-1].run.ending.copy()

    @property
    def _deaths(self) -> Records:
        return self.segments[-1].run.ending.deaths

    def deaths(self, turn: int) -> Records:
        """Returns the deaths up to a turn, in order, as an array with the fields warrior and turns."""
        return self._deaths[self._deaths["turns"] <= turn]

    def death(self, warrior: int) -> int | None:
        """Returns the turn in which a warrior dies, or after which an edit kills it, or None if it survives. Raises
        `CorewarError` if there is no such warrior.
        """
        if not 0 <= warrior < len(self.names):
            raise CorewarError(f"the battle has warriors 0 to {len(self.names) - 1}")
        return next((int(turns) for number, turns in self._deaths.tolist() if number == warrior), None)

    def is_killed(self, warrior: int) -> bool:
        """Returns whether a warrior was killed by an edit, and not in a turn of its own."""
        turn = self.death(warrior)
        # No turn has the number 0, so the death of a warrior in turn 0 is by an edit at the start.
        if turn is None or turn == 0:
            return turn == 0
        record = self.record(turn)
        return not record["died"] or int(record["warrior"]) != warrior

    def owners(self, turn: int) -> Owners:
        """Returns the owner of each cell after a turn, the warrior that changed it last or was loaded there.

        An owner is a warrior's number, 255 if no warrior owns the cell, or 254 if an edit changed it last.
        """
        return self.written(turn)[0]

    def written(self, turn: int) -> tuple[Owners, NDArray[np.int64]]:
        """Returns the owner of each cell after a turn, as `owners` does, and the turn that changed the cell last, or 0
        if no turn did. For a cell that an edit changed last it is the turn after which the edit was made.
        """
        pasts = self.pasts(turn)
        return pasts["owner"].astype(np.uint8), pasts["turn"].astype(np.int64)

    def pasts(self, turn: int) -> Pasts:
        """Returns the past of each cell after a turn, with the edits made after that turn: an array with the fields of
        `MarsPast`. An `origin` is the address of a loaded cell or, from the core size on, a cell that an edit set.
        """
        return self.followed(turn)[1]

    def followed(self, turn: int) -> tuple[Battle, Pasts]:
        """Returns the battle after a turn, with the edits made after that turn, and the past of each cell."""
        last = self._segment(turn)
        for before, segment in zip([None, *self.segments], self.segments):
            if not segment.run.is_followed:
                segment.run.follow_from(before.run.followed(before.last)[1] if before else self._loaded())
            if segment is last:
                break
        return last.run.followed(turn)

    def _loaded(self) -> Pasts:
        """Returns the pasts at the start."""
        pasts = array("MarsPast", self.core)
        pasts["owner"], pasts["origin"] = NOBODY, np.arange(self.core)
        for number in range(len(self.warriors)):
            first, length = self.loaded(number)
            pasts["owner"][(first + np.arange(length)) % self.core] = number
        return pasts

    def loaded(self, warrior: int) -> tuple[int, int]:
        """Returns the address at which a warrior was loaded, and its length."""
        start, loaded = self.segments[0].run.at(0), self.warriors[warrior]
        return (int(start.queues[warrior][0]) - loaded.start) % self.core, len(loaded)

    def by_hand(self, address: int, turn: int) -> tuple[int, np.void, np.void] | None:
        """Returns the last change of a cell by an edit that was made after this turn or an earlier one: the number of
        that turn, and the cell before and after the edit. Returns None if there is no such edit.
        """
        for run in reversed([one.run for one in self.segments]):
            if run.before and run.first <= turn:
                before, after = run.before.cells[address], run.at(run.first).cells[address]
                if before != after:
                    return run.first, before, after
        return None

    def edited(self, turn: int, edit: Edit) -> History:
        """Returns the history in which an edit changes the battle after a turn.

        Raises `MarsError` if the edit is impossible there, such as `refused 2 Address` if the address is outside the
        core, and `CorewarError` if the battle has no such turn.
        """
        before = self.state(turn)
        after = before.copy()
        after.edit(edit)
        # The constructor would run the battle from its start.
        edited = History.__new__(History)
        edited.__dict__.update({name: value for name, value in vars(self).items() if name != "_formatter"})
        kept = [Segment(one.run, min(one.last, turn)) for one in self.segments if one.first <= turn]
        edited.segments = [*kept, Segment.whole(Run(after, edit, before))]
        return edited


def spans(history: History, first: int, last: int) -> list[tuple[int, int]]:
    """Returns the turns after `first` up to `last` in parts of at most BLOCK_SIZE turns, with edits only between two
    parts: for each part the turn after which it begins, and its last turn.
    """
    found = list[tuple[int, int]]()
    for segment in history.segments:
        end = min(segment.last, last)
        ends = [*range(max(segment.first, first), end, BLOCK_SIZE), end]
        found += zip(ends, ends[1:])
    return found


def read_block(run: Run, first: int, count: int) -> Block:
    """Returns the block of the `count` turns of a run that follow turn `first`."""
    start = run.at(first)
    return Block(
        first, start, start.copy().play(count, records=count)[0], lambda: start.copy().play(count, touched=count)[1]
    )
