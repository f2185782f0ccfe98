"""Describes what a warrior does without an opponent: which lines write and compare, at what strides, and when it first
hits itself.
"""
from __future__ import annotations

from collections.abc import Iterator
from dataclasses import dataclass, replace
from typing import Any

import numpy as np
from numpy.typing import NDArray

from ..battle.blocks import Block, Touches
from ..battle.conditions import executed
from ..battle.history import History
from ..battle.labels import Sources
from ..battle.runs import NOBODY
from ..engine.calls import Match
from ..engine.warriors import Warrior
from ..model.cells import OPCODES
from ..model.settings import Settings, settings_of
from .formatting import BattleFormatter, pluralize

COMPARING = [OPCODES.index(name) for name in ("SEQ", "SNE", "SLT", "JMZ", "JMN", "DJN")]
# The maximum number of turns, which take about 3 seconds.
MAX_TURNS = 1_000_000
# The most lines of a table, the most strides of a line, and the least share of a stride that is shown.
MAX_ROWS, MAX_STRIDES, MIN_SHARE = 8, 2, 0.2
# The maximum number of cells that a turn touches.
MAX_TOUCHED_CELLS = 8
# Cells that turns accessed: the turn, the address of its instruction, the loaded cell from which that was copied, and
# the address of the accessed cell.
ACCESS = np.dtype([(name, np.int64) for name in ("turn", "at", "origin", "address")])
Accesses = NDArray[Any]


@dataclass(frozen=True)
class Access:
    """A line that writes or compares cells: how many `times`, how many `cells` it reaches, the turn `by` which it has
    reached them all, the `strides` from one cell to the next, each with its share, and the line. A stride is None if
    none is frequent.
    """

    times: int
    cells: int
    by: int
    strides: tuple[tuple[int | None, float], ...]
    line: str

    @property
    def stride(self) -> str:
        """The strides as text."""
        shown = [
            "varies" if one is None else f"{one}" if share > 0.995 else f"{one} ({share:.0%})"
            for one, share in self.strides
        ]
        return ", ".join(shown) or "-"


@dataclass(frozen=True)
class Hit:
    """The first turn in which a warrior wrote another opcode over its own code: the writing cell, and the written one,
    each by its line and address.
    """

    turn: int
    writer: str
    written: str


@dataclass(frozen=True)
class Study:
    """What a warrior does without an opponent.

    - `name`, `length`: its name and its number of cells
    - `processes`: its maximum number of processes
    - `turns`, `survives`: the number of turns that it makes, and whether it lives after them
    - `hit`: the first turn in which it hits itself, or None
    - `core`, `written`, `scanned`: the number of all cells, of those that it writes, and of those outside its code that
      it scans
    - `writes`, `scans`: the lines that write and that scan, those that reach the most cells first

    Its text is what `corewar study` prints.
    """

    name: str
    length: int
    processes: int
    turns: int
    survives: bool
    hit: Hit | None
    core: int
    written: int
    scanned: int
    writes: tuple[Access, ...]
    scans: tuple[Access, ...]

    def __str__(self) -> str:
        return "\n".join(self._lines())

    def _lines(self) -> Iterator[str]:
        fate = f"{'survives' if self.survives else 'dies after'} {pluralize(self.turns, 'turn')}"
        size, processes = pluralize(self.length, "cell"), pluralize(self.processes, "process")
        yield f"{self.name} without an opponent: {size}, at most {processes}; {fate}."
        if self.hit is None:
            yield "It never writes another opcode over its own code."
        else:
            yield f"It first hits itself in turn {self.hit.turn}: {self.hit.writer} overwrites {self.hit.written}."
        yield f"It writes to {self.written} of {self.core} cells:" if self.written else "It writes nothing."
        yield from table_of("writes", self.writes)
        scanned = f"It scans {self.scanned} of {self.core} cells:"
        yield scanned if self.scanned else "It scans nothing outside its code."
        yield from table_of("reads", self.scans)


def table_of(what: str, rows: tuple[Access, ...]) -> Iterator[str]:
    """Describes accesses, a line for each."""
    if rows:
        yield f"  {what:>6}  cells by turn  {'stride':20} line"
    for row in rows[:MAX_ROWS]:
        yield f"  {row.times:6} {row.cells:6} {row.by:7}  {row.stride:20} {row.line}"
    if rows[MAX_ROWS:]:
        yield f"  and {pluralize(len(rows) - MAX_ROWS, 'more line')}"


def study(warrior: Warrior, *, settings: Settings | str = "94nop") -> Study:
    """Returns what a warrior does without an opponent, in at most a million turns.

    - `settings`: the parameters of the core, or the name of a hill

    Raises `MarsError` if the warrior is invalid.
    """
    given = settings_of(settings)
    given = replace(given, cycles=min(given.cycles, MAX_TURNS))
    return Observation(History(Match([warrior], settings=given))).study()


class Observation:
    """What a warrior does in a battle without an opponent: its writes, its scans and its first hit on itself."""

    def __init__(self, history: History) -> None:
        self.history, self.sources = history, Sources(history)
        self.formatter = BattleFormatter(history, self.sources)
        self.origins = executed(history, 0, history.end)["past"]["origin"].astype(np.int64)
        start = history.state(0)
        self.is_loaded, self.opcodes = history.owners(0) != NOBODY, start.cells["op"].copy()
        # The first turn that executed each cell, the first hit, and the maximum number of processes.
        self.executed = np.full(history.core, history.end + 1, np.int64)
        self.hit: tuple[int, int] | None = None
        self.processes = count = 1
        # The cells that it writes in any way, also by the modes of operands.
        self.is_written = np.zeros(history.core, bool)
        writes, scans = list[Accesses](), list[Accesses]()
        for block in history.blocks():
            queued = count + np.cumsum(block.records["queued"].astype(np.int64) - 1)
            self.processes, count = max(self.processes, int(queued.max())), int(queued[-1])
            turns = np.arange(block.first + 1, block.last + 1)
            np.minimum.at(self.executed, block.records["address"], turns)
            self.hit = self.hit or self._first_hit(block)
            self.is_written[block.written] = True
            writes.append(self._accesses(block, block.last_writes))
            scans.append(self._scanned(block))
        self.writes, self.scans = np.concatenate(writes), np.concatenate(scans)
        # What a warrior compares in its own code is no scan.
        own = self.is_loaded | (self.executed <= history.end)
        self.scans = self.scans[~own[self.scans["address"]]]

    def _accesses(self, block: Block, touches: Touches) -> Accesses:
        found = np.empty(len(touches.turns), ACCESS)
        found["turn"], found["address"] = touches.turns, touches.addresses
        found["at"] = block.records["address"][touches.turns - block.first - 1]
        found["origin"] = self.origins[touches.turns - 1]
        return found

    def _scanned(self, block: Block) -> Accesses:
        """Returns the cells that comparing instructions read, except the instructions themselves, once in a turn."""
        found = self._accesses(block, block.reads)
        again = (np.diff(found["turn"], prepend=-1) == 0) & (np.diff(found["address"], prepend=-1) == 0)
        is_other = found["address"] != found["at"]
        wanted: Accesses = found[np.isin(self.opcodes[found["origin"]], COMPARING) & is_other & ~again]
        return wanted

    def _first_hit(self, block: Block) -> tuple[int, int] | None:
        """Returns the first turn that changed the opcode of a cell that was loaded or executed before, and the cell; or
        None if there is no such turn.
        """
        changes = block.changes
        is_other = changes.before["op"] != changes.after["op"]
        is_own = self.is_loaded[changes.addresses] | (self.executed[changes.addresses] < changes.turns)
        found = np.flatnonzero(is_other & is_own)[:1]
        return (int(changes.turns[found[0]]), int(changes.addresses[found[0]])) if len(found) else None

    def study(self) -> Study:
        """Returns what was observed."""
        history, death = self.history, self.history.death(0)
        return Study(
            history.names[0],
            len(history.warriors[0]),
            self.processes,
            history.end,
            death is None,
            self._hit(),
            history.core,
            int(np.count_nonzero(self.is_written)),
            len(np.unique(self.scans["address"])),
            tuple(self._rows(self.writes)),
            tuple(self._rows(self.scans)),
        )

    def _hit(self) -> Hit | None:
        if self.hit is None:
            return None
        turn, address = self.hit
        return Hit(turn, *(self._line(at, turn) for at in (int(self.history.record(turn)["address"]), address)))

    def _line(self, address: int, turn: int) -> str:
        """Returns the line of a cell before a turn, and its address."""
        line = self.sources.line(self.history, address, turn - 1)
        return f"line {line.number} at {address}" if line else f"cell {address}"

    def _name(self, origin: int) -> str:
        """Returns the line of a loaded cell or, without a source, its address and text."""
        line = self.sources.lines.get(origin)
        return str(line or f"cell {origin}: {self.formatter.cell(self.history.block(0).start.cells[origin])}")

    def _rows(self, found: Accesses) -> list[Access]:
        """Returns accesses by the lines of their instructions, those that reach the most cells first."""
        names, rows = {origin: self._name(origin) for origin in np.unique(found["origin"]).tolist()}, []
        for name in dict.fromkeys(names.values()):
            own = found[np.isin(found["origin"], [origin for origin, one in names.items() if one == name])]
            _, first = np.unique(own["address"], return_index=True)
            given = len(own), len(first), int(own["turn"][first].max())
            rows.append(Access(*given, strides(own, self.history.core), name))
        return sorted(rows, key=lambda row: (row.cells, row.times), reverse=True)


def strides(found: Accesses, core: int) -> tuple[tuple[int | None, float], ...]:
    """Returns the distances between cells that the same operand accesses one after the other, the most frequent first,
    each with its share. If none is frequent, the only distance is None, with the share 1.
    """
    # The number of earlier accesses in the same turn, which distinguishes the operands of an instruction.
    firsts = np.flatnonzero(np.diff(found["turn"], prepend=-1))
    before = np.arange(len(found)) - np.repeat(firsts, np.diff(firsts, append=len(found)))
    operands = found["at"] * MAX_TOUCHED_CELLS + before
    order = np.argsort(operands, kind="stable")
    apart = np.diff(found["address"][order])[np.diff(operands[order]) == 0] % core
    distances, counts = np.unique(np.where(apart > core // 2, apart - core, apart), return_counts=True)
    best = np.argsort(-counts, kind="stable")[:MAX_STRIDES]
    shares = [
        (int(distances[one]), float(counts[one] / counts.sum()))
        for one in best
        if counts[one] >= MIN_SHARE * counts.sum()
    ]
    return tuple(shares) if shares or not len(apart) else ((None, 1.0),)
