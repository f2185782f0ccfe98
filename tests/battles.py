"""Random battles for hypothesis: warriors of any cells in a small core, and lines of the debugger.

Battles and records are made by one call of `Battle` for each line. `is_listed` compares a state with the listings of
the debugger.
"""
from __future__ import annotations

from collections.abc import Callable, Sequence
from typing import Any, NamedTuple

import numpy as np
from hypothesis import strategies as st
from numpy.typing import NDArray

from corewar.engine.battles import Battle
from corewar.engine.calls import Match
from corewar.engine.warriors import Warrior, read_load
from corewar.model.types import Cells, Records
from corewar.model.cells import MODES, MODIFIERS, OPCODES, cell_of, cell_text
from corewar.model.edits import Edit
from corewar.model.errors import MarsError
from corewar.model.settings import Settings

NUMBERS = st.integers(-9, 9)
CELLS = st.builds(
    "{}.{} {}{}, {}{}".format,
    # Opcodes that are listed twice are drawn twice as often, so that battles copy, split and jump more.
    st.sampled_from([*OPCODES, "MOV", "SPL", "JMP", "DJN", "ADD"]),
    st.sampled_from(MODIFIERS),
    st.sampled_from(MODES),
    NUMBERS,
    st.sampled_from(MODES),
    NUMBERS,
)


@st.composite
def warriors(draw: st.DrawFn) -> Warrior:
    """Draws a warrior of one to eight cells."""
    cells = draw(st.lists(CELLS, min_size=1, max_size=8))
    origin = draw(st.integers(0, len(cells) - 1))
    # The load file is read for the default core size; the smaller core of a match takes its numbers by value.
    return read_load("\n".join([f"ORG {origin}", *cells, ""]).encode())


@st.composite
def matches(draw: st.DrawFn) -> Match:
    """Draws a match of one to three warriors in a small core."""
    count = draw(st.integers(1, 3))
    settings = Settings(
        core=draw(st.sampled_from([24, 40, 61])),
        processes=draw(st.sampled_from([1, 3, 8])),
        cycles=draw(st.sampled_from([5, 40])),
        longest=8,
        distance=8,
        read_limit=draw(st.sampled_from([None, None, 7])),
        write_limit=draw(st.sampled_from([None, None, 5])),
    )
    return Match(tuple(draw(warriors()) for _ in range(count)), seed=draw(st.integers(1, 9999)), settings=settings)


@st.composite
def edits(draw: st.DrawFn) -> str:
    """Draws an edit as a line of the debugger, which may be refused."""
    address, warrior = draw(st.integers(0, 23)), draw(st.integers(0, 2))
    return draw(
        st.one_of(
            CELLS.map(lambda cell: f"edit {address} {cell}"),
            CELLS.map(lambda cell: f"fill {address} {min(23, address + 4)} {cell}"),
            st.just(f"spawn {warrior} {address}"),
            st.just(f"kill {warrior} 0"),
            st.just(f"move {warrior} 0 {address}"),
        )
    )


MOVES = st.one_of(edits(), st.sampled_from(["step", "run 3", "run 11"]))


# The maximum number of turns of one debugger command.
MAX_RUN = 1_000_000


def run_lines(turns: int) -> list[str]:
    """Returns debugger commands that execute a number of turns."""
    return [f"run {min(MAX_RUN, turns - done)}" for done in range(0, turns, MAX_RUN)]


def edit_of(line: str, core: int) -> Edit:
    """Returns the edit of a line of the debugger."""
    word, rest = line.split(" ", 1)
    count = {"edit": 1, "fill": 2}.get(word)
    if count is None:
        makers: dict[str, Callable[..., Edit]] = {"move": Edit.move, "kill": Edit.kill, "spawn": Edit.add}
        return makers[word](*map(int, rest.split()))
    *places, cell = rest.split(" ", count)
    return Edit.fill(int(places[0]), int(places[-1]), cell_of(cell, core))


class State(NamedTuple):
    """The state of a battle, with the fields of a `Battle`."""

    cells: Cells
    queues: list[NDArray[np.uint32]]
    deaths: NDArray[Any]
    turns: int
    cycle: int
    next: int
    over: bool


def replayed(fight: Match, round: int = 0, lines: Sequence[str] = (), turns: int = 0) -> Battle:
    """Returns the battle of a round after some lines (`step`, `run N` or edits) and then a number of turns. An edit
    that is refused changes nothing.
    """
    battle = Battle(fight, round)
    for line in lines:
        word, _, number = line.partition(" ")
        if word in ("step", "run"):
            battle.play(int(number or 1))
            continue
        try:
            battle.edit(edit_of(line, fight.settings.core))
        except MarsError:
            pass
    battle.play(turns)
    return battle


def record(fight: Match, round: int = 0, lines: Sequence[str] = (), first: int = 0, turns: int = 1) -> Records:
    """Returns the records of turns, after some lines and then `first` turns."""
    return replayed(fight, round, lines, first).play(turns, records=turns)[0]


def touched(fight: Match, round: int = 0, lines: Sequence[str] = (), first: int = 0, turns: int = 1) -> Records:
    """Returns the cells that turns touch, with the arguments of `record`."""
    return replayed(fight, round, lines, first).play(turns, touched=turns)[1]


def same(one: State | Battle, other: State | Battle) -> bool:
    """Returns whether two states are the same."""
    parts = [(one.cells, other.cells), (one.deaths, other.deaths), *zip(one.queues, other.queues)]
    return all(np.array_equal(*part) for part in parts) and (one.turns, one.cycle, one.next, one.over) == (
        *(other.turns, other.cycle, other.next, other.over),
    )


def is_listed(fight: Match, lines: Sequence[str], now: State | Battle, round: int = 0) -> bool:
    """Returns whether the debugger lists this state (its cells, queues and deaths) after these lines."""
    core, dead = fight.settings.core, dict(now.deaths.tolist())
    expected = [f"{address} {cell_text(cell, core)}" for address, cell in enumerate(now.cells)]
    expected += [" ".join([f"queue {number}:", *map(str, queue)]) for number, queue in enumerate(now.queues)]
    expected += [f"turn {now.turns} cycle {now.cycle} next {now.next} alive {len(now.queues) - len(dead)}"]
    for number, queue in enumerate(now.queues):
        expected.append(
            f"warrior {number} " + (f"dead {dead[number]}" if number in dead else f"processes {len(queue)}")
        )
    expected.append(f"battle {'over' if now.over else 'running'}")
    commands = [f"list 0 {core}", *(f"queue {number}" for number in range(len(now.queues))), "show"]
    replies = Battle(fight, round).debug([*lines, *commands]).splitlines()[-len(expected) :]
    return [line.partition(" at ")[0] for line in replies] == expected
