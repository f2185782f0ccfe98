"""The pasts of cells and the turns that a history finds are those of their definitions, read over records of turns."""
from __future__ import annotations

from typing import NamedTuple

import numpy as np
import pytest
from battles import edit_of, edits, matches
from hypothesis import given, strategies as st

from corewar.battle import conditions, history as module, runs
from corewar.battle.conditions import ADDRESS, CHANGES, EXECUTES, ORIGIN, QUEUED, READS, Row, find
from corewar.battle.history import History
from corewar.battle.runs import BY_HAND, NOBODY
from corewar.engine.battles import Battle
from corewar.engine.calls import Match
from corewar.model.cells import MODES, MODIFIERS, OPCODES
from corewar.model.errors import CorewarError

# The owner, the turn and the origin of a cell, and what a turn does with cells: the addresses that it uses in each way,
# and the numbers of each cell in the order of the header.
Past = tuple[int, int, int]


class Facts(NamedTuple):
    uses: dict[int, list[int]]
    numbers: list[list[int]]


@pytest.fixture(autouse=True)
def small_blocks(monkeypatch: pytest.MonkeyPatch) -> None:
    monkeypatch.setattr(module, "BLOCK_SIZE", 7)
    monkeypatch.setattr(runs, "STRIDE", 5)
    monkeypatch.setattr(runs, "MAX_MARKS", 4)


def executed(battle: Battle, pasts: list[Past]) -> Facts:
    """Executes a turn of a battle and changes the pasts. Returns what is known of the turn."""
    before, old = battle.cells.copy(), [*pasts]
    (record,), (row,) = battle.play(1, records=1, touched=1)
    at, warrior, after = int(record["address"]), int(record["warrior"]), battle.cells
    touched, written = (
        row["address"][: row["count"]].tolist(),
        record["change"]["address"][: record["changes"]].tolist(),
    )
    changed = np.flatnonzero(before != after).tolist()
    op, modifier, a_mode, *_ = before[at].tolist()
    if (OPCODES[op], MODIFIERS[modifier]) == ("MOV", "I"):
        # The pointers of A are before the cell that is copied; the target is last.
        source, target = touched[1 if MODES[a_mode] in "#$" else 3], touched[-1]
        pasts[target] = (*pasts[target][:2], old[source][2])
    for address in changed:
        pasts[address] = (warrior, battle.turns, pasts[address][2])
    reads = [address for address in touched if address not in written]
    of_turn = [warrior, int(record["queued"]), int(record["died"])]
    opcodes = zip(before["op"].tolist(), after["op"].tolist())
    numbers = [[*of_turn, address, *past, *ops] for address, (past, ops) in enumerate(zip(old, opcodes))]
    return Facts({EXECUTES: [at], CHANGES: changed, READS: reads}, numbers)


def read(history: History, last: int) -> tuple[list[Past], list[Facts]]:
    """Returns the pasts after a turn and the edits there, and the facts of each turn up to it."""
    battle, facts = Battle(history.match, history.round), list[Facts]()
    pasts = [(NOBODY, 0, address) for address in range(history.core)]
    for number, warrior in enumerate(history.warriors):
        first = int(battle.queues[number][0]) - warrior.start
        for address in range(first, first + len(warrior)):
            pasts[address % history.core] = (number, 0, address % history.core)
    waiting = [*history.edits]
    while True:
        while waiting and waiting[0][0] == battle.turns:
            before = battle.cells.copy()
            battle.edit(waiting.pop(0)[1])
            for address in np.flatnonzero(before != battle.cells).tolist():
                pasts[address] = (BY_HAND, battle.turns, history.core)
        if battle.turns == last:
            return pasts, facts
        facts.append(executed(battle, pasts))


def meets(rows: list[Row], facts: Facts) -> bool:
    """Returns whether a turn uses in each way a cell that meets all conditions on this way."""

    def holds(row: Row, address: int) -> bool:
        _, number, first, last = row
        found = facts.numbers[address][number - 1]
        return first <= found <= last if first <= last else found >= first or found <= last

    return all(
        any(all(holds(row, address) for row in rows if row[0] == way) for address in facts.uses[way])
        for way in {way for way, *_ in rows}
    )


@st.composite
def histories(draw: st.DrawFn) -> History:
    """A history with up to three edits."""
    fight: Match = draw(matches())
    history, turn = History(fight, draw(st.integers(0, 2))), 0
    for _ in range(draw(st.integers(0, 3))):
        turn = draw(st.integers(turn, history.end))
        try:
            history = history.edited(turn, edit_of(draw(edits()), history.core))
        except CorewarError:
            pass
    return history


@given(histories(), st.lists(st.floats(0, 1), max_size=5))
def test_pasts(history: History, parts: list[float]) -> None:
    for turn in [history.end, *(int(part * history.end) for part in parts)]:
        battle, pasts = history.followed(turn)
        # Here all edited cells have the same origin, the core size.
        found = [(owner, when, min(origin, history.core)) for owner, when, origin in pasts.tolist()]
        assert found == read(history, turn)[0] and battle == history.state(turn)


NUMBERS = st.integers(0, 2) | st.integers(0, 61) | st.sampled_from([BY_HAND, NOBODY])
ROWS = st.tuples(st.integers(1, 3), st.integers(1, 9), NUMBERS, NUMBERS)


@given(histories(), st.lists(ROWS, min_size=1, max_size=3), st.floats(0, 1), st.booleans())
def test_searches(history: History, rows: list[Row], part: float, forward: bool) -> None:
    # A history numbers the origins of edited cells, which are all the same here: conditions on them are left out.
    rows = [row for row in rows if row[1] != ORIGIN or max(row[2:]) < history.core]
    facts, first = read(history, history.end)[1], int(part * part * history.end)
    spans = [found["turn"].tolist() for found in find(history, rows, first, None, forward)]
    expected = [turn for turn in range(first + 1, history.end + 1) if rows and meets(rows, facts[turn - 1])]
    assert sum(spans if forward else reversed(spans), []) == expected


@given(histories(), st.floats(0, 1))
def test_executed_cells(history: History, part: float) -> None:
    facts, first = read(history, history.end)[1], int(part * part * history.end)
    numbers = [one.numbers[one.uses[EXECUTES][0]] for one in facts[first:]]
    # Here all edited cells have the same origin, the core size.
    found = [
        (turn, warrior, queued, address, owner, when, min(origin, history.core))
        for turn, warrior, queued, address, (owner, when, origin) in conditions.executed(
            history, first, history.end
        ).tolist()
    ]
    assert found == [(first + 1 + at, *row[:QUEUED], *row[ADDRESS - 1 : ORIGIN]) for at, row in enumerate(numbers)]
