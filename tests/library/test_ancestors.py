"""The births of the ancestors of a process are those that its definition reads from records of turns."""
from __future__ import annotations

import pytest
from battles import matches
from hypothesis import given, strategies as st

from corewar.engine import battles as module
from corewar.engine.battles import Battle
from corewar.engine.calls import Match
from corewar.engine.warriors import read_load
from corewar.model.errors import MarsError

# A process: the turns in which it and its ancestors were born, its own first, and the place of the first of them.
Process = tuple[list[int], int]


def queues_of(battle: Battle) -> list[list[Process]]:
    """Returns the processes of each warrior, which have no births yet."""
    return [[([], place) for place in range(len(queue))] for queue in battle.queues]


def played(battle: Battle, turns: int) -> list[list[Process]]:
    """Plays turns, and follows each process through the queues."""
    queues, before = queues_of(battle), battle.turns
    for number, record in enumerate(battle.play(turns, records=turns)[0], before + 1):
        queue = queues[record["warrior"]]
        births, first = queue.pop(0)
        queue += [(births, first), ([number, *births], first)][: record["queued"]]
    return queues


@given(matches(), st.integers(0, 90), st.integers(0, 300))
def test_ancestors(match: Match, before: int, turns: int) -> None:
    battle = Battle(match)
    battle.play(before)
    start = bytes(battle)
    after = Battle.of_bytes(start)
    queues = played(after, turns)
    assert [len(queue) for queue in queues] == [len(queue) for queue in after.queues]
    for warrior, queue in enumerate(queues):
        for place, process in enumerate(queue):
            assert battle.ancestors(warrior, place, turns) == process
        with pytest.raises(MarsError, match="^process$"):
            battle.ancestors(warrior, len(queue), turns)
    with pytest.raises(MarsError, match="^process$"):
        battle.ancestors(len(queues), 0, turns)
    assert bytes(battle) == start


@given(matches())
def test_all_turns(match: Match) -> None:
    battle, after = Battle(match), Battle(match)
    queues = played(after, 3 * 40)
    assert after.over
    for warrior, queue in enumerate(queues):
        assert [battle.ancestors(warrior, place, None) for place in range(len(queue))] == queue


def test_more_births_than_places(monkeypatch: pytest.MonkeyPatch) -> None:
    """The library is called again if there are more births than places for them."""
    splitting = read_load(b"ORG 0\nSPL.B $0, $0\nJMP.B $0, $0\n")
    battle, found = Battle(Match((splitting,))), ([10, 6, 3, 1], 0)
    for places in (0, 1, 3, 4, 5):
        monkeypatch.setattr(module, "BIRTHS", places)
        assert battle.ancestors(0, 4, 10) == found
