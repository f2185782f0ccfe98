"""Battles as blocks of words: their turns, their edits, and words that are not a battle.

States and edits are compared with the replies of the debugger, rows with the states before and after their turns.
`dev/checks/evaluate` compares the words that the library accepts with the definition of a battle.
"""
from __future__ import annotations

from collections.abc import Callable
from typing import Any

import numpy as np
import pytest
from battles import is_listed, matches
from hypothesis import given, strategies as st
from numpy.typing import NDArray

from corewar.engine.battles import Battle, battle_of_words
from corewar.engine.binding import ROOM, array, call, dtype_of, library, settings_struct, slice_of
from corewar.engine.calls import Match, assemble, warrior_arrays
from corewar.model.cells import MODES, MODIFIERS, OPCODES
from corewar.model.errors import MarsError
from corewar.model.settings import Settings

Words = NDArray[np.uint32]
# Two results of calls, and the first word of each battle, as numbers of the header.
BLOCK, EDIT, MARK = 11, 12, 22167885


def slices(words: Words) -> tuple[Any, int]:
    return slice_of("uint32_t", words)


def started(fight: Match, round: int = 0) -> Words:
    """Returns the battle of a round, with the capacity that it needs."""
    settings = settings_struct(fight.settings, round + 1, fight.seed, fight.position)
    words = array("uint32_t", library()[1].mars_words(settings, len(fight.warriors)))
    assert (
        call("mars_start", settings, *warrior_arrays(fight.warriors, fight.settings.core), round, *slices(words)) == 0
    )
    return words


def play(words: Words, turns: int, rows: int = 0) -> tuple[NDArray[Any], NDArray[Any]]:
    """Plays turns; returns the rows of records and of touched cells."""
    results = array("MarsRecord", rows), array("MarsTouched", rows)
    assert (
        call(
            "mars_play",
            *slices(words),
            turns,
            *slice_of("MarsRecord", results[0]),
            *slice_of("MarsTouched", results[1]),
        )
        == 0
    )
    return results


def edit(words: Words, what: int, warrior: int = 0, place: int = 0, address: int = 0, cell: Any = (0,) * 6) -> None:
    change = library()[0].new("MarsEdit *", [what, warrior, place, address, list(cell)])
    assert call("mars_edit", *slices(words), change) == 0


def header(words: Words) -> Any:
    return words[:64].view(dtype_of("MarsBattle"))[0]


def is_turn(before: Battle, row: Any, touched: Any, after: Battle) -> bool:
    """Returns whether the rows of a turn describe the change from the battle before it to the battle after it."""
    warrior, cells = before.next, before.cells.copy()
    for change in row["change"][: row["changes"]]:
        if cells[change["address"]] != change["before"] or change["address"] not in touched["address"]:
            return False
        cells[change["address"]] = change["after"]
    queue, queued = before.queues[warrior], row["process"][: row["queued"]]
    numbers = [row[name] for name in ("warrior", "address", "next", "cycle", "died")]
    is_dead = len(after.deaths) > len(before.deaths)
    return (
        numbers == [warrior, queue[0], after.next, after.cycle, is_dead]
        and np.array_equal(cells, after.cells)
        and np.array_equal(np.append(queue[1:], queued), after.queues[warrior])
        and touched["address"][0] == queue[0]
        and 4 <= touched["count"] <= 8
        and not (row["change"][row["changes"] :].tobytes() + row["process"][row["queued"] :].tobytes()).strip(b"\0")
        and not touched["address"][touched["count"] :].any()
    )


@given(matches(), st.integers(0, 2), st.integers(0, 60), st.integers(0, 30))
def test_turns(fight: Match, round: int, first: int, more: int) -> None:
    """After some turns a battle is the one that the debugger lists; its rows and words are those of single turns."""
    try:
        words = started(fight, round)
    except MarsError:
        return
    play(words, first)
    assert is_listed(fight, [f"run {first}"] if first else [], battle_of_words(words), round)
    single = words.copy()
    records, touched = play(words, more, more + 2)
    for turn in range(more):
        before = battle_of_words(single)
        play(single, 1)
        if before.over:
            assert not records[turn:].view(np.uint32).any() and not touched[turn:].view(np.uint32).any()
            break
        assert is_turn(before, records[turn], touched[turn], battle_of_words(single))
    length = header(words)["words"]
    assert np.array_equal(words[:length], single[:length])


NUMBERS = st.integers(0, 4)
CELLS = st.tuples(*(st.integers(0, len(names) - 1) for names in (OPCODES, MODIFIERS, MODES, MODES)), NUMBERS, NUMBERS)


@given(matches(), st.integers(0, 40), st.integers(1, 4), NUMBERS, NUMBERS, st.integers(0, 70), CELLS)
def test_edits(fight: Match, first: int, what: int, warrior: int, place: int, address: int, cell: Any) -> None:
    """An edit does what the line of the debugger does, or is refused with the same number and changes nothing."""
    op, modifier, a_mode, b_mode, a, b = cell
    line = [
        f"edit {address} {OPCODES[op]}.{MODIFIERS[modifier]} {MODES[a_mode]}{a}, {MODES[b_mode]}{b}",
        f"move {warrior} {place} {address}",
        f"kill {warrior} {place}",
        f"spawn {warrior} {address}",
    ][what - 1]
    try:
        words = started(fight)
    except MarsError:
        return
    play(words, first)
    before, refused, lines = words.copy(), "", [*([f"run {first}"] if first else []), line]
    try:
        edit(words, what, warrior, place, address, cell)
    except MarsError as fault:
        refused = str(fault)
        assert fault.code == EDIT and np.array_equal(words, before)
    assert is_listed(fight, lines, battle_of_words(words))
    assert Battle(fight).debug(lines).splitlines()[-1] == refused or not refused


SMALL = Settings(core=8, processes=3, cycles=10, longest=1, distance=1)


def three() -> Words:
    """Returns a battle of three warriors with one process each, after four turns."""
    words = started(Match((assemble("JMP 0", settings=SMALL),) * 3, settings=SMALL))
    play(words, 4)
    return words


# Changed words of `three`, and the error that they cause: its number, problem, line and warrior.
ERRORS = [
    ({0: 0}, (2, 0, 0, 0)),
    ({2: 0}, (3, 1, 0, 0)),
    ({3: 0}, (3, 2, 0, 0)),
    ({4: 0}, (3, 3, 0, 0)),
    ({5: 9}, (3, 4, 0, 0)),
    ({6: 0}, (3, 4, 0, 0)),
    ({7: 9}, (3, 5, 0, 0)),
    ({8: 9}, (3, 6, 0, 0)),
    ({9: 17}, (4, 0, 0, 0)),
    ({64: 16}, (5, 0, 0, 0)),
    ({64 + 3 * 7 + 2: 8}, (5, 0, 7, 0)),
    ({90: 8}, (6, 0, 0, 2)),
    ({14: 1}, (7, 0, 0, 0)),
    ({10: 5}, (8, 0, 0, 0)),
    ({13: 1}, (9, 0, 0, 0)),
    ({0: 0, 13: 1}, (2, 0, 0, 0)),
]


@pytest.mark.parametrize("changes, error", ERRORS, ids=str)
def test_errors_of_blocks(changes: dict[int, int], error: tuple[int, ...]) -> None:
    """Each call reports the same error of words that are not a battle, and changes nothing."""
    words = three()
    for place, word in changes.items():
        words[place] = word
    before = words.copy()
    asks: list[Callable[[], object]] = [
        lambda: call("mars_check", *slices(words)),
        lambda: play(words, 1, 1),
        lambda: edit(words, 3),
    ]
    for ask in asks:
        with pytest.raises(MarsError) as found:
            ask()
        raised = found.value
        assert (raised.code, (raised.number, raised.problem, raised.line, raised.warrior)) == (BLOCK, error)
        assert np.array_equal(words, before)


def test_few_words() -> None:
    """Too few words for the battle are an error; with too few for its turns, the result of the call is ROOM."""
    words = three()
    assert header(words)["words"] == 91 and len(words) == 64 + 3 * 8 + 3 * 3
    for length in (0, 63, 90):
        with pytest.raises(MarsError, match="block 1 Short"):
            call("mars_check", *slices(words[:length]))
    assert call("mars_check", *slices(words[:91])) == 0
    none = library()[0].NULL, 0
    assert call("mars_play", *slices(words[:-1]), 1, *none, *none) == ROOM


# Edits, and the number of the error of each.
REFUSED = [
    ((0,), 1),
    ((5,), 1),
    ((1, 0, 0, 0, (16, 0, 0, 0, 0, 0)), 1),
    ((1, 0, 0, 0, (0, 7, 0, 0, 0, 0)), 1),
    ((1, 0, 0, 0, (0, 0, 0, 8, 0, 0)), 1),
    ((1, 0, 0, 8), 2),
    ((2, 3, 0, 8), 2),
    ((1, 0, 0, 0, (0, 0, 0, 0, 8, 0)), 3),
    ((4, 3, 0, 0), 4),
    ((3, 0, 1), 5),
    ((4, 2, 0, 0), 6),
    ((4, 1, 0, 0), 7),
]


@pytest.mark.parametrize("arguments, number", REFUSED, ids=str)
def test_errors_of_edits(arguments: Any, number: int) -> None:
    """Each impossible edit has its number, in a battle whose warrior 1 has all its processes and warrior 2 is dead."""
    words = three()
    for one in ((4, 1, 0, 5), (4, 1, 0, 6), (3, 2, 0)):
        edit(words, *one)
    before = words.copy()
    with pytest.raises(MarsError) as found:
        edit(words, *arguments)
    assert (found.value.code, found.value.number) == (EDIT, number) and np.array_equal(words, before)


def test_a_battle_of_a_caller() -> None:
    """A caller can make up a battle: here every cell is an imp, and there are two processes."""
    words = np.zeros(64 + 3 * 8 + 3, np.uint32)
    words[:16] = [MARK, 64 + 24 + 2, 8, 3, 10, 8, 8, 1, 1, 1, 0, 0, 0, 0, 0, 0]
    words[16], words[64:88] = 2, [1 + 256 * 6 + 65536 + 16777216, 0, 1] * 8
    words[88:90] = [3, 7]
    assert call("mars_check", *slices(words)) == 0
    records, _ = play(words, 3, 3)
    assert records["address"].tolist() == [3, 7, 4] and words[88:90].tolist() == [0, 5]
