"""A history has the states and records of the machine, for blocks of any size and any edits."""
from __future__ import annotations

from collections.abc import Callable, Iterator

import numpy as np
import pytest
from battles import (
    CELLS,
    MOVES,
    State,
    edit_of,
    edits,
    is_listed,
    matches,
    record,
    replayed,
    run_lines,
    same,
    touched,
)
from conftest import EXAMPLES
from hypothesis import given, strategies as st

from corewar.battle import history as module, runs
from corewar.battle.conditions import Condition, last_change, search
from corewar.battle.frames import frames, part_ends
from corewar.battle.history import History
from corewar.battle.runs import BY_HAND, NOBODY
from corewar.engine.battles import Battle
from corewar.engine.calls import Match, assemble
from corewar.engine.sources import read
from corewar.engine.warriors import Warrior
from corewar.model.types import Cells
from corewar.model.cells import cell_of, cell_text
from corewar.model.edits import Edit
from corewar.model.errors import CorewarError, MarsError
from corewar.model.settings import Settings


@pytest.fixture(autouse=True)
def small_blocks(monkeypatch: pytest.MonkeyPatch) -> None:
    monkeypatch.setattr(module, "BLOCK_SIZE", 7)
    monkeypatch.setattr(module, "CACHED_BLOCKS", 3)
    monkeypatch.setattr(runs, "STRIDE", 7)
    monkeypatch.setattr(runs, "MAX_MARKS", 4)


def edited(history: History, places: list[tuple[float, str]]) -> tuple[History, list[str]]:
    """Returns the history with those edits that are possible, and the debugger's lines up to the last edit. Each edit
    is made after its part of the turns that are left after the edit before it.
    """
    turn, lines = 0, []
    for part, line in places:
        ahead = int(part * (history.end - turn))
        lines += run_lines(ahead)
        turn += ahead
        try:
            history = history.edited(turn, edit_of(line, history.core))
            lines.append(line)
        except CorewarError:
            pass
    # The last segment begins at the last edit, so runs after it are left out.
    while lines and lines[-1].startswith("run"):
        lines.pop()
    return history, lines


def block_state(history: History, turn: int) -> State:
    """Returns the state after a turn, from the block with its record."""
    block = history.block(turn)
    queues = [block.queue(warrior, turn) for warrior in range(len(history.warriors))]
    over = history.head(turn) is None
    return State(
        *(block.cells(turn), queues, history.deaths(turn), turn, block.cycle(turn), block.next_warrior(turn), over)
    )


def test_longest_queue() -> None:
    """A warrior splits in each turn until it has the maximum number of processes."""
    settings = Settings(core=2, processes=65_536, cycles=70_000, longest=2, distance=2)
    splitter = Warrior.from_cells([cell_of("SPL.B $0, $0", 2)] * 2, settings=settings)
    history = History(Match((splitter,), settings=settings))
    for turn, count in ((20_000, 20_001), (65_535, 65_536), (70_000, 65_536)):
        queue = history.block(turn).queue(0, turn)
        assert len(queue) == count and np.array_equal(queue, history.state(turn).queues[0])


def sorted_as_written(row: np.void, before: Cells, after: Cells) -> list[int]:
    """Returns the cells that a turn changed, in the order of their last writes."""
    written = row["change"]["address"][: row["changes"]].tolist()
    last = [at for place, at in enumerate(written) if at not in written[place + 1 :]]
    return [at for at in last if before[at] != after[at]]


PLACES = st.lists(st.tuples(st.floats(0, 1), edits()), max_size=3)


@given(matches(), st.integers(0, 4), PLACES)
def test_each_state_is_that_of_the_machine(fight: Match, round: int, places: list[tuple[float, str]]) -> None:
    history, lines = edited(History(fight, round), places)
    first = history.segments[-1].first
    for turn in range(first, history.end + 1):
        expected = replayed(fight, round, lines, turn - first)
        assert same(history.state(turn), expected) and same(block_state(history, turn), expected)
        assert np.array_equal(history.deaths(turn), expected.deaths)
    assert np.array_equal(history.ending.cells, history.state(history.end).cells)
    records = record(fight, round, lines, 0, history.end - first + 3)
    for turn in range(first + 1, history.end + 1):
        mine, theirs = history.record(turn), records[turn - first - 1]
        assert all(np.array_equal(mine[name], theirs[name]) for name in mine.dtype.names or ())
        changes = history.block_of(turn).changes
        own, before, after = changes.of(turn), history.state(turn - 1).cells, history.state(turn).cells
        assert changes.addresses[own].tolist() == sorted_as_written(theirs, before, after)
        assert np.array_equal(changes.before[own], before[changes.addresses[own]])
        assert np.array_equal(changes.after[own], after[changes.addresses[own]])


@given(matches(), st.integers(0, 2), st.lists(MOVES, max_size=4), st.integers(0, 60))
def test_a_state_is_what_the_debugger_lists(fight: Match, round: int, lines: list[str], turn: int) -> None:
    assert is_listed(fight, [*lines, *run_lines(turn)], replayed(fight, round, lines, turn), round)


def steps(history: History) -> Iterator[tuple[int, Battle, Battle]]:
    """Yields each turn, with the states before and after it."""
    for turn in range(1, history.end + 1):
        yield turn, history.state(turn - 1), history.state(turn)


@given(matches(), st.integers(0, 23))
def test_searches_are_those_of_single_steps(fight: Match, address: int) -> None:
    history = History(fight)
    changed = [turn for turn, before, after in steps(history) if before.cells[address] != after.cells[address]]
    at = [turn for turn in range(history.end) if history.head(turn) == address]
    died = [turn for turn, before, after in steps(history) if len(after.deaths) > len(before.deaths)]
    for turn in range(history.end + 1):
        assert last_change(history, address, turn) == max((one for one in changed if one <= turn), default=None)
        held = [[Condition("at", (address, address))], [Condition("dies")]]
        found, back = search(history, held, turn), search(history, held, turn, False)
        assert (found and found[0]) == min((one for one in at + died if one > turn), default=None)
        assert (back and back[0]) == max((one for one in at + died if one < turn), default=None)


@given(matches(), st.floats(0, 1), st.integers(0, 60), CELLS)
def test_a_cell_that_a_turn_does_not_touch_changes_nothing(fight: Match, part: float, place: int, cell: str) -> None:
    turn = int(part * (History(fight).end - 1))
    row = touched(fight, first=turn)[0]
    assert 4 <= row["count"] <= 8 and not row["address"][row["count"] :].any()
    free = sorted({*range(fight.settings.core)} - {*row["address"][: row["count"]].tolist()})
    lines = [*run_lines(turn), f"edit {free[place % len(free)]} {cell}"]
    assert record(fight, first=turn).tobytes() == record(fight, lines=lines).tobytes()


@given(matches(), st.integers(0, 23), st.integers(0, 3), PLACES)
def test_reads_are_those_of_each_turn(fight: Match, first: int, more: int, places: list[tuple[float, str]]) -> None:
    """A turn reads the cells that it touches, except for those that it writes."""
    history, lines = edited(History(fight), places)
    begin, last = history.segments[-1].first, (first + more) % history.core
    cells = {(first + place) % history.core for place in range(more + 1)}
    rows, records = (call(fight, 0, lines, 0, history.end) for call in (touched, record))
    reads = []
    for turn, (row, one) in enumerate(zip(rows, records), begin + 1):
        written = one["change"]["address"][: one["changes"]].tolist()
        if cells & {*row["address"][: row["count"]].tolist()} - {*written}:
            reads.append(turn)
    for turn in range(begin, history.end + 1):
        found = search(history, [[Condition("reads", (first, last))]], turn)
        assert (found and found[0]) == min((one for one in reads if one > turn), default=None)
        found = search(history, [[Condition("reads", (first, last))]], turn, False)
        assert not reads or turn <= reads[0] or found and found[0] == max(one for one in reads if one < turn)


@given(matches(), st.integers(1, 20), PLACES)
def test_frames_show_who_changed_a_cell_last(fight: Match, count: int, places: list[tuple[float, str]]) -> None:
    history, _ = edited(History(fight), places)
    owners = history.owners(0)
    for frame in list(frames(history, part_ends(0, history.end, count)))[1:]:
        owners[frame.addresses] = frame.writers
        assert np.array_equal(owners, history.owners(frame.turn))
        assert all(np.array_equal(*queues) for queues in zip(frame.queues, history.state(frame.turn).queues))


@given(matches())
def test_owners_are_those_of_single_steps(fight: Match) -> None:
    history = History(fight)
    owners = history.owners(0)
    loaded = sum(map(len, fight.warriors))
    assert (owners != NOBODY).sum() == loaded
    for turn, before, after in steps(history):
        owners[before.cells != after.cells] = history.record(turn)["warrior"]
        assert np.array_equal(owners, history.owners(turn))


def dwarf_and_imp() -> History:
    return History(Match((read(str(EXAMPLES / "dwarf.red")), read(str(EXAMPLES / "imp.red")))))


def test_an_edit_leaves_the_other_future() -> None:
    before = dwarf_and_imp()
    edit = Edit.set(0, cell_of("JMP.B $2, $0", 8000))
    after = before.edited(6, edit)
    assert (before.end, after.end) == (7798, 160000)
    assert before.edits == () and after.edits == ((6, edit),) and edit.text(8000) == "edit 0 JMP.B $2, $0"
    assert after.owners(6)[0] == BY_HAND and before.owners(6)[0] == 0
    turn, old, new = after.by_hand(0, 100) or pytest.fail("the edit is not found")
    assert (turn, cell_text(old, 8000), cell_text(new, 8000)) == (6, "ADD.AB #4, $3", "JMP.B $2, $0")
    assert after.by_hand(1, 100) is None and before.by_hand(0, 100) is None


def test_an_impossible_edit_is_refused_by_name() -> None:
    history = dwarf_and_imp()
    cell = cell_of("DAT.F $0, $0", 8000)
    for turn, edit, name in (
        (3, Edit.set(99999, cell), "Address"),
        (3, Edit.fill(5, 8000, cell), "Address"),
        (3, Edit.fill(5, 3, cell), "Address"),
        (3, Edit.move(1, 0, 8000), "Address"),
        (3, Edit.set(3, (0, 4, 1, 1, 8000, 0)), "FieldOutside"),
        (3, Edit.set(3, (16, 4, 1, 1, 0, 0)), "NoSuchEdit"),
        (3, Edit.add(2, 0), "NoSuchWarrior"),
        (3, Edit.kill(0, 7), "NoSuchProcess"),
        (history.end, Edit.add(1, 0), "WarriorDead"),
    ):
        with pytest.raises(MarsError) as fault:
            history.edited(turn, edit)
        assert (fault.value.kind, fault.value.name) == ("refused", name), edit
    with pytest.raises(TypeError, match="expected an edit, as the methods of Edit return it, not 'edit 3 NOP'"):
        history.edited(3, "edit 3 NOP")  # type: ignore[arg-type]
    full = History(Match((assemble("SPL 0\nJMP -1"),)))
    with pytest.raises(MarsError, match="^refused 7 QueueFull$"):
        full.edited(full.end, Edit.add(0, 0))


OUTSIDE = st.sampled_from(["edit 61 DAT.F $0, $0", "kill 0 9", "fill 3 2 DAT.F $0, $0", "fill 3 61 NOP.F $0, $0"])


@given(matches(), st.floats(0, 1), st.one_of(edits(), OUTSIDE))
def test_an_edit_is_refused_if_the_debugger_refuses_it(fight: Match, part: float, line: str) -> None:
    history = History(fight)
    turn, edit = int(part * history.end), edit_of(line, fight.settings.core)
    reply = Battle(fight).debug([*run_lines(turn), line]).splitlines()[-1]
    if reply.startswith(("refused", "unknown")):
        with pytest.raises(MarsError) as fault:
            history.edited(turn, edit)
        assert str(fault.value) == reply
    else:
        after = history.edited(turn, edit)
        assert after.edits == ((turn, edit),) and edit_of(edit.text(fight.settings.core), fight.settings.core) == edit
        assert same(after.state(turn), replayed(fight, 0, [*run_lines(turn), line]))


def test_a_notebook_shows_its_end() -> None:
    """A table has the escaped name of each warrior, whether it is alive, its processes and its cells."""
    evil = assemble(";name <b>&Imp\nMOV 0, 1", settings="nano")
    history = History(Match((evil, assemble("DAT 0", settings="nano")), settings="nano"))
    owned = np.bincount(history.owners(history.end), minlength=2)
    assert history._repr_html_() == (
        "<table><tr><th>warrior</th><th>after 2 turns</th><th>processes</th><th>cells</th></tr>"
        f"<tr><td>&lt;b&gt;&amp;Imp</td><td>alive</td><td>1</td><td>{owned[0]}</td></tr>"
        f"<tr><td>Unknown</td><td>died in turn 2</td><td>0</td><td>{owned[1]}</td></tr></table>"
    )
    assert history.end == 2 and owned.tolist() == [2, 1] + [0] * 253 + [77]


def test_wrong_turns_are_rejected() -> None:
    history, edit = dwarf_and_imp(), Edit.kill(0, 0)
    for turn in (-1, history.end + 1):
        calls: list[Callable[[int], object]] = [history.state, history.owners, lambda turn: history.edited(turn, edit)]
        for call in calls:
            with pytest.raises(CorewarError, match=f"the battle has turns 0 to {history.end}"):
                call(turn)
    for turn in (0, -1, history.end + 1):
        for ask in (history.record, history.executed):
            with pytest.raises(CorewarError, match=f"the battle has turns 0 to {history.end}"):
                ask(turn)
    with pytest.raises(CorewarError, match="the battle has warriors 0 to 1"):
        history.death(-1)
    for cell in (
        (16, 0, 0, 0, 0, 0),
        (-1, 0, 0, 0, 0, 0),
        (0, 7, 0, 0, 0, 0),
        (0, 0, 0, 8, 0, 0),
        (0, 0, 0, 0, 0, 8000),
    ):
        with pytest.raises(CorewarError, match="expected the numbers of a cell"):
            cell_text(cell, 8000)
    with pytest.raises(MarsError, match="4 Warriors"):
        History(Match(()))
    with pytest.raises(TypeError):
        Battle(history.match).debug("step")
    for text in ("edit", "jmp -3", "DAT.F $0,$0", "DAT.F $0, $0\n", "DAT.F $0, $١"):
        with pytest.raises(CorewarError, match="expected a cell such as"):
            cell_of(text, 8000)


@given(matches(), st.integers(0, 2))
def test_marks_are_bounded(fight: Match, round: int) -> None:
    """There are at most as many marks as allowed, at equal distances; the end may be nearer to the last mark."""
    run = History(fight, round).segments[0].run
    turns = [Battle.of_bytes(mark).turns for mark in run.marks]
    assert turns == [*range(0, max(1, run.ending.turns), run.stride)] and len(turns) <= 4


@given(matches(), st.integers(0, 2), st.integers(0, 60), st.integers(0, 30), edits())
def test_a_battle_is_a_value(fight: Match, round: int, first: int, more: int, line: str) -> None:
    """Equal battles have equal bytes; copies change independently, and an impossible edit changes nothing."""
    battle, other = Battle(fight, round), Battle(fight, round)
    battle.play(first)
    restored, copied = Battle.of_bytes(bytes(battle)), battle.copy()
    assert battle == restored == copied and same(battle, replayed(fight, round, turns=first))
    records, seen = copied.play(more, records=more + 2, touched=more)
    assert battle == restored and restored.play(more)[0].size == 0 and restored == copied
    assert np.array_equal(records, record(fight, round, first=first, turns=more)[: len(records)])
    assert np.array_equal(seen, touched(fight, round, first=first, turns=more)) and len(seen) == len(records)
    other.play(first + more)
    assert other == copied and (other != battle) == (len(records) > 0)
    try:
        other.edit(edit_of(line, fight.settings.core))
    except MarsError:
        assert other == copied
    other.play()
    assert other.over


def test_records_are_returned_in_portions(monkeypatch: pytest.MonkeyPatch) -> None:
    """Records in portions are the same as all at once, and need memory only for turns that are executed."""
    fight = dwarf_and_imp().match
    records, touched = Battle(fight).play(records=9000, touched=50)
    for size in (100, 7000):
        monkeypatch.setattr("corewar.engine.battles.RECORDED_TURNS", size)
        battle = Battle(fight)
        more, seen = battle.play(records=(1 << 32) - 1, touched=50)
        assert np.array_equal(more, records) and np.array_equal(seen, touched) and battle.turns == len(records) == 7798
        assert battle.play(records=5, touched=(1 << 32) - 1)[0].size == 0
    assert len(Battle(fight).play(150, records=120)[0]) == 120


def test_a_battle_is_checked() -> None:
    battle = Battle(dwarf_and_imp().match)
    for length, name in ((0, "Short"), (255, "Short"), (len(bytes(battle)) - 1, "Short")):
        with pytest.raises(MarsError) as fault:
            Battle.of_bytes(bytes(battle)[:length])
        assert (fault.value.kind, fault.value.name) == ("block", name)
    # A number is not turned into zero bytes.
    with pytest.raises(TypeError):
        Battle.of_bytes(1 << 40)  # type: ignore[arg-type]
    with pytest.raises(MarsError, match="^block 2 Mark$"):
        Battle.of_bytes(b"\0" + bytes(battle)[1:])
    battle.cells[7] = (16, 0, 0, 0, 0, 0)
    uses: list[Callable[[], object]] = [battle.check, battle.play, lambda: battle.edit(Edit.kill(0, 0))]
    for use in uses:
        with pytest.raises(MarsError, match="^block 5 Cell$") as fault:
            use()
        assert fault.value.line == 7
    battle.cells[:] = cell_of("MOV.I $0, $1", 8000)
    battle.check()
    battle.play()
    assert (battle.turns, battle.deaths.size) == (160000, 0)
    for turns in (-1, 1 << 32):
        with pytest.raises(CorewarError, match="expected a number from 0 to 4294967295"):
            battle.play(turns)
