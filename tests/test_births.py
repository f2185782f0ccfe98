"""Where processes come from: the births of their ancestors, also over edits, and what the debugger says of them."""
from __future__ import annotations

import pytest
from battles import matches
from hypothesis import given, strategies as st
from test_debugger import refused

from corewar.battle.history import History
from corewar.battle.labels import Sources
from corewar.debugger.commands import execute
from corewar.debugger.session import Session
from corewar.engine.calls import Match, assemble
from corewar.model.cells import cell_of
from corewar.model.edits import ADD, KILL, Edit
from corewar.model.errors import CorewarError, MarsError
from corewar.model.settings import Settings

# A paper of two processes, and a warrior whose first process splits for ever.
PAPER = ";name Paper\nSPL 1, 0\nSPL @0, <9\nMOV }-1, >-1\nMOV }-2, >-2\nJMP -3, 0\n"
CHAIN = ";name Chain\nSPL 0, 0\nJMP 0, 0\n"
LOADED = "Its first ancestor was loaded."
SMALL = Settings(core=80, processes=80, cycles=800, longest=10, distance=10)

EDITS = st.one_of(
    st.builds(Edit.kill, st.integers(0, 2), st.integers(0, 4)),
    st.builds(Edit.add, st.integers(0, 2), st.integers(0, 23)),
    st.builds(Edit.move, st.integers(0, 2), st.integers(0, 4), st.integers(0, 23)),
    st.just(Edit.set(3, cell_of("SPL.B $1, $0", 24))),
)


def session_of(*sources: str) -> Session:
    warriors = tuple(assemble(source, settings=SMALL, warriors=len(sources)) for source in sources)
    history = History(Match(warriors, settings=SMALL))
    return Session(history, Sources(history))


def queues_of(history: History, turn: int) -> list[list[tuple[list[int], int | None]]]:
    """Returns the births of each process after a turn, and after which turn an edit added its first ancestor, by
    following the records of turns.
    """
    queues: list[list[tuple[list[int], int | None]]] = [[([], None)] for _ in history.warriors]
    for at in range(turn + 1):
        if at:
            queue = queues[history.record(at)["warrior"]]
            births, added = queue.pop(0)
            queue += [(births, added), ([at, *births], added)][: history.record(at)["queued"]]
        for edit in [edit for after, edit in history.edits if after == at]:
            if edit.what == KILL:
                del queues[edit.warrior][edit.index]
            if edit.what == ADD:
                queues[edit.warrior].append(([], at))
    return queues


@given(matches(), st.lists(st.tuples(st.floats(0, 1), EDITS), max_size=5), st.floats(0, 1))
def test_births_over_edits(match: Match, edits: list[tuple[float, Edit]], part: float) -> None:
    history, turn = History(match), 0
    for share, edit in edits:
        turn += int(share * (history.end - turn) / 2)
        try:
            history = history.edited(turn, edit)
        except CorewarError:
            pass
    for turn in {0, turn, int(part * history.end), history.end}:
        queues = queues_of(history, turn)
        for warrior, queue in enumerate(queues):
            assert [history.born(turn, warrior, index) for index in range(len(queue))] == queue
            assert len(queue) == len(history.state(turn).queues[warrior])
            with pytest.raises(MarsError, match="^process$"):
                history.born(turn, warrior, len(queue))


def test_a_paper() -> None:
    session = session_of(PAPER, "JMP 0")
    assert execute(session, "born") == ["Process 0 of Paper, at 0, was loaded."]
    execute(session, "goto 20")
    assert execute(session, "queue paper") == ["Paper: 3 11 19 4 12 20 28"]
    # A process that splits continues as the first of the two, so the one that was loaded is still there.
    assert execute(session, "born paper 3") == ["Process 3 of Paper, at 4, was loaded."]
    first = "turn 1: Paper at 0: SPL.B $1, $0; then at 1 and 1"
    assert execute(session, "born") == ["Process 0 of Paper, at 3, was born in turn 1:", first, LOADED]
    assert execute(session, "born 0 1") == [
        "Process 1 of Paper, at 11, was born in turn 5, and its ancestors before that:",
        "turn 5: Paper at 1: SPL.B @0, <9; reads 8; 10: DAT.F $0, $-1 -> DAT.F $0, $-2; then at 2 and 10",
        *(first, LOADED),
    ]
    assert execute(session, "born pap 1") == execute(session, "born 0 1")
    assert execute(session, "born unknown") == ["Process 0 of Unknown, at 42, was loaded."]
    for line in ("born paper 7", "queue paper 7", "born 0 7"):
        assert refused(session, line) == "Paper has no process 7; its number of processes is 7"
    assert refused(session, "born nobody") == "no warrior `nobody`; the warriors are 0 Paper, 1 Unknown"


def heads(session: Session, line: str) -> list[str]:
    """Returns the reply to a line, in which `turn N` stands for each line that describes a turn."""
    return [text.split(":")[0] if text.startswith("turn") else text for text in execute(session, line)]


def test_after_edits() -> None:
    """Processes after a killed one move up; an added process has no ancestors, and a moved one keeps its own."""
    session = session_of(PAPER, "JMP 0")
    execute(session, "goto 20")
    born = heads(session, "born paper 2")
    assert born[:3] == [
        "Process 2 of Paper, at 19, was born in turn 13, and its ancestors before that:",
        "turn 13",
        "turn 5",
    ]
    assert execute(session, "kill paper 1") == ["Paper: 3 19 4 12 20 28"]
    assert heads(session, "born paper 1") == [born[0].replace("2", "1", 1), *born[1:]]
    assert heads(session, "born") == ["Process 0 of Paper, at 3, was born in turn 1:", "turn 1", LOADED]
    assert execute(session, "move paper 1 33") == ["Paper: 3 33 4 12 20 28"]
    assert heads(session, "born paper 1") == [born[0].replace("2", "1", 1).replace("19", "33"), *born[1:]]
    execute(session, "edit 70 nop")
    assert execute(session, "spawn paper 10") == ["Paper: 3 33 4 12 20 28 10"]
    added = "added by an edit after turn 20."
    assert execute(session, "born paper 6") == [f"Process 6 of Paper, at 10, was {added}"]
    assert heads(session, "born paper 5") == [
        "Process 5 of Paper, at 28, was born in turn 19, and its ancestors before that:",
        *("turn 19", "turn 9", "turn 3", LOADED),
    ]
    execute(session, "goto 33")
    assert execute(session, "queue paper") == ["Paper: 4 1 13 21 29 37 11 10"]
    assert execute(session, "born paper 6") == [f"Process 6 of Paper, at 11, was {added}"]
    assert heads(session, "born paper 7") == [
        "Process 7 of Paper, at 10, was born in turn 33:",
        "turn 33",
        f"Its first ancestor was {added}",
    ]


def test_a_long_chain() -> None:
    """At most eight births are listed; a line says how many are left."""
    session = session_of(CHAIN)
    turns = [number * (number + 1) // 2 for number in range(1, 12)]
    cases: dict[int, list[str]] = {7: [], 8: [], 9: ["and 1 earlier turn"], 11: ["and 3 earlier turns"]}
    for count, more in cases.items():
        first, *others = reversed(turns[:count])
        execute(session, f"goto {first}")
        head = f"Process {count} of Chain, at 0, was born in turn {first}, and its ancestors before that:"
        listed = [f"turn {turn}" for turn in (first, *others)][:8]
        assert heads(session, f"born chain {count}") == [head, *listed, *more, LOADED]


def test_a_dead_warrior() -> None:
    session = session_of("DAT 0", "JMP 0")
    execute(session, "goto end")
    assert refused(session, "born 0") == "Unknown 1 has no process 0; its number of processes is 0"
    execute(session, "kill 1 0")
    for line in ("born", "born 1", "queue 1 0"):
        assert refused(session, line).endswith(" has no process 0; its number of processes is 0")


def test_a_history_is_asked() -> None:
    """A warrior is given by its number or its name; an unknown turn, warrior or process is an error."""
    history = session_of(PAPER, "JMP 0").history
    assert history.born(20, 0, 2) == history.born(20, "Paper", 2) == ([13, 5, 1], None)
    after = history.edited(20, Edit.kill(0, 1)).edited(30, Edit.add(0, 50))
    assert after.born(20, 0, 1) == ([13, 5, 1], None) and after.born(20, 0) == history.born(20, 0) == ([1], None)
    assert after.born(30, 0, len(after.state(30).queues[0]) - 1) == ([], 30)
    for turn in (-1, history.end + 1):
        with pytest.raises(CorewarError, match=f"^the battle has turns 0 to {history.end}$"):
            history.born(turn, 0)
    with pytest.raises(CorewarError, match="^no warrior `2`; the warriors are 0 Paper, 1 Unknown$"):
        history.born(0, 2)
    for index in (1, -1):
        with pytest.raises(MarsError, match="^process$"):
            history.born(0, 0, index)
