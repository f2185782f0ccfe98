"""Labels and lines of sources, as the assembler returns them, and the line of each cell of a battle."""
from __future__ import annotations

import numpy as np
import pytest
from battles import edit_of, edits, matches
from conftest import EXAMPLES
from hypothesis import given, strategies as st

from corewar.battle import history as module
from corewar.battle.conditions import executed
from corewar.battle.history import History
from corewar.battle.labels import Sources
from corewar.engine.calls import Match, assemble
from corewar.engine.sources import read
from corewar.engine.warriors import read_load
from corewar.model.errors import CorewarError

# The parts of a cell that no instruction changes except by a copy of the whole cell.
KEPT = ("op", "modifier", "a_mode", "b_mode")

SOURCE = b""";name Loops
size EQU 2
first
second  DAT 0, 0
i       FOR size
lab&i   MOV lab01, i    ; twice
        ROF
pair    EQU NOP 1
        EQU NOP 2
        pair
last    JMP first
"""


def test_lines_of_loops_and_equ_names() -> None:
    """A line of a loop occurs once per iteration, with its joined label; an EQU name has the line of its use."""
    lines = [(4, ["first", "second"]), (6, ["lab01"]), (6, ["lab02"]), (10, []), (10, []), (11, ["last"])]
    assert assemble(SOURCE).lines == lines


def test_labels_of_two_warriors() -> None:
    """A label of one warrior needs no number; a label of both warriors does."""
    imp = assemble("last MOV 0, 1")
    history = History(Match((assemble(SOURCE), imp)))
    sources, start = Sources(history), int(history.state(0).queues[1][0])
    assert (sources.addresses["first"], sources.addresses["lab02"]) == (0, 2)
    assert (sources.addresses["0.last"], sources.addresses["1.last"]) == (5, start) and "last" not in sources.addresses
    assert sources.labels[0] in ("first", "second") and sources.labels[start] == "1.last"
    assert (sources.lines[2].warrior, sources.lines[2].number, sources.lines[2].text) == (0, 6, "lab&i MOV lab01, i")


@given(matches(), st.integers(0, 2), st.lists(st.tuples(st.floats(0, 1), edits()), max_size=3), st.floats(0, 1))
def test_origins(fight: Match, round: int, places: list[tuple[float, str]], part: float) -> None:
    """At any turn and after edits, each cell has the opcode, the modifier and the modes of its origin."""
    with pytest.MonkeyPatch.context() as patch:
        patch.setattr(module, "BLOCK_SIZE", 7)
        history = History(fight, round)
        loaded, turn = history.state(0).cells, 0
        for ahead, line in places:
            turn += int(ahead * (history.end - turn))
            try:
                history = history.edited(turn, edit_of(line, history.core))
            except CorewarError:
                pass
        turn = int(part * history.end)
        cells, found = history.state(turn).cells, history.pasts(turn)["origin"]
        copies = found < history.core
        assert all(np.array_equal(cells[name][copies], loaded[name][found[copies]]) for name in KEPT)
        assert history.edits or copies.all()


PAIRS = ["dwarf imp", "silk imp", "paper imp", "scanner silk", "vampire spiral", "clear gate"]


def test_the_line_of_nearly_each_turn_is_known() -> None:
    """The line is known for copies of loaded cells, too. The other turns execute empty core."""
    known, turns = 0, 0
    for names in PAIRS:
        history = History(Match(tuple(read(str(EXAMPLES / f"{name}.red")) for name in names.split())))
        sources = Sources(history)
        known += int(np.isin(executed(history, 0, history.end)["past"]["origin"], [*sources.lines]).sum())
        turns += history.end
    assert known > 0.99 * turns


def test_a_bomb_has_the_line_of_its_thrower() -> None:
    """An imp dies on a cell that the other warrior has copied; the imp's own copies have its line."""
    history = History(Match((read(str(EXAMPLES / "dwarf.red")), read(str(EXAMPLES / "imp.red")))))
    sources, end = Sources(history), history.end
    grave = int(history.record(end)["address"])
    assert sources.describe_line(history, grave, end - 1) == "; Dwarf 12: bomb DAT #0, #0"
    assert sources.describe_line(history, grave, end - 2, 1) == "; 5: MOV.I 0, 1"
    edited = history.edited(7, edit_of(f"edit {grave} NOP.F $0, $0", 8000))
    assert sources.describe_line(edited, grave, 7) == "" and sources.describe_line(history, grave, 7) == ""


def test_whitespace_of_a_load_file() -> None:
    """All control characters are whitespace, as the library reads them."""
    warrior = read_load(b"NOP 0, 0\n\x01NOP 0, 0\n\x01\nORG \x1b1\nMOV 0, 1\n")
    assert (len(warrior), warrior.start) == (3, 1)
    assert History(Match((warrior,))).state(0).queues[0].tolist() == [1]
