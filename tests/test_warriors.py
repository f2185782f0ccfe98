"""Tests warriors as values, how they are assembled and named, and the errors of wrong warriors and cells."""
from __future__ import annotations

import os
import pickle
import re
from pathlib import Path
from typing import Any

import numpy as np
import pytest
from battles import matches
from conftest import EXAMPLES
from hypothesis import given

import corewar
from corewar import CorewarError, Edit, MarsError, Match, Warrior
from corewar.battle.history import History
from corewar.engine import limits
from corewar.engine.warriors import read_load


def test_constants() -> None:
    """What an evolver needs to make cells: their type, the limits of their numbers, and the greatest seed."""
    assert corewar.CELL == assemble_cells().dtype and corewar.MAX_SEED == 2**31 - 2
    highest = tuple(limit - 1 for limit in corewar.cell_limits(80))
    assert (
        corewar.OPCODES[highest[0]] == "NOP"
        and corewar.MODIFIERS[highest[1]] == "I"
        and corewar.MODES[highest[2]] == ">"
    )
    corewar.outcomes([Warrior.from_cells(np.array([highest], corewar.CELL), settings="nano")], settings="nano")


def assemble_cells() -> Any:
    return corewar.assemble("DAT 0").cells


@given(matches())
def test_a_warrior_is_a_value(fight: Match) -> None:
    """Warriors with equal cells are equal, and so are their hashes; a pickled warrior is equal to the original."""
    for warrior in fight.warriors:
        same = Warrior.from_cells(warrior.cells, warrior.start)
        assert same == warrior and hash(same) == hash(warrior) and pickle.loads(pickle.dumps(warrior)) == warrior
        assert Warrior.from_cells(warrior.cells.tolist(), warrior.start) == same and len(same) == len(warrior.cells)
        assert str(warrior) == warrior.load.decode() and not warrior.cells.flags.writeable
        assert Warrior.from_cells([*warrior.cells], warrior.start, settings="nano") != warrior


@given(matches())
def test_another_core_reads_numbers_by_value(fight: Match) -> None:
    """In a core of another size, a warrior has the cells that its load file has there."""
    read = [read_load(one.load, fight.settings) for one in fight.warriors]
    assert [one.core for one in read] == [fight.settings.core] * len(read)
    assert [one.cells_in(fight.settings.core) for one in fight.warriors] == [one.data for one in read]


def test_kinds_of_arguments(tmp_path: Path) -> None:
    """Calls accept paths, and hills by name; values have short texts."""
    dwarf, imp = corewar.read(EXAMPLES / "dwarf.red"), corewar.assemble(
        "MOV 0, 1", settings="nano", file=tmp_path / "imp.red"
    )
    assert (dwarf.name, dwarf.author, dwarf.start, dwarf.core) == ("Dwarf", "A. K. Dewdney", 0, 8000)
    assert (imp.name, imp.author, imp.called, imp.core) == ("Unknown", "Anonymous", str(tmp_path / "imp.red"), 80)
    nano = corewar.HILLS["nano"]
    assert corewar.match([dwarf, imp], settings="nano", seed=7) == corewar.match([dwarf, imp], settings=nano, seed=7)
    fight = Match([dwarf, corewar.assemble("MOV 0, 1")], settings="nano")
    assert fight == Match(fight.warriors, settings=nano) and fight.position is None
    texts = [repr(dwarf), repr(fight), repr(corewar.Battle(fight)), repr(History(fight))]
    assert texts == [
        "<Warrior Dwarf by A. K. Dewdney of length 4>",
        "<Match of Dwarf, Unknown>",
        "<Battle of 2 warriors after 0 turns>",
        f"<History of Dwarf, Unknown, round 0, {History(fight).end} turns>",
    ]
    with pytest.raises(ValueError, match="expected settings or one of 94nop, 94x, tiny, nano, not 'micro'"):
        corewar.match([dwarf], settings="micro")
    with pytest.raises(TypeError, match="expected a warrior, as assemble and read return it, not 'MOV 0, 1'"):
        corewar.match([dwarf, "MOV 0, 1"])  # type: ignore[list-item]


CELL = (1, 6, 1, 1, 0, 1)


@pytest.mark.parametrize(
    "changes, name",
    [
        ({"cells": []}, "Length"),
        ({"cells": [CELL] * 101}, "Length"),
        ({"start": 1}, "Start"),
        ({"start": -1}, "Start"),
        ({"cells": [CELL, (16, 0, 0, 0, 0, 0)]}, "Cell"),
        ({"cells": [CELL, (256, 0, 0, 0, 0, 0)]}, "Cell"),
        ({"cells": [CELL, (0, 0, 0, 0, -1, 0)]}, "Field"),
        ({"cells": [CELL, (0, 0, 0, 0, 0, 8000)]}, "Field"),
        ({"name": "x" * 61}, "Name"),
        ({"author": "ü" * 100}, "Name"),
    ],
    ids=str,
)
def test_errors_of_warriors(changes: dict[str, Any], name: str) -> None:
    """Each call reports a wrong warrior by name and index, and a wrong cell by its index."""
    words: dict[str, Any] = {"cells": [CELL], **changes}
    wrong, right = Warrior.from_cells(**words), Warrior.from_cells([CELL])
    line = 1 if name in ("Cell", "Field") else 0
    if name != "Name":
        runs: list[Any] = [corewar.match, corewar.league, corewar.outcomes, lambda both: corewar.Battle(Match(both))]
        for run in runs:
            with pytest.raises(MarsError) as found:
                run([right, wrong])
            error = found.value
            assert (error.kind, error.name, error.warrior, error.line) == ("warrior", name, 1, line)
            assert str(error).startswith("index 1: warrior ")
    if name in ("Field", "Cell"):
        for hill in ("nano", "94x"):
            with pytest.raises(MarsError) as found:
                corewar.match([right, wrong], settings=hill)
            assert (found.value.name, found.value.warrior, found.value.line) == (name, 1, line)
    if name == "Name" or len(wrong) < 100:
        with pytest.raises(MarsError) as found:
            wrong.load
        assert (found.value.kind, found.value.name, found.value.line) == ("warrior", name, line)


@pytest.mark.parametrize("cell", [(1, 2, 3), (1, 6, 1, 1, 0, 1, 2), (1, 6, 1, 1, 0, 0.5), 5, "MOV 0, 1"], ids=str)
def test_wrong_cells(cell: Any) -> None:
    message = re.escape(f"expected the six numbers of a cell, not {cell!r}")
    with pytest.raises(ValueError, match=message):
        Warrior.from_cells([cell])
    with pytest.raises(ValueError, match=message):
        corewar.Battle(Match([Warrior.from_cells([CELL])])).edit(Edit.set(0, cell))


@pytest.mark.parametrize("text", ["", "MOV 0, 1", "MOV.I $0, $1\n", "MOV.I $" + "1" * 5000 + ", $1", "MOV.I $٣, $1"])
def test_texts_that_are_no_cells(text: str) -> None:
    with pytest.raises(CorewarError, match="expected a cell such as `MOV.I [$]0, [$]1`, not "):
        corewar.cell_of(text, 8000)


def test_a_core_without_cells() -> None:
    for core in (0, -1):
        with pytest.raises(CorewarError, match=f"expected a core size of 1 or more, not {core}"):
            corewar.cell_of("MOV.I $0, $1", core)
        with pytest.raises(CorewarError):
            corewar.cell_text(CELL, core)


@pytest.mark.parametrize("text", ("A\0", "A\0B", "\0", "A\n"))
@pytest.mark.parametrize("field", ("name", "author"))
def test_names_with_control_characters(field: str, text: str) -> None:
    """A name with a control character is rejected, and not cut off at a zero character."""
    warrior = Warrior.from_cells(assemble_cells(), **{field: text})  # type: ignore[arg-type]
    with pytest.raises(MarsError, match="warrior 5 Name"):
        str(warrior)


def test_an_assembler_is_as_the_call() -> None:
    """An assembler returns the warriors and raises the errors of `corewar.assemble`, and continues after an error."""
    sources: list[Any] = ["DAT WARRIORS", b"DAT 0 ; \xff", os.fsdecode(b"DAT 0 ; \xff"), "FOO 1", "MOV 0, 1", 5]
    words: dict[str, Any] = {"settings": "nano", "rounds": 3, "warriors": 4, "file": Path("a.red")}
    with corewar.Assembler(corewar.Limit(5, 500)) as assembler:
        for source in sources:
            found = [result_of(call, source, **words) for call in (corewar.assemble, assembler.assemble)]
            assert found[0] == found[1], source
        for name in ("rounds", "warriors"):
            for value in (-1, 2**32):
                for call in (corewar.assemble, assembler.assemble):
                    error = result_of(call, "DAT ROUNDS, WARRIORS", **{name: value})
                    assert error == (CorewarError, f"expected a number from 0 to 4294967295, not {value}")
        with pytest.raises(ValueError, match="expected settings or one of"):
            assembler.assemble("MOV 0, 1", settings="micro")
    for limit in ((0, 1000), (10, -1)):
        with pytest.raises(CorewarError, match="expected 1 or more seconds and megabytes, not "):
            corewar.Limit(*limit)


def result_of(call: Any, *given: Any, **words: Any) -> Any:
    """Returns the result of a call, or the kind and the text of its error."""
    try:
        return call(*given, **words)
    except (CorewarError, TypeError) as error:
        return type(error), str(error)


def test_a_system_without_proc(monkeypatch: pytest.MonkeyPatch) -> None:
    """Without /proc, as in a chroot, sources are assembled under a looser limit of memory."""
    monkeypatch.setattr(limits, "STATM", "/nowhere/statm")
    with corewar.Assembler(corewar.Limit(5, 500)) as assembler:
        assert len(assembler.assemble("MOV 0, 1\n")) == 1
