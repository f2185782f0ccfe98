"""Tests what the package says of errors and battles: values, their JSON, columns of arrays, and exported types."""
from __future__ import annotations

import builtins
import inspect
import json
import pickle
import re
from collections.abc import Iterator
from dataclasses import asdict
from pathlib import Path
from typing import Any

import numpy as np
import pytest
from conftest import EXAMPLES, Run

import corewar
from corewar import History, Match


def fight(*names: str, **how: Any) -> Match:
    return Match([corewar.read(EXAMPLES / f"{name}.red") for name in names], **how)


def test_problems() -> None:
    """`problems` returns all errors of a source, with advice and what to write in place of a word."""
    source = "loop mvo 0, 1\n dat #0\njmp lop\n"
    first, second = corewar.problems(source)
    assert (first.line, first.error, first.source) == (1, "2 Operation", "loop mvo 0, 1")
    assert (first.word, first.replacement) == ("mvo", "MOV") and first.advice[0].startswith("`mvo` is read as a label")
    assert (second.line, second.word, second.replacement) == (3, "lop", "loop")
    assert str(second).startswith("line 3: 4 Expression 2 Unknown\n")
    assert corewar.problems("mov 0, 1") == [] and corewar.problems(b"\xff 0")[0].line == 1
    with pytest.raises(corewar.MarsError, match="parameters 6 Distance"):
        corewar.problems("mov 0, 1", settings=corewar.Settings(distance=1))


def test_why() -> None:
    """`why` returns the last turn, the turns that changed its cell, and the warrior's turns before it; for a living
    warrior, the lines that it executed.
    """
    history = History(fight("dwarf", "imp"))
    why = history.why("imp")
    assert (why.warrior, why.name, why.fate, why.turn) == (1, "Imp", "died", 7798) and history.why(1) == why
    assert why.last and (why.last.cell, why.last.line, why.last.source) == ("DAT.F #0, #-2800", 12, "bomb DAT #0, #0")
    assert [turn.turn for turn in why.causes] == [7797] and why.causes[0].writes[0].after == why.last.cell
    assert [turn.turn for turn in why.before] == [7790, 7792, 7794, 7796] and why.hit is None
    alive = history.why("Dwarf")
    assert (alive.fate, alive.turn, alive.last, alive.causes) == ("alive", 7798, None, ())
    assert [(row.turns, row.cells) for row in alive.executed] == [(334, 334), (333, 1), (333, 0)]
    killed = history.edited(100, corewar.Edit.kill(1, 0)).why(1)
    assert (killed.fate, killed.turn, killed.last) == ("killed", 100, None)
    with pytest.raises(corewar.CorewarError, match="no warrior `2`"):
        history.why(2)


def test_trace() -> None:
    history = History(fight("dwarf", "imp"))
    first, second = history.trace(1, 2)
    assert (first.name, str(first.at), first.line) == ("Dwarf", "0 (loop)", 9) and first.processes[0].address == 1
    assert [(str(one.at), one.before, one.after) for one in first.writes] == [
        ("3 (bomb)", "DAT.F #0, #0", "DAT.F #0, #4")
    ]
    assert len(history.trace(7790)) == 9 and history.trace(7798)[0].processes == ()
    with pytest.raises(corewar.CorewarError):
        history.trace(7798, 7799)


def test_fates() -> None:
    """`fates` yields the cell on which a warrior died in a round, and what hit it; for a tie, what it executed last."""
    first, *_, last = corewar.fates(fight("dwarf", "imp", rounds=3))
    assert first == corewar.Death(1, 0, "its line 5: MOV.I 0, 1", "Dwarf, by line 10: MOV bomb, @bomb")
    assert isinstance(last, corewar.Tie) and (last.warrior, last.round, last.executed) == (1, 2, "cells that it wrote")


def test_study() -> None:
    study = corewar.study(corewar.read(EXAMPLES / "dwarf.red"))
    assert (study.written, study.scanned, study.survives, study.hit) == (2000, 0, True, None)
    assert study.writes[0].strides == ((4, 1.0),) and study.writes[0].line == "10: MOV bomb, @bomb"


def test_rounds() -> None:
    found = [*corewar.rounds(fight("dwarf", "imp", rounds=3))]
    assert [one.outcomes for one in found] == [("win", "loss"), ("win", "loss"), ("tie", "tie")]
    assert [one.history.round for one in found] == [0, 1, 2]


@pytest.mark.parametrize("words", ["why", "why -r 5", "trace --turns 3", "study", "rounds -r 3", "explain"])
def test_json(run: Run, words: str, tmp_path: Path) -> None:
    """The JSON that a command prints is that of the values."""
    files = ["@dwarf"] if "study" in words else ["@dwarf", "@imp"]
    (tmp_path / "wrong.red").write_text("mvo 0, 1\n")
    files = ["wrong.red"] if "explain" in words else files
    found = json.loads(run(*words.split(), "--format", "json", *files).stdout)
    history = History(fight("dwarf", "imp"))
    expected: Any = {
        "why": [history.why(1)],
        "trace --turns 3": history.trace(7796),
        "study": corewar.study(history.warriors[0]),
        "explain": corewar.problems("mvo 0, 1\n"),
    }.get(words)
    if words == "explain":
        assert [one.pop("file") for one in found] == ["wrong.red"]
    if words == "why -r 5":
        assert {one["warrior"] for one in found} <= {0, 1} and {"round", "cell", "by"} <= found[0].keys()
    elif words == "rounds -r 3":
        assert found == [one.to_dict() for one in corewar.rounds(fight("dwarf", "imp", rounds=3))]
    else:
        values = [asdict(one) for one in expected] if isinstance(expected, list) else asdict(expected)
        assert json.dumps(found) == json.dumps(values)


def test_explain_as_json(run: Run) -> None:
    """`explain` has JSON for an instruction, one with an error, messages of other programs, and a valid source."""
    meaning = json.loads(run("explain", "--format", "json", "MOV }bomb, >ptr").stdout)
    assert meaning[0]["instruction"] == "MOV }bomb, >ptr" and meaning[0]["meaning"]
    wrong = run("explain", "--format", "json", "MVO 0, 1")
    assert wrong.returncode == 1 and json.loads(wrong.stdout)[0]["replacement"] == "MOV"
    piped = json.loads(run("explain", "--format", "json", input="mars: a.red: line 7: 2 Operation").stdout)
    assert (piped[0]["file"], piped[0]["line"], piped[0]["error"]) == ("a.red", 7, "2 Operation")
    assert run("explain", "--format", "json", "@dwarf").stdout == "[]\n"
    assert run("explain", "--format", "json", "--fix", "@dwarf").returncode == 2


def test_a_history_is_pickled() -> None:
    """A history is pickled with its edits, also after questions that filled its caches."""
    dat = corewar.cell_of("DAT.F $0, $0", 8000)
    history = History(fight("dwarf", "imp")).edited(100, corewar.Edit.set(2000, dat))
    history.owners(150)
    history.why(1)
    other = pickle.loads(pickle.dumps(history))
    assert other.end == history.end and other.edits == history.edits and other.state(99) == history.state(99)
    assert np.array_equal(other.owners(101), history.owners(101)) and other.why(1) == history.why(1)


def test_player() -> None:
    """A player is a frame for a notebook that has the page of `corewar page`, and may only run its scripts."""
    history = History(fight("dwarf", "imp"))
    player = history.player(turn=5, height=300)
    html = player._repr_html_()
    assert html.startswith('<iframe srcdoc="&lt;!DOCTYPE html&gt;') and 'sandbox="allow-scripts"' in html
    assert "height: 300px" in html and player.page.startswith("<!DOCTYPE html>")


def annotated(thing: Any) -> Iterator[str]:
    """Yields the annotations of a public call, of the fields of a class, and of its public methods and properties."""
    if inspect.isclass(thing):
        yield from (str(one) for one in vars(thing).get("__annotations__", {}).values())
        members = [one for name, one in vars(thing).items() if name == "__init__" or not name.startswith("_")]
        functions = [getattr(one, "fget", getattr(one, "func", getattr(one, "__func__", one))) for one in members]
    else:
        functions = [thing]
    for one in functions:
        found = [*map(str, getattr(one, "__annotations__", {}).values())]
        # Calls with a Block are for the package itself.
        yield from found if "Block" not in "".join(found) else []


def test_types_of_signatures_are_public() -> None:
    """The package exports each type that its signatures name, so that programs can use it in theirs."""
    general = "Any ArrayLike Callable ClassVar Collection Executor Iterator NDArray PathLike Sequence os np".split()
    known = {*corewar.__all__, *general, *dir(builtins), *(f"np.{name}" for name in dir(np)), "os.PathLike"}
    for name in corewar.__all__:
        for text in annotated(getattr(corewar, name)):
            assert {*re.findall(r"[A-Za-z_][\w.]*", text)} <= known, (name, text)


def test_columns() -> None:
    """Nested fields become columns with whole names."""
    battle = corewar.Battle(fight("dwarf", "imp"))
    records, touched = battle.play(4, records=4, touched=4)
    columns = corewar.columns(records)
    assert {column.ndim for column in columns.values()} == {1} and {*map(len, columns.values())} == {4}
    assert columns["change_0_after_b"].tolist() == records["change"]["after"]["b"][:, 0].tolist()
    assert np.array_equal(columns["process_1"], records["process"][:, 1]) and "address_7" in corewar.columns(touched)
    pandas = pytest.importorskip("pandas", reason="package python3-pandas")
    assert pandas.DataFrame(columns).shape == (4, len(columns))
    assert len(pandas.DataFrame(corewar.columns(battle.cells)).columns) == 6
    rows = corewar.Contest("nano").league([corewar.assemble("MOV 0, 1", settings="nano")] * 3).records()
    assert pandas.DataFrame(rows)["score"].tolist() == [100.0] * 3
