"""Tests the scripts of examples/ that use the package: a hill, evolvers, feedback for a model, and environments."""
from __future__ import annotations

import json
import runpy
import subprocess
import sys
from pathlib import Path
from types import SimpleNamespace
from typing import Any

import numpy as np
import pytest
from conftest import ENVIRONMENT, EXAMPLES
from costly import slow

import corewar

FILES = [str(EXAMPLES / f"{name}.red") for name in ("dwarf", "imp", "silk", "paper", "bomber")]
HEAD = "  rank   score   won  tied  lost    age  warrior"


def run(script: str, *words: object, cwd: Path) -> subprocess.CompletedProcess[str]:
    command = [sys.executable, str(EXAMPLES / script), *map(str, words)]
    return subprocess.run(command, cwd=cwd, env=ENVIRONMENT, capture_output=True, text=True, timeout=120)


def test_a_hill(tmp_path: Path) -> None:
    """The last warrior is pushed off, ages count the survived challenges, and scores are those of the matches."""
    lines = run("hill.py", "--size", 3, "--rounds", 20, "hill.json", *FILES, cwd=tmp_path).stdout.splitlines()
    head = lines.index(HEAD)
    assert head == 2 and len(lines) == 6 and all(" is pushed off at age " in line for line in lines[:head])
    hill = json.loads((tmp_path / "hill.json").read_text())
    assert (hill["size"], hill["rounds"], hill["settings"], hill["challenges"]) == (3, 20, "94nop", 5)
    ages = {one["number"]: one["age"] for one in hill["warriors"]}
    assert ages == {number: 5 - int(number) for number in ages} and len(ages) == 3
    for line, one in zip(lines[head + 1 :], hill["warriors"], strict=True):
        wins, ties = (sum(column) for column in zip(*one["against"].values()))
        assert {*one["against"]} == {*ages} - {one["number"]}
        score = 100 * (3 * wins + ties) / 40
        assert line.split()[1:3] == [f"{score:.1f}", f"{100 * wins / 40:.0f}%"] and line.endswith(one["title"])
    for one in hill["warriors"]:
        for number, (wins, ties) in one["against"].items():
            other = next(other for other in hill["warriors"] if other["number"] == number)
            assert wins + ties + other["against"][one["number"]][0] <= 20
            assert other["against"][one["number"]][1] == ties


def test_a_hill_is_ordered_by_the_scores_that_it_shows(tmp_path: Path) -> None:
    """Scores change when a warrior is pushed off, and the order with them."""
    for number, name in enumerate(["dwarf", "imp", "silk", "paper"] * 2, 1):
        done = run("hill.py", "--size", 3, "--rounds", 100, "hill.json", EXAMPLES / f"{name}.red", cwd=tmp_path)
        scores = [float(line.split()[1]) for line in done.stdout.partition(HEAD)[2].splitlines()[1:]]
        assert len(scores) == min(number, 3) and scores == sorted(scores, reverse=True)


def test_a_warrior_is_on_a_hill_once(tmp_path: Path) -> None:
    """A copy of a warrior, also one of another name, is left out, and changes nothing."""
    (tmp_path / "copy.red").write_bytes(b";name Copy\n;author Another\n" + (EXAMPLES / "imp.red").read_bytes())
    first = run("hill.py", "hill.json", *FILES[:2], cwd=tmp_path).stdout
    stored = (tmp_path / "hill.json").read_bytes()
    again = run("hill.py", "hill.json", FILES[1], "copy.red", cwd=tmp_path)
    told = ["Imp by A. K. Dewdney is on the hill already", "Imp by A. K. Dewdney is on the hill already"]
    assert again.returncode == 0 and again.stdout.splitlines() == [*told, *first.splitlines()]
    assert (tmp_path / "hill.json").read_bytes() == stored


def test_a_hill_is_the_same_in_steps(tmp_path: Path) -> None:
    """One challenge at a time, from sources or load files, gives the same file; without a file nothing changes."""
    whole = run("hill.py", "--size", 3, "--rounds", 20, "whole.json", *FILES, cwd=tmp_path)
    for file in FILES:
        load = tmp_path / f"{Path(file).stem}.load"
        load.write_bytes(corewar.read(file, rounds=20).load)
        last = run("hill.py", "--size", 3, "--rounds", 20, "steps.json", load, cwd=tmp_path)
    table = whole.stdout[whole.stdout.index(HEAD) :]
    assert last.stdout[last.stdout.index(HEAD) :] == table
    stored = (tmp_path / "steps.json").read_bytes()
    assert stored == (tmp_path / "whole.json").read_bytes()
    assert run("hill.py", "--size", 9, "steps.json", cwd=tmp_path).stdout == table
    assert (tmp_path / "steps.json").read_bytes() == stored and not [*tmp_path.glob("*.new")]


@pytest.mark.parametrize(
    "words, status, error",
    [
        (["bad.red"], 1, "hill: bad.red: line 1: 2 Operation"),
        (["none.red"], 1, "hill: none.red: No such file or directory"),
        (["--size", 0], 2, "expected a size of 1 or more, and 1 to 100000 rounds"),
        (["--rounds", 100_001], 2, "expected a size of 1 or more, and 1 to 100000 rounds"),
        (["--settings", "micro"], 2, "invalid choice: 'micro'"),
    ],
)
def test_errors_of_a_hill(tmp_path: Path, words: list[object], status: int, error: str) -> None:
    """An error is reported, and the file is unchanged."""
    run("hill.py", "--settings", "tiny", "hill.json", FILES[0], FILES[1], cwd=tmp_path)
    before = (tmp_path / "hill.json").read_bytes()
    (tmp_path / "bad.red").write_text("foo 1\n")
    done = run("hill.py", "hill.json", *words, cwd=tmp_path)
    assert (done.returncode, done.stdout) == (status, "") and error in done.stderr and "Traceback" not in done.stderr
    assert (tmp_path / "hill.json").read_bytes() == before


def test_challenges_at_once(tmp_path: Path) -> None:
    """Each challenge waits for the one before it, and none is lost."""
    command = [sys.executable, str(EXAMPLES / "hill.py"), "--rounds", "20", "hill.json"]
    options: dict[str, Any] = {"cwd": tmp_path, "env": ENVIRONMENT, "stdout": subprocess.PIPE, "text": True}
    for number in range(10):
        (tmp_path / f"{number}.red").write_text(f"MOV {number}, 1\nJMP -1\n")
    begun = [subprocess.Popen([*command, f"{n}.red", f"{n + 5}.red"], **options) for n in range(5)]
    for process in begun:
        process.communicate(timeout=120)
    hill = json.loads((tmp_path / "hill.json").read_text())
    assert [process.returncode for process in begun] == [0] * 5 and hill["challenges"] == len(hill["warriors"]) == 10
    assert sorted(one["age"] for one in hill["warriors"]) == [*range(10)]


def test_a_hill_limits_sources(tmp_path: Path) -> None:
    """A source of a stranger that takes too long is an error, and later sources may challenge."""
    (tmp_path / "slow.red").write_text(slow())
    done = run("hill.py", "hill.json", "slow.red", cwd=tmp_path)
    error = "hill: slow.red: assembling takes more than 5 s of CPU time\n"
    assert (done.returncode, done.stdout, done.stderr) == (1, "", error) and not (tmp_path / "hill.json").exists()
    assert run("hill.py", "hill.json", FILES[0], cwd=tmp_path).returncode == 0


def test_files_that_are_no_hill(tmp_path: Path) -> None:
    run("hill.py", "good.json", FILES[0], cwd=tmp_path)
    good = (tmp_path / "good.json").read_bytes()
    for text in (b"[]", b'{"challenges": 1}', b"{", b"\xff", good[:-9], good.replace(b'"age"', b'"years"')):
        (tmp_path / "hill.json").write_bytes(text)
        done = run("hill.py", "hill.json", FILES[0], cwd=tmp_path)
        assert (done.returncode, done.stdout, done.stderr) == (1, "", "hill: hill.json is not a hill\n")
        assert (tmp_path / "hill.json").read_bytes() == text


def test_elites(tmp_path: Path) -> None:
    """The table has the rewards, the same in each run; later generations only replace them by greater ones."""
    table = run("elites.py", 1, cwd=tmp_path).stdout
    assert table == run("elites.py", 1, cwd=tmp_path).stdout
    head, *rows = table.splitlines()
    assert head.split() == ["started", "touched", *(str(10 * tens) for tens in range(9))]
    assert [row.split()[0] for row in rows] == [str(1 << power >> 1) for power in range(len(rows))]
    rewards = [float(text) for row in rows for text in row.split()[1:] if text != "-"]
    assert all(len(row.split()) == 10 for row in rows) and all(0 <= reward <= 4 for reward in rewards)
    more = [row.split()[1:] for row in run("elites.py", 5, cwd=tmp_path).stdout.splitlines()[1:]]
    for row, better in zip(rows, more):
        for one, other in zip(row.split()[1:], better):
            assert one == "-" or float(other) >= float(one)


@pytest.mark.parametrize("script", ["elites.py", "evolver.py", "hill.py"])
def test_arguments(tmp_path: Path, script: str) -> None:
    """Each script has help, and rejects wrong arguments."""
    assert run(script, "--help", cwd=tmp_path).stdout.splitlines()[2].startswith(f"usage: examples/{script} [")
    wrong: dict[str, list[str]] = {"elites.py": ["0"], "evolver.py": ["\u00b2"], "hill.py": []}
    for words in (["--none"], wrong[script]):
        done = run(script, *words, cwd=tmp_path)
        assert (done.returncode, done.stdout) == (2, "") and "error: " in done.stderr


def test_asking_and_telling(tmp_path: Path) -> None:
    """A search that continues from a checkpoint has the same result as one without a pause."""
    whole = run("asktell.py", "whole.json", 6, cwd=tmp_path).stdout
    run("asktell.py", "parts.json", 2, cwd=tmp_path)
    assert run("asktell.py", "parts.json", 6, cwd=tmp_path).stdout == whole
    assert (tmp_path / "parts.json").read_bytes() == (tmp_path / "whole.json").read_bytes()
    (tmp_path / "bad.json").write_text("{}")
    assert run("asktell.py", "bad.json", 6, cwd=tmp_path).stderr == "asktell: 'best'\n"


def test_the_red_queen(tmp_path: Path) -> None:
    """Processes run the matches by which champions evolve, and the table is a league of all champions. The script stays
    short.
    """
    table = run("redqueen.py", 1, cwd=tmp_path).stdout.splitlines()
    assert len(table) == 3 and table[0].split()[:2] == ["rank", "points"]
    assert len((EXAMPLES / "redqueen.py").read_text().splitlines()) < 50


def test_feedback_for_a_model(tmp_path: Path) -> None:
    """The script prints errors with advice, then what the warrior does and how it lost, as JSON."""
    command = [sys.executable, str(EXAMPLES / "feedback.py")]
    given = "MVO 0, 1\n.\nSPL 0, 0\nJMP -1, 0\n.\n"
    done = subprocess.run(command, input=given, cwd=tmp_path, env=ENVIRONMENT, capture_output=True, text=True)
    assert (done.returncode, done.stderr) == (0, "")
    decoder, text, found = json.JSONDecoder(), done.stdout[done.stdout.index("{") :], list[Any]()
    while text.strip():
        value, end = decoder.raw_decode(text.lstrip())
        found, text = [*found, value], text.lstrip()[end:]
    wrong, right = found
    assert wrong["problems"][0]["replacement"] == "MOV"
    assert len(right["matches"]) == 3 and right["losses"][0]["by"].startswith("Unknown") and right["study"]


def test_environments() -> None:
    """The rewards of an episode add up to the share of the whole warrior, in one environment as in many."""
    module = SimpleNamespace(**runpy.run_path(str(EXAMPLES / "environment.py")))
    many, one = module.VectorEnvironment(3), module.Environment()
    seen, _ = many.reset(seed=4)
    assert seen.shape == (3, 5, 6) and not seen.any()
    for episode in range(2):
        total, cells = np.zeros(3), corewar.assemble("SPL 0\nMOV 2, <2\nJMP -1\nDAT 0\nDAT 0", settings="nano").cells
        for place, cell in enumerate(cells.tolist()):
            seen, rewards, over, truncated, info = many.step([cell, cell, (0, 0, 0, 0, 0, 0)])
            total += rewards
            assert over.tolist() == [place == 4] * 3 and not truncated.any() and (seen[0, place] == cell).all()
        assert np.allclose(total, info["share"]) and info["share"][0] == info["share"][1] > info["share"][2]
    state, _ = one.reset(seed=4)
    assert state.shape == (5, 6)
    state, reward, over, truncated, info = one.step(cells.tolist()[0])
    assert isinstance(reward, float) and (over, truncated) == (False, False) and "SPL" in one.render()
