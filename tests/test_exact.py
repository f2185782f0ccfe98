"""Matches from every starting position have the results of matches from each position by itself."""
from __future__ import annotations

import json
import os
from pathlib import Path

import numpy as np
import pytest
from conftest import ENVIRONMENT, EXAMPLES, Run, begin

from corewar.contests.contest import Contest, Progress
from corewar.contests.exact import LEVELS, distances, strip_of
from corewar.engine.calls import match
from corewar.engine.sources import read
from corewar.engine.warriors import Warrior
from corewar.model.errors import CorewarError
from corewar.model.settings import Settings

SMALL = Settings(core=200, cycles=800, longest=20, distance=20)


def fighters(*names: str) -> list[Warrior]:
    return [read(EXAMPLES / f"{name}.red", settings=SMALL) for name in names]


@pytest.mark.parametrize("names", [("dwarf", "imp"), ("scanner", "dwarf"), ("imp", "paper")])
def test_each_position(names: tuple[str, str]) -> None:
    """Two rounds at each position have each warrior begin once."""
    contest, (first, second) = Contest(SMALL, positions="all"), fighters(*names)
    states: list[Progress] = []
    found = contest.challenge(first, [second, first], jobs=2, progress=states.append)
    assert contest.rounds == 2 * len(distances(SMALL)) == 322 and (states[-1].done, states[-1].total) == (644, 644)
    rows = [match([first, second], settings=SMALL, rounds=2, position=place) for place in distances(SMALL)]
    assert found.by_distance is not None and found.by_distance[0].tolist() == [row[0].points / 2 for row in rows]
    sums = [sum(getattr(row[0], name) for row in rows) for name in ("points", "wins", "ties", "losses")]
    assert found.counts[0].tolist() == sums and found.theirs[0] == sum(row[1].points for row in rows)
    change = contest.compare(second, first, [second, first], jobs=3)
    assert (change.scores[1].reshape(2, -1, 2).mean(axis=2) == found.by_distance).all()
    assert np.isnan(found.errors).all() and np.isnan(change.change()[3])


def test_what_has_no_every_position(tmp_path: Path) -> None:
    """A league, a melee and stored results reject `positions="all"`."""
    contest, warriors = Contest(SMALL, positions="all"), fighters("dwarf", "imp")
    with pytest.raises(CorewarError):
        contest.league(warriors)
    with pytest.raises(CorewarError):
        contest.melee(warriors, 2)
    with pytest.raises(CorewarError):
        contest.challenge(warriors[0], warriors, results=tmp_path / "x.sqlite")


def test_strips() -> None:
    """The marks of a strip go from a loss to a win, or to the best score that occurs if a win has no value."""
    scores = np.array([0.0, 1.0, 3.0, 3.0])
    assert strip_of(scores, "(W*W-1)/S", 4) == LEVELS[0] + LEVELS[2] + LEVELS[7] * 2
    assert strip_of(scores[:1], "(W*W-1)/S", 9) == LEVELS[0] and strip_of(np.array([2.0]), "S", 9) == LEVELS[7]
    assert strip_of(scores[:1], "4/(S-1)", 1) == LEVELS[0]


def shown(columns: int, *words: object) -> list[str]:
    """Returns the lines that a command prints on a terminal of this width."""
    ours, theirs = os.openpty()
    with begin(*words, cwd=EXAMPLES, env={**ENVIRONMENT, "COLUMNS": str(columns)}, stdout=theirs):
        os.close(theirs)
        data = b""
        try:
            while part := os.read(ours, 4096):
                data += part
        except OSError:
            # The other end is closed.
            os.close(ours)
    return data.decode().splitlines()


def test_narrow_terminals() -> None:
    """A row has one line, unless not even the name of its file fits."""
    words = ["--positions", "all", "--hill", "nano", "dwarf.red", "imp.red", "clear.red"]
    wide, narrow, least = (shown(columns, "challenge", *words) for columns in (120, 70, 58))
    assert "  by distance               opponent" in wide[0] and wide[1].endswith("  imp.red    Imp by A. K. Dewdney")
    assert len(narrow) == len(wide) == 4 and max(map(len, narrow)) == 70 and narrow[2].endswith("..")
    assert [line[:38] for line in narrow] == [line[:38] for line in wide] and "  distance  opponent" in narrow[0]
    assert len(least) == 6 and least[2].strip() == "Imp by A. K. Dewdney"
    plain = shown(70, "challenge", "--hill", "nano", *words[4:])
    assert len(plain) == 4 and max(map(len, plain)) == 70
    sentence = shown(50, "fight", *words[:-1])[3:]
    assert [*map(len, sentence)] == [48, 13, 50]


def test_the_commands(run: Run) -> None:
    """A fight has a strip, a challenge one for each opponent, and a change no error."""
    words = ["--positions", "all", "--hill", "nano"]
    fight = run("fight", *words, "@dwarf", "@imp").stdout.splitlines()
    assert fight[1].split()[:4] == ["218", "38", "104", "0"] and len(fight) == 5 and {*fight[4]} <= {*LEVELS}
    table = run("challenge", *words, "@dwarf", "@imp", "@dwarf").stdout.splitlines()
    assert table[1].split()[:5] == ["218", "38", "104", "0", "104"] and {*table[1].split()[5]} <= {*LEVELS}
    data = json.loads(run("challenge", *words, "--format", "json", "@dwarf", "@imp").stdout)
    assert data["warrior"]["error"] is None and data["warrior"]["rounds"] == 142 and "--positions=all" in data["words"]
    change = run("challenge", *words, "--old", "@imp", "@dwarf", "@imp").stdout.splitlines()
    assert change[1].split()[3] == "-" and change[-1] == (
        "The new version is better: these are all starting positions in both orders."
    )
    assert run("fight", *words, "@dwarf").returncode == 2
    for more in ("--rounds=10", "--seed=3", "-F9", "--pmars-fixed"):
        refused = run("challenge", *words, more, "@dwarf", "@imp")
        assert (refused.returncode, refused.stdout) == (2, "") and "exclude each other" in refused.stderr
