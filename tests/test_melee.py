"""melee: random lineups, and the table of all warriors."""
from __future__ import annotations

import csv
import io
import json
import random
import signal
import sqlite3
import time
from pathlib import Path
from typing import Any

import numpy as np
import pytest
from conftest import EXAMPLES, Run, begin

import corewar
from corewar.contests.contest import Contest, Progress
from corewar.contests.melee import lineups_of
from corewar.engine.calls import assemble
from corewar.engine.rewards import score_of

NAMES = "dwarf imp silk paper vampire bomber".split()


def warriors() -> list[corewar.Warrior]:
    return [corewar.read(EXAMPLES / f"{name}.red") for name in NAMES]


@pytest.mark.parametrize("formula", ["(W*W-1)/S", "W-S", "10-3*S"])
def test_it_is_the_sum_of_its_matches(formula: str) -> None:
    """Each standing is the sum of the rows of the matches, for any number of threads."""
    contest = Contest(rounds=3, seed=9, formula=formula)
    table = contest.melee(warriors(), 3, 20)
    assert table.to_dict() == contest.melee(warriors(), 3, 20, jobs=3).to_dict()
    lineups, sums = lineups_of(len(NAMES), 3, 20, random.Random(9)), {name: [0] * 5 for name in NAMES}
    assert table.lineups.tolist() == lineups and len({*table.seeds.tolist()}) == 20
    for lineup, seed in zip(lineups, table.seeds.tolist()):
        rows = corewar.match([warriors()[one] for one in lineup], rounds=3, seed=seed, formula=formula)
        for one, row in zip(lineup, rows):
            added = [row.points, 3, row.wins, row.ties, row.losses]
            sums[NAMES[one]] = [before + number for before, number in zip(sums[NAMES[one]], added)]
    for name, counts, rounds, score in zip(NAMES, table.counts.tolist(), table.rounds, table.scores):
        assert [counts[0], rounds, *counts[1:]] == sums[name] and score == 100 * counts[0] / rounds
    scores = table.scores.tolist()
    assert table.ranks.tolist() == [1 + sum(other > score for other in scores) for score in scores]


def test_lineups_are_fair() -> None:
    """No warrior is twice in a lineup, each occurs at each place, and how often they occur differs by at most one."""
    lineups = lineups_of(7, 4, 100, random.Random(1))
    assert all(len({*lineup}) == 4 for lineup in lineups)
    counts = [sum(lineup.count(one) for lineup in lineups) for one in range(7)]
    assert sum(counts) == 400 and max(counts) - min(counts) <= 1
    assert all({lineup.index(one) for lineup in lineups if one in lineup} == {0, 1, 2, 3} for one in range(7))


def test_scores_are_those_of_the_formula() -> None:
    assert [score_of("(W*W-1)/S", 16, left) for left in (1, 2, 16)] == [255, 127, 15]
    with pytest.raises(corewar.MarsError, match="score 3 DivideByZero"):
        score_of("W/(S-1)", 3, 1)


def test_equal_scores_share_a_rank() -> None:
    imp = corewar.assemble("JMP 0", settings="nano")
    table = Contest("nano").melee([imp] * 3, 3, 2)
    assert table.counts.tolist() == [[4, 0, 2, 0]] * 3 and table.ranks.tolist() == [1] * 3
    assert table.scores.tolist() == [200] * 3 and table.errors.tolist() == [0] * 3
    assert np.isnan(Contest("nano").melee([imp] * 3, 3, 1).errors).all()
    for size, lineups in ((1, 1), (4, 1), (2, 0)):
        with pytest.raises(corewar.CorewarError, match="of 2 to 16 of the warriors"):
            Contest("nano").melee([imp] * 3, size, lineups)


def test_the_error_is_how_seeds_differ() -> None:
    """The scores of 60 seeds lie as far from each other as the error of each says."""
    dice, limits = random.Random(1), (16, 7, 8, 8, 80, 80)
    cells: Any = [[tuple(map(dice.randrange, limits)) for _ in range(5)] for _ in range(12)]
    fighters = [corewar.Warrior.from_cells(one, settings="nano") for one in cells]
    contests = [Contest("nano", rounds=3, seed=1 + 7919 * seed) for seed in range(60)]
    tables = [contest.melee(fighters, 3, 60, jobs=2) for contest in contests]
    spreads = np.std([table.scores for table in tables], axis=0, ddof=1)
    assert abs(spreads.sum() / np.mean([table.errors for table in tables], axis=0).sum() - 1) < 0.2


def test_formats_for_programs(run: Run) -> None:
    words = ["melee", "--size", 3, "--lineups", 14, "-r", 2, *(f"@{name}" for name in NAMES)]
    head, *rows = run(*words).stdout.splitlines()
    result = json.loads(run(*words, "--format", "json").stdout)
    assert (result["size"], result["lineups"], result["rounds"], result["seed"]) == (3, 14, 2, 1) and "-r=2" in result[
        "words"
    ]
    for row, one in zip(rows, result["warriors"], strict=True):
        counts = [f"{one['score']:.1f}", *(str(one[name]) for name in ("rounds", "wins", "ties", "losses"))]
        assert row.split()[:6] == [str(one["rank"]), *counts] and row.split("  ")[-1].startswith(one["name"])
        assert one["rounds"] == 14 and one["error"] >= 0 and one["win_percent"] == round(100 * one["wins"] / 14, 4)
    table = [*csv.DictReader(io.StringIO(run(*words, "--format", "csv").stdout))]
    assert table == [{name: str(value) for name, value in one.items()} for one in result["warriors"]]
    assert [*table[0]][:2] == ["rank", "file"] and [*table[0]][-3:] == ["score", "error", "number"]


def test_the_command(run: Run, tmp_path: Path) -> None:
    """The command prints the table, names the files that it leaves out, and reports errors."""
    (tmp_path / "bad.red").write_text("foo 1\n")
    (tmp_path / "many.red").write_text(";assert WARRIORS == 3\nmov 0, 1\n")
    files = [f"@{name}" for name in NAMES]
    done = run("melee", "--size", 3, "--lineups", 14, "-r", 2, "many.red", *files)
    head, *rows = done.stdout.splitlines()
    assert (done.returncode, head.split()[:3], len(rows)) == (0, ["rank", "score", "rounds"], 7)
    assert done.stdout == run("melee", "--size", 3, "--lineups", 14, "-r", 2, "many.red", *files, "--jobs", 1).stdout
    left = run("melee", "--size", 3, "bad.red", *files)
    assert left.returncode == 1 and len(left.stdout.splitlines()) == 7 and "bad.red: line 1: 2 Operation" in left.stderr
    few = run("melee", "bad.red", *files[:3])
    assert (few.returncode, few.stdout) == (1, "") and "3 warriors are left, but a match has 4" in few.stderr
    refusals: list[tuple[list[str | int], str]] = [
        (["--size", 17, *files], "expected a number from 2 to 16, not `17`"),
        (["--size", 8, *files], "expected at least 8 files for matches of 8, not 6; see --size"),
        (["--score", "W+", *files], "formula 1 Expression 1 Syntax"),
        (["-F", 400, *files], "settings 3 Position"),
        (["--size", 6, "-d", 2000, *files], "placement 1 NoRoom"),
        (["--lineups", 0, *files], "expected a number from 1 to 1000000"),
    ]
    for words, error in refusals:
        refused = run("melee", *words)
        assert refused.returncode in (1, 2) and error in refused.stderr and not refused.stdout


def test_it_can_be_stopped() -> None:
    """Ctrl-C ends a melee at once."""
    files = [EXAMPLES / f"{name}.red" for name in NAMES]
    start_time = time.monotonic()
    begin("melee", "--lineups", 1, *files).communicate()
    started = begin("melee", "--lineups", 100000, *files)
    # After this time it runs matches, also on a slow machine.
    time.sleep(2 * (time.monotonic() - start_time))
    started.send_signal(signal.SIGINT)
    _, errors = started.communicate(timeout=20)
    assert (started.returncode, errors) == (130, "\ncorewar: stopped\n")


def test_results_are_stored(run: Run, tmp_path: Path) -> None:
    """A melee that was stopped continues, one with more lineups has the same first ones, and a league may share the
    file.
    """
    path, contest = tmp_path / "kept.sqlite", Contest(rounds=2)
    seen = list[Progress]()
    found = [contest.melee(warriors(), 3, count, results=path, progress=seen.append) for count in (5, 5, 8)]
    assert [one.done for one in seen] == [0, 5, 5, 5, 8]
    for table, count in zip(found, (5, 5, 8)):
        assert table.to_dict() == contest.melee(warriors(), 3, count).to_dict()
    words = ["--results", path, "-r", 2, *(f"@{name}" for name in NAMES)]
    (one, other) = (run("melee", "--size", 3, "--lineups", 8, *words) for _ in range(2))
    assert one.stdout == other.stdout and one.returncode == 0 and run("league", *words).returncode == 0
    with sqlite3.connect(path) as file:
        assert [len([*file.execute(f"SELECT * FROM {name}")]) for name in ("melees", "fought")] == [8, 15]
    # The digests of the warriors are in the key in their order, so in another order these are other matches.
    assert contest.melee(warriors()[::-1], 3, 8, results=path, progress=seen.append).lineups.shape == (8, 3)
    assert seen[-2].done == 0


@pytest.mark.parametrize("lives", ["x'00'", "x''", "zeroblob(48)", "x'" + "02000000" * 12 + "'"])
def test_stored_results_that_cannot_be(run: Run, tmp_path: Path, lives: str) -> None:
    words = ["melee", "--size", 3, "--lineups", 1, "-r", 2, "--results", "kept.sqlite", *(f"@{name}" for name in NAMES)]
    assert run(*words).returncode == 0
    with sqlite3.connect(tmp_path / "kept.sqlite") as file:
        file.execute(f"UPDATE melees SET lives = {lives}")
    wrong = run(*words)
    assert (wrong.returncode, wrong.stdout) == (1, "") and "kept.sqlite: invalid result: " in wrong.stderr


def test_it_reports_its_progress(monkeypatch: pytest.MonkeyPatch) -> None:
    """The table does not depend on how many matches are run between two reports."""
    fighters = [assemble(f"jmp {number}, <5", settings="nano") for number in range(5)]
    contest, seen = Contest("nano"), list[Progress]()
    whole = contest.melee(fighters, 2, 10, progress=seen.append).to_dict()
    assert seen == [Progress(0, 10), Progress(10, 10)]
    monkeypatch.setattr("corewar.engine.outcomes.TURNS", 3 * 1600)
    assert contest.melee(fighters, 2, 10, jobs=1, progress=seen.append).to_dict() == whole
    assert [one.done for one in seen[2:]] == [0, 3, 6, 9, 10]
