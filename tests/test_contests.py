"""Contest: leagues, challenges, comparisons and melees as values, on threads, processes and any executor."""
from __future__ import annotations

import json
import random
import threading
from collections.abc import Callable, Generator
from concurrent.futures import Executor, Future, ProcessPoolExecutor
from dataclasses import FrozenInstanceError, replace
from multiprocessing import get_context
from pathlib import Path
from typing import Any, cast

import numpy as np
import pytest
from conftest import EXAMPLES, Run

import corewar
from corewar import Contest, CorewarError, MarsError
from corewar.engine.parts import in_order, run_parts

NAMES = "dwarf imp paper vampire bomber".split()
CONTEST = Contest(rounds=6, seed=3)
CALLS: dict[str, Callable[..., Any]] = {
    "league": lambda warriors, **how: CONTEST.league(warriors, **how),
    "challenge": lambda warriors, **how: CONTEST.challenge(warriors[0], warriors[1:], **how),
    "challenge --old": lambda warriors, **how: CONTEST.compare(warriors[1], warriors[0], warriors[2:], **how),
    "melee --size 3 --lineups 9": lambda warriors, **how: CONTEST.melee(warriors, 3, 9, **how),
}


def warriors() -> list[corewar.Warrior]:
    return [corewar.read(EXAMPLES / f"{name}.red", rounds=6) for name in NAMES]


@pytest.mark.parametrize("command", CALLS)
def test_results_are_those_of_the_command(run: Run, command: str) -> None:
    """The text, the dictionary and the rows of a result are what the command prints, whatever runs the matches."""
    result, files = CALLS[command](warriors()), [f"{name}.red" for name in NAMES]
    words = [*command.split(), *([files.pop(1)] if "--old" in command else []), "-r", 6, "--seed", 3, *files]
    assert run(*words, cwd=EXAMPLES).stdout.split() == str(result).replace(str(EXAMPLES) + "/", "").split()
    text = json.dumps(result.to_dict()).replace(str(EXAMPLES) + "/", "")
    assert json.loads(run(*words, "--format", "json", cwd=EXAMPLES).stdout) == json.loads(text)
    flat = [value for row in result.records() for value in row.values()]
    assert all(value is None or isinstance(value, (int, float, str)) for value in flat)
    with ProcessPoolExecutor(2, get_context("spawn")) as processes:
        hows: list[dict[str, Any]] = [{"jobs": 3}, {"executor": processes}]
        for how in hows:
            assert CALLS[command](warriors(), **how).to_dict() == result.to_dict()
    with pytest.raises(FrozenInstanceError):
        result.contest = None
    arrays = [value for value in vars(result).values() if isinstance(value, np.ndarray)]
    assert arrays and not any(one.flags.writeable for one in arrays)


def test_a_league_is_arrays() -> None:
    league = CONTEST.league(warriors())
    assert league.matrix.shape == (5, 5, 4) and (league.matrix.sum(axis=1) == league.counts).all()
    assert (league.points == league.counts[:, 0]).all() and (league.rounds == 24).all()
    assert np.allclose(league.percents.sum(axis=1), 100) and np.allclose(league.scores, 100 * league.points / 24)
    best = league.order
    assert (league.ranks[best] == np.sort(league.ranks)).all() and np.isnan(league.leads[best[-1]])
    assert np.allclose(league.leads[best[:-1]], -np.diff(league.scores[best]))
    for (first, second), result, seed in zip(league.pairs.tolist(), league.results.tolist(), league.seeds.tolist()):
        rows = corewar.match([warriors()[first], warriors()[second]], rounds=6, seed=seed)
        assert [*vars(rows[0]).values(), rows[1].points] == result


def test_rows_have_numbers() -> None:
    """Warriors without names and files are distinguished by their indices."""
    cells = [corewar.assemble(text).cells for text in ("MOV 0, 1", "JMP 0", "DAT 0", "SPL 0\nJMP -1")]
    made = [corewar.Warrior.from_cells(one) for one in cells]
    results = [CONTEST.league(made), CONTEST.melee(made, 3, 8)]
    for result in results:
        rows = result.to_dict()["warriors"]
        assert [row["number"] for row in rows] == result.order.tolist() != [0, 1, 2, 3]
        assert [row["points"] for row in rows] == result.points[result.order].tolist()
    challenge = CONTEST.challenge(made[0], made[1:])
    assert [row["points"] for row in challenge.records()] == [
        challenge.points[row["number"]] for row in challenge.records()
    ]
    assert [row["number"] for row in CONTEST.compare(made[0], made[1], made[2:]).records()] == [0, 1]
    assert "number" not in challenge.total()


def test_results_are_stored(tmp_path: Path) -> None:
    """A challenge finds what a league has stored, and its seeds do not depend on the other warriors."""
    path, seen = tmp_path / "kept.sqlite", list[corewar.Progress]()
    league = CONTEST.league(warriors(), results=path)
    challenge = CONTEST.challenge(warriors()[0], warriors()[1:], results=path, progress=seen.append)
    assert seen == [corewar.Progress(4, 4)] and (challenge.counts == league.matrix[0, 1:]).all()
    CONTEST.challenge(warriors()[4], warriors()[:4], results=path, progress=seen.append)
    assert seen[1] == corewar.Progress(0, 4, 4)


def test_no_thread_is_left() -> None:
    """An `Assembler` forks the process, which it can do safely only without threads."""
    CONTEST.league(warriors(), jobs=4)
    assert threading.active_count() == 1


def test_errors() -> None:
    for given in ({"rounds": 0}, {"seed": 0}, {"position": 5}, {"formula": "W+"}):
        with pytest.raises(MarsError):
            Contest(**given)  # type: ignore[arg-type]
    with pytest.raises(ValueError, match="expected settings or one of"):
        Contest("unknown")
    with pytest.raises(CorewarError, match="expected the positions drawn, same, pmars or all, not 'each'"):
        Contest(positions="each")  # type: ignore[arg-type]
    few: list[corewar.Positions] = ["pmars", "all"]
    for positions in few:
        with pytest.raises(CorewarError, match=f"a position and the positions {positions} exclude each other"):
            Contest(position=200, positions=positions)
        with pytest.raises(CorewarError, match="the positions of a melee are drawn"):
            Contest(positions=positions).melee(warriors())
    with pytest.raises(CorewarError, match="expected 1 or more opponents"):
        CONTEST.compare(warriors()[0], warriors()[1], [])
    with pytest.raises(CorewarError, match="expected 1 or more jobs, not 0"):
        CONTEST.league(warriors(), jobs=0)
    with pytest.raises(MarsError, match="index 1: warrior 2 Start"):
        CONTEST.league([warriors()[0], replace(warriors()[1], start=99)])
    empty = CONTEST.league([])
    assert empty.records() == [] and str(empty).count("\n") == 0


class Broken(Executor):
    """An executor whose calls raise an error or, without one, are cancelled."""

    def __init__(self, fault: Exception | None) -> None:
        self.fault = fault

    def submit(self, *given: Any, **named: Any) -> Future[Any]:
        future = Future[Any]()
        if self.fault is None:
            future.cancel()
            future.set_running_or_notify_cancel()
        else:
            future.set_exception(self.fault)
        return future


def test_errors_of_executors() -> None:
    """Each error of an executor is reported in one line."""
    for fault, text in (
        (ModuleNotFoundError("No module named 'corewar'"), "this package is not installed on a worker: No module"),
        (OSError("two\nlines"), "error on the workers: two lines"),
        (None, "the executor has ended before all matches were run"),
    ):
        with pytest.raises(CorewarError, match=text):
            CONTEST.league(warriors(), executor=Broken(fault))


def test_an_interrupt_anywhere_ends_the_parts() -> None:
    """An interrupt between two results ends the parts, too, before it is handled."""

    class Interrupting(int):
        def __hash__(self) -> int:
            raise KeyboardInterrupt

    ended = []

    def parts() -> Generator[tuple[int, str], None, None]:
        try:
            yield Interrupting(), "result"
        finally:
            ended.append("parts")

    try:
        next(in_order(parts()))
    except KeyboardInterrupt:
        assert ended
    else:
        pytest.fail("no interrupt")


def test_waiting_takes_no_locks() -> None:
    """Ctrl-C while the locks of many futures are taken would leave some taken, and an executor would wait for them."""
    futures, taken = list[Future[int]](), list[object]()

    class Lock:
        def __init__(self) -> None:
            self.lock = threading.RLock()
            self.release, self._is_owned = self.lock.release, getattr(self.lock, "_is_owned")

        def acquire(self, *given: Any) -> bool:
            taken.append(self)
            return self.lock.acquire(*given)

        __enter__ = acquire

        def __exit__(self, *_: object) -> None:
            self.release()

    class Pool(Executor):
        def submit(self, *given: Any, **named: Any) -> Future[Any]:
            futures.append(Future[int]())
            setattr(futures[-1], "_condition", threading.Condition(cast(threading.Lock, locks[len(futures) - 1])))
            return futures[-1]

    locks = [Lock() for _ in range(3)]
    found = run_parts(int, [(), (), ()], executor=Pool())
    threading.Timer(0.1, lambda: futures[1].set_result(7)).start()
    assert next(found) == (1, 7)
    # Each lock was taken once, to add a callback to its future, and that of the result also to set and to read it.
    assert [*map(taken.count, locks)] == [1, 3, 1]
    found.close()
    assert futures[0].cancelled() and futures[2].cancelled()


def test_seeds_of_matches() -> None:
    """Seeds depend on the contest's seed, on both warriors and their order, not on names; all are valid and differ."""
    dice = random.Random(5)
    made = [
        corewar.Warrior.from_cells([tuple(map(dice.randrange, (16, 7, 8, 8, 80, 80)))], settings="nano")  # type: ignore
        for _ in range(60)
    ]
    contest = Contest("nano")
    seeds = contest.league(made).seeds
    assert len({*seeds.tolist()}) == len(seeds) == 1770 and seeds.min() > 0 and seeds.max() < 2**31 - 1
    # The seeds are spread evenly.
    assert abs(seeds.mean() / 2**30 - 1) < 0.1
    turned, other = contest.league(made[::-1]).seeds, Contest("nano", seed=2).league(made).seeds
    assert not {*seeds.tolist()} & {*turned.tolist()} and not {*seeds.tolist()} & {*other.tolist()}
    assert (Contest("nano", positions="same", seed=7).league(made[:3]).seeds == 7).all()
