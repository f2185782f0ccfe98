"""Tests outcomes: that they agree with matches and battles on any executor, and what is computed from them."""
from __future__ import annotations

import random
import subprocess
import sys
from concurrent.futures import ProcessPoolExecutor, ThreadPoolExecutor
from dataclasses import replace
from functools import partial
from multiprocessing import get_context
from typing import Any

import numpy as np
import pytest
from conftest import ENVIRONMENT, EXAMPLES

import corewar
from corewar import CorewarError, MarsError, Match, Settings, Warrior
from corewar.engine import outcomes as module
from corewar.engine.outcomes import COUNTED, COUNTS, OUTCOME
from corewar.engine.parts import call_there, versions
from corewar.model.types import Cell
from corewar.model.cells import MODES, MODIFIERS, OPCODES

SMALL = Settings(core=400, processes=20, cycles=150, longest=10, distance=10)


def random_warriors(dice: random.Random, count: int) -> list[Warrior]:
    """Returns random warriors. MOV, SPL and JMP are drawn more often, so that many warriors live for some time."""
    weights = [9 if name in ("MOV", "SPL", "JMP") else 1 for name in OPCODES]

    def cell() -> Cell:
        opcode, modifier = dice.choices(range(16), weights)[0], dice.randrange(len(MODIFIERS))
        modes = dice.randrange(len(MODES)), dice.randrange(len(MODES))
        return opcode, modifier, *modes, dice.randrange(9), dice.randrange(9)

    return [Warrior.from_cells([cell() for _ in range(dice.randint(1, 10))], settings=SMALL) for _ in range(count)]


def test_outcomes_are_those_of_matches_and_battles() -> None:
    """In random melees of 2 to 8 warriors, the counts over the rounds are those of matches, and the outcomes of a round
    are those of its battle.
    """
    dice, died = random.Random(70), 0
    for _ in range(1000):
        warriors, count, rounds = random_warriors(dice, 10), dice.randint(2, 8), dice.randint(1, 3)
        lineups = [dice.sample(range(10), count) for _ in range(2)]
        seeds = [dice.randint(1, 2_147_483_646) for _ in lineups]
        words: Any = {"settings": SMALL, "rounds": rounds, "seeds": seeds}
        counted = corewar.outcomes(warriors, lineups, counts=True, jobs=2, **words)
        assert counted.shape == (2, rounds, count) and counted.dtype == COUNTED
        outcomes = corewar.outcomes(warriors, lineups, **words)
        assert outcomes.dtype == OUTCOME
        assert all(np.array_equal(counted[name], outcomes[name]) for name in OUTCOME.names or ())
        for lineup, seed, rows in zip(lineups, seeds, counted):
            fighters = [warriors[index] for index in lineup]
            terms: Any = {"settings": SMALL, "rounds": rounds, "seed": seed}
            survivors = rows["survived"].sum(axis=1)
            wins = (rows["survived"] & (survivors == 1)[:, None]).sum(axis=0).tolist()
            lives, match = rows["survived"].sum(axis=0).tolist(), corewar.match(fighters, **terms)
            assert [(row.wins, row.wins + row.ties, row.losses) for row in match] == [
                (won, lived, rounds - lived) for won, lived in zip(wins, lives)
            ]
            round = dice.randrange(rounds)
            died += check_round(Match(fighters, **terms), round, rows[round])
    assert died > 2000


def check_round(fight: Match, round: int, row: Any) -> int:
    """Compares the outcomes of a round with the records of its battle, and returns the number of deaths."""
    battle, count = corewar.Battle(fight, round), len(fight.warriors)
    first = [int(queue[0]) for queue in battle.queues]
    records, touched = battle.play(records=count * SMALL.cycles, touched=count * SMALL.cycles)
    deaths = dict(battle.deaths.tolist())
    for place, warrior in enumerate(fight.warriors):
        number = (place - round) % count
        death, outcome = deaths.get(number), row[place]
        assert outcome["start"] == (first[number] - warrior.start) % SMALL.core
        assert (bool(outcome["survived"]), int(outcome["turns"])) == (death is None, death or battle.turns)
        # The record of the turn before has the number of cycles that were complete.
        cycles = SMALL.cycles if death is None else int(records["cycle"][death - 2]) if death > 1 else 0
        assert outcome["cycles"] == cycles
        own = records["warrior"] == number
        assert outcome[[*COUNTS]].tolist() == counts_in(records[own], touched[own])
    return len(deaths)


def counts_in(records: Any, touched: Any) -> tuple[int, ...]:
    """Returns what a warrior did, from the records of its turns."""
    written = records["change"]["address"][np.arange(3) < records["changes"][:, None]]
    reached = touched["address"][np.arange(8) < touched["count"][:, None]]
    cells = [len(np.unique(addresses)) for addresses in (records["address"], written, reached)]
    return len(records), int((records["queued"] == 2).sum()), *cells


def test_lineups() -> None:
    """The default is one lineup of all warriors, each lineup may have a seed, and errors have the lineup's index."""
    warriors = [corewar.read(EXAMPLES / f"{name}.red") for name in ("dwarf", "imp", "silk")]
    pairs = [[0, 1], [1, 2], [2, 0]]
    outcomes = corewar.outcomes(warriors, pairs, rounds=4, seeds=[3, 4, 5])
    assert np.array_equal(outcomes, corewar.outcomes(warriors, np.array(pairs), rounds=4, seeds=[3, 4, 5], jobs=3))
    assert np.array_equal(outcomes[1:2], corewar.outcomes(warriors[1:], rounds=4, seeds=4))
    assert corewar.outcomes(warriors, [], jobs=2).shape == (0, 1, 0) and corewar.outcomes(warriors).shape == (1, 1, 3)
    placed = corewar.outcomes(warriors, pairs, position=400)
    assert placed["start"].tolist() == [[[0, 400]]] * 3
    faulty: list[tuple[Any, dict[str, Any], str]] = [
        ([[0, 3]], {}, "index 0: lineup 2 Index"),
        ([[0] * 16, [0] * 16, [3] * 16], {}, "index 2: lineup 2 Index"),
        ([[0, 1]] * 30 + [[0, 3]] * 2, {"jobs": 2}, "index 30: lineup 2 Index"),
        ([[]], {}, "index 0: lineup 1 Count"),
        (pairs, {"seeds": 0}, "settings 2 Seed"),
        (pairs, {"seeds": [1, 0, 1]}, "settings 2 Seed"),
        (pairs, {"seeds": 2**31 - 1}, "settings 2 Seed"),
        *((pairs, {"rounds": rounds}, "settings 1 Rounds") for rounds in (0, -1, 100_001, 10**9, 2**40)),
        *(([], {"rounds": rounds}, "settings 1 Rounds") for rounds in (0, -1, 100_001, 2**40)),
        ([], {"seeds": 0}, "settings 2 Seed"),
        ([], {"position": 5}, "settings 3 Position"),
        ([[0, 1, 2]], {"position": 400}, "settings 3 Position"),
        ([[-1, 0]], {}, "index 0: lineup 2 Index"),
        (pairs, {"seeds": [1, -1, 2**40]}, "settings 2 Seed"),
        ([[0, 2**70]], {}, "index 0: lineup 2 Index"),
        (pairs, {"seeds": np.array([1, 0, 1], np.uint8)}, "settings 2 Seed"),
    ]
    for lineups, words, fault in faulty:
        with pytest.raises(MarsError) as found:
            corewar.outcomes(warriors, lineups, **words)
        assert str(found.value) == fault
    uneven: list[tuple[Any, dict[str, Any]]] = [([[[0]], [2]], {}), ([0, 1], {}), (pairs, {"seeds": [1, 2]})]
    fractions: list[tuple[Any, dict[str, Any]]] = [([[0, 1.5]], {}), ([["0", "1"]], {}), (pairs, {"seeds": 1.5})]
    for lineups, words in [*uneven, *fractions]:
        with pytest.raises(ValueError):
            corewar.outcomes(warriors, lineups, **words)
    with pytest.raises(CorewarError, match="a match has at most 16 warriors, not 17"):
        corewar.outcomes(warriors, [[0] * 17])
    with pytest.raises(CorewarError, match="expected 1 or more jobs, not 0"):
        corewar.outcomes(warriors, jobs=0)


def test_lineups_of_different_lengths() -> None:
    """A place without a warrior has only zeros, and gets no reward."""
    warriors = random_warriors(random.Random(3), 4)
    words: dict[str, Any] = {"settings": SMALL, "rounds": 6}
    lineups, seeds = [[0, 1, 2], [3], [2, 1]], [5, 6, 7]
    made = corewar.outcomes(warriors, lineups, seeds=seeds, **words)
    arrays = [np.array(lineup) for lineup in lineups]
    assert np.array_equal(made, corewar.outcomes(warriors, arrays, seeds=seeds, **words))
    assert made.shape == (3, 6, 3) and np.array_equal(
        made, corewar.outcomes(warriors, lineups, seeds=seeds, jobs=3, **words)
    )
    for lineup, seed, rows in zip(lineups, seeds, made):
        alone = corewar.outcomes(warriors, [lineup], seeds=seed, **words)[0]
        assert np.array_equal(rows[:, : len(lineup)], alone) and not rows[:, len(lineup) :].view(np.uint8).any()
        rewards: list[Any] = [corewar.points, partial(corewar.shares, cycles=SMALL.cycles)]
        for reward in rewards:
            got = reward(rows)
            assert np.array_equal(got[:, : len(lineup)], reward(alone)) and not got[:, len(lineup) :].any()


@pytest.mark.parametrize("formula", ["(W*W-1)/S", "5-S*W"])
def test_points(formula: str) -> None:
    """Points of rounds add up to the points of matches; a formula without a value for a round is an error."""
    warriors = [corewar.read(EXAMPLES / f"{name}.red") for name in ("dwarf", "imp", "clear", "paper")]
    made = corewar.outcomes(warriors, [[0, 1, 2, 3]], rounds=12)
    rows = corewar.match(warriors, rounds=12, formula=formula)
    assert corewar.points(made, formula)[0].sum(axis=0).tolist() == [row.points for row in rows]
    with pytest.raises(MarsError, match="score 3 DivideByZero"):
        corewar.points(made, "1/(W-4)")


def spread(made: Any) -> Any:
    """Returns two numbers of each lineup."""
    return np.stack([made["turns"].sum(axis=(1, 2)), made["survived"].sum(axis=(1, 2))], axis=1)


def test_executors(monkeypatch: pytest.MonkeyPatch) -> None:
    """Threads, processes and parts of any size give equal arrays, reduced or not."""
    warriors = random_warriors(random.Random(4), 30)
    lineups = [[one, (one * 7 + 3) % 30] for one in range(30)] * 3 + [[1, 2, 3]]
    words: dict[str, Any] = {"settings": SMALL, "rounds": 7, "seeds": range(1, 92), "counts": True}
    whole = corewar.outcomes(warriors, lineups, **words)
    monkeypatch.setattr(module, "TURNS", SMALL.cycles * 40)
    monkeypatch.setattr(module, "DISTANT_TURNS", SMALL.cycles * 100)
    with ThreadPoolExecutor(2) as threads, ProcessPoolExecutor(2, get_context("spawn")) as processes:
        hows: list[dict[str, Any]] = [{}, {"jobs": 3}, {"executor": threads}, {"executor": processes}]
        for how in hows:
            assert np.array_equal(corewar.outcomes(warriors, lineups, **words, **how), whole)
            assert np.array_equal(corewar.outcomes(warriors, lineups, **words, **how, reduce=spread), spread(whole))
            wrongs: list[tuple[list[int], str]] = [([0, 30], "lineup 2 Index"), ([], "lineup 1 Count")]
            for wrong, fault in wrongs:
                with pytest.raises(MarsError, match=f"index 90: {fault}"):
                    corewar.outcomes(warriors, [*lineups[:90], wrong], **words, **how)
            with pytest.raises(MarsError, match="index 29: warrior 2 Start"):
                corewar.outcomes([*warriors[:29], replace(warriors[29], start=99)], lineups, **words, **how)
            with pytest.raises(CorewarError, match="expected an array with"):
                corewar.outcomes(warriors, lineups, **words, **how, reduce=np.ravel)
    # A match that takes long is run in portions.
    one = corewar.outcomes(warriors[:3], rounds=500, seeds=9, settings=SMALL)
    monkeypatch.undo()
    assert np.array_equal(one, corewar.outcomes(warriors[:3], rounds=500, seeds=9, settings=SMALL))


def test_a_worker_of_another_version() -> None:
    """A worker of another version runs nothing; its answer names both versions."""
    answer = call_there("corewar 0.9, library 900", len, "abc")
    assert str(answer).startswith("a worker has corewar 2.0, library 2000, but this is corewar 0.9, library 900")
    assert call_there(versions(), len, "abc") == 3


def test_sums_in_parts(monkeypatch: pytest.MonkeyPatch) -> None:
    """Matches, leagues and populations that take long are run in parts, with the same rows and errors."""
    warriors, imp = random_warriors(random.Random(6), 7), corewar.assemble("JMP 0", settings=SMALL)
    words: dict[str, Any] = {"settings": SMALL, "rounds": 5, "seed": 8}
    calls: list[Any] = [
        partial(corewar.match, warriors, **words),
        partial(corewar.league, warriors, **words),
        partial(corewar.population, warriors[:3], warriors[3:], **words),
        partial(corewar.population, warriors[:3], warriors[3:], position=50, **words),
        partial(corewar.match, [imp] * 2, **words, formula="1/(S-2)"),
        partial(corewar.league, [imp] * 3, **words, formula=f"2*{2**59}"),
        partial(corewar.league, [imp] * 3, **words, formula="W+"),
        partial(corewar.population, [imp], [imp] * 3, **{**words, "seed": 0}),
    ]

    def results() -> list[str]:
        found = []
        for call in calls:
            try:
                found.append(str(call()))
            except MarsError as fault:
                found.append(str(fault))
        return found

    whole = results()
    assert whole[4:6] == ["score 3 DivideByZero", "score 4 Range"]
    for name in ("calls", "sums", "outcomes"):
        monkeypatch.setattr(f"corewar.engine.{name}.TURNS", 1)
    assert results() == whole


# Calls that would take long.
CALLS = [
    "corewar.match(two, rounds=100000)",
    "corewar.league(two * 2, rounds=100000)",
    "corewar.population(two, two, rounds=100000)",
    "corewar.outcomes(two, rounds=100000)",
    f"corewar.outcomes([corewar.read('{EXAMPLES / 'silk.red'}')] * 2, rounds=100000, counts=True)",
    "corewar.outcomes(two, [[0, 1]] * 9, rounds=10000, jobs=2)",
    "corewar.Battle(corewar.Match(two * 8, settings=corewar.Settings(cycles=10**7))).play()",
    "corewar.Battle(corewar.Match(two * 8, settings=corewar.Settings(cycles=10**6))).play(records=10**7)",
    "corewar.Contest(rounds=100000).league(two * 2)",
    "corewar.Contest(rounds=100000).league(two * 2, jobs=2)",
    "corewar.Contest(rounds=100000).melee(two, 2, 9)",
    "corewar.Contest(rounds=100000).compare(*two, two)",
    "corewar.Contest(positions='all').challenge(two[0], two * 2, jobs=2)",
]


@pytest.mark.parametrize("call", CALLS)
def test_ctrl_c(call: str) -> None:
    """Ctrl-C ends a call and its threads, within half a second on a free processor."""
    program = f"""
import corewar, threading, time, os, signal
two = [corewar.assemble("JMP 0")] * 2
began = []
def interrupt():
    time.sleep(0.4)
    began.append(time.process_time())
    os.kill(os.getpid(), signal.SIGINT)
threading.Thread(target=interrupt).start()
try:
    {call}
    print("ended")
except KeyboardInterrupt:
    for thread in threading.enumerate()[1:]:
        thread.join()
    print(time.process_time() - began[0])
"""
    done = subprocess.run([sys.executable, "-c", program], env=ENVIRONMENT, capture_output=True, text=True, timeout=60)
    # The CPU time of two threads adds up.
    assert float(done.stdout) < 0.5 * (2 if "jobs" in call else 1), done.stderr


def test_shares() -> None:
    """The warriors that live in a cycle share its reward, and the shares of a round with a survivor add up to the
    number of warriors.
    """
    outcomes = np.zeros((1, 3), OUTCOME)
    outcomes["cycles"] = [[1, 4, 10]]
    # Three share 2 cycles, two of them 3 more, and the last one has the other 5.
    points = [2 / 3, 2 / 3 + 3 / 2, 2 / 3 + 3 / 2 + 5]
    assert np.allclose(corewar.shares(outcomes, 10), [[share * 3 / 10 for share in points]])
    with pytest.raises(CorewarError, match="expected 1 or more cycles, not 0"):
        corewar.shares(outcomes, 0)
    dice = random.Random(3)
    for _ in range(20):
        outcomes = corewar.outcomes(random_warriors(dice, 5), rounds=10, settings=SMALL)
        shared = corewar.shares(outcomes, SMALL.cycles)
        lives = outcomes["cycles"].max(axis=-1) == SMALL.cycles
        assert np.allclose(shared.sum(axis=-1)[lives], 5)
