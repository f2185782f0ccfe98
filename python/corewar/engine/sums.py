"""Leagues and populations: the sums of the results of each warrior in its matches."""
from __future__ import annotations

from collections.abc import Iterable, Sequence
from typing import Any

import numpy as np
from numpy.typing import ArrayLike, NDArray

from ..model.settings import FORMULA, Settings, settings_of
from .calls import Row, check_numbers, check_points, rows
from .outcomes import BLOCK, Run, run_lineups, table_of
from .parts import TURNS
from .rewards import score_of, survivals, values_of
from .warriors import Warrior


def league(
    warriors: Sequence[Warrior],
    *,
    settings: Settings | str = "94nop",
    rounds: int = 1,
    seed: int = 1,
    formula: str = FORMULA,
) -> list[Row]:
    """Runs a league of up to 65,536 warriors, a match of every two, and returns the row of each, in their order.

    The parameters and errors are those of `match`, without a position; every match has the same seed. `Contest.league`
    gives each match a seed of its own, returns more than sums, and can use all processors.
    """
    run, count = Run(settings_of(settings), rounds), len(warriors)
    if is_short(run, count * (count - 1) // 2):
        return rows("mars_league", run.settings, (rounds, seed, None), formula, warriors, count)
    step, numbers = max(1, BLOCK // count), np.arange(count)
    blocks = (np.argwhere(numbers > numbers[at : at + step, None]) + [at, 0] for at in range(0, count, step))
    return sums(warriors, blocks, run, seed, formula)


def population(
    candidates: Sequence[Warrior],
    opponents: Sequence[Warrior],
    *,
    settings: Settings | str = "94nop",
    rounds: int = 1,
    seed: int = 1,
    position: int | None = None,
    formula: str = FORMULA,
) -> list[Row]:
    """Runs a match of each candidate with each opponent, and returns the sum of the rows of each candidate.

    The candidate is the first warrior of its matches. The other parameters and the errors are those of `match`; the sum
    of an opponent, which is not returned, must fit in 64 bits, too.
    """
    fighters, run = [*candidates, *opponents], Run(settings_of(settings), rounds, position)
    count, others = len(candidates), np.arange(len(candidates), len(fighters))
    if is_short(run, count * len(others)):
        return rows("mars_population", run.settings, (rounds, seed, position), formula, fighters, count)
    step = max(1, BLOCK // len(others))
    blocks = (pairs_of(range(at, min(at + step, count)), others) for at in range(0, count, step))
    return sums(fighters, blocks, run, seed, formula)[:count]


def pairs_of(first: ArrayLike, second: ArrayLike) -> NDArray[np.intp]:
    """Returns all pairs of a number of `first` and a number of `second`, each pair as a row."""
    return np.array(np.meshgrid(first, second, indexing="ij"), np.intp).reshape(2, -1).T


def is_short(run: Run, matches: int) -> bool:
    """Returns whether matches of two take a quarter second at most, so that Ctrl-C can wait for them."""
    return matches * run.rounds * run.settings.cycles * 2 <= TURNS


def sums(
    warriors: Sequence[Warrior], blocks: Iterable[NDArray[np.intp]], run: Run, seed: int, formula: str
) -> list[Row]:
    """Returns the row of each warrior in matches of two, which are listed in blocks. Raises MarsError."""
    check_numbers(run.settings, run.rounds, seed, run.position)
    # Without survivors the formula is only read: an error in it is raised before the matches are run.
    score_of(formula, 2, 0)
    counts = np.zeros((len(warriors), 3), np.int64)
    for pairs in blocks:
        for part, found in run_lineups(warriors, table_of(pairs, seed), run, tally):
            numbers = pairs[part].ravel()
            columns = [np.bincount(numbers, column, len(warriors)) for column in found.T]
            counts += np.stack(columns, axis=-1).astype(np.int64)
    win, tie = values_of(formula, *counts.T[1:])
    made = [Row(wins * win + ties * tie, wins, ties, losses) for losses, wins, ties in counts.tolist()]
    check_points(row.points for row in made)
    return made


def tally(rows: NDArray[Any]) -> NDArray[np.intp]:
    """Returns the losses, wins and ties of both warriors of matches, one warrior after the other."""
    return survivals(rows).reshape(-1, 3)
