"""Contests of many warriors: leagues, challenges, comparisons and melees."""
from __future__ import annotations

import os
from collections.abc import Callable, Iterator, Sequence
from concurrent.futures import Executor
from contextlib import ExitStack
from dataclasses import dataclass
from functools import partial
from typing import Any, TypeVar

import numpy as np
from numpy.typing import ArrayLike, NDArray

from ..engine.outcomes import check_jobs, run_lineups, table_of
from ..engine.sums import pairs_of
from ..engine.warriors import Warrior
from ..model.types import Indices
from ..model.errors import CorewarError
from ..model.settings import MAX_WARRIORS
from .challenge import Challenge, challenge_of
from .comparison import Comparison, scores_of
from .exact import battles_of, rounds_of, survivors
from .league import League, league_of
from .matches import Matches, Schedule, all_pairs, counts_of
from .melee import Lineups, Melee, melee_of
from .results import Results
from .terms import Terms

Kind = TypeVar("Kind", bound=Schedule)


@dataclass(frozen=True)
class Progress:
    """How far a contest is.

    - `done`, `total`: the number of matches that have a result, and of all matches
    - `turned`: the number of matches that are stored only with the warriors in the other order, which are different
      matches
    """

    done: int
    total: int
    turned: int = 0


@dataclass(frozen=True)
class Execution:
    """Where matches are run, where their results are stored, and what is called with their progress."""

    jobs: int = 1
    executor: Executor | None = None
    results: str | os.PathLike[str] | None = None
    progress: Callable[[Progress], object] | None = None

    def __post_init__(self) -> None:
        check_jobs(self.jobs)

    def check(self, contest: Terms) -> None:
        """Raises CorewarError if results of a contest cannot be stored."""
        # The positions of `pmars -f` also depend on whether a source says CMP or SEQ, but stored results are found by
        # cells, which are the same for both.
        if self.results is not None and contest.positions in ("pmars", "all"):
            raise CorewarError("results with the positions of `pmars -f`, or with every position, cannot be stored")

    def report(self, done: int, total: int, turned: int = 0) -> None:
        if self.progress is not None:
            self.progress(Progress(done, total, turned))


class Contest(Terms):
    """A contest: the settings of all its matches. They determine the result of a match of two warriors in their order.

    - `settings`: the parameters of the core, or the name of a hill
    - `rounds`: the number of rounds of each match, 1 to 100,000
    - `seed`: the seed, 1 to 2,147,483,646
    - `position`: the address of the second of two warriors, or None to draw positions from the seed
    - `formula`: the score of each survivor of a round, as for `match`
    - `positions`: what determines the starting positions of each match:
        - `drawn`: a seed of its own, which `seed` and its warriors determine, so that the matches are independent
        - `same`: `seed` itself, as in `mars --league`
        - `pmars`: the cells of its two warriors, as with `pmars -f`
        - `all`: a challenge or a comparison has a round for each position and each warrior that begins, so that its
          results are exact; nothing is drawn, and `rounds` becomes the number of these rounds

    Results with `pmars` and `all` are not stored, and a melee can only be drawn.

    Every method takes these by name:

    - `jobs`: the number of threads
    - `executor`: an executor of `concurrent.futures` that runs the matches instead, as for `outcomes`
    - `progress`: a function that is called with a `Progress` before the first match and each time some have been run

    Ctrl-C ends each method at once. Raises `MarsError` for an invalid number and for a formula that is not an
    expression in W and S.
    """

    def league(
        self,
        warriors: Sequence[Warrior],
        *,
        jobs: int = 1,
        executor: Executor | None = None,
        results: str | os.PathLike[str] | None = None,
        progress: Callable[[Progress], object] | None = None,
    ) -> League:
        """Runs a league: every two warriors play a match, in which the earlier one comes first.

        - `results`: the name of a file in which results are stored; matches that it contains are not run again

        Raises `MarsError` for an invalid warrior, and `CorewarError` for errors of the file and of an executor.
        """
        matches = Matches(self, warriors, all_pairs(len(warriors)))
        return league_of(run_all(matches, Execution(jobs, executor, results, progress)))

    def challenge(
        self,
        warrior: Warrior,
        opponents: Sequence[Warrior],
        *,
        jobs: int = 1,
        executor: Executor | None = None,
        results: str | os.PathLike[str] | None = None,
        progress: Callable[[Progress], object] | None = None,
    ) -> Challenge:
        """Runs a match of a warrior with each of its opponents, in which the warrior comes first. The rest is as for
        `league`, whose file of results it may share.
        """
        pairs = pairs_of([0], range(1, len(opponents) + 1))
        matches, how = Matches(self, [warrior, *opponents], pairs), Execution(jobs, executor, results, progress)
        if self.positions != "all":
            return challenge_of(run_all(matches, how))
        how.check(self)
        rows = self._everywhere(matches.warriors, pairs, how)
        matches.fill_in(np.arange(len(pairs)), counts_of(rows, self.formula))
        scores = scores_of(rows, self.formula)
        return challenge_of(matches, scores.reshape(len(pairs), -1, 2).mean(axis=2))

    def compare(
        self,
        old: Warrior,
        new: Warrior,
        opponents: Sequence[Warrior],
        *,
        jobs: int = 1,
        executor: Executor | None = None,
        progress: Callable[[Progress], object] | None = None,
    ) -> Comparison:
        """Runs the matches of two versions of a warrior with each opponent. All have the same seed, so that both
        versions have the same positions; with the positions `pmars` each match has the seed of its own cells instead.
        Raises `MarsError`, and `CorewarError` without an opponent and for errors of an executor.
        """
        if not opponents:
            raise CorewarError("expected 1 or more opponents")
        warriors = [old, new, *opponents]
        pairs = pairs_of([0, 1], range(2, len(warriors)))
        finish, how = partial(scores_of, formula=self.formula), Execution(jobs, executor, None, progress)
        if self.positions == "all":
            scores = finish(self._everywhere(warriors, pairs, how))
        else:
            scores = self._play(warriors, pairs, self.fixed_seeds(warriors, pairs), finish, how)
        return Comparison(self, (old, new), tuple(opponents), scores.reshape(2, len(opponents), self.rounds))

    def melee(
        self,
        warriors: Sequence[Warrior],
        size: int = 4,
        lineups: int = 100,
        *,
        jobs: int = 1,
        executor: Executor | None = None,
        results: str | os.PathLike[str] | None = None,
        progress: Callable[[Progress], object] | None = None,
    ) -> Melee:
        """Runs matches of random warriors, whose numbers of matches differ by at most one. The seed draws the warriors
        and the seed of each match. With more lineups, the first matches stay the same.

        - `size`: the number of warriors in a match, 2 to 16
        - `lineups`: the number of matches, 1 or more
        - `results`: as for `league`, whose file it may share

        Raises `MarsError`, and `CorewarError` for too few warriors and for errors of the file and of an executor.
        """
        if self.positions != "drawn":
            raise CorewarError("the positions of a melee are drawn")
        if not 2 <= size <= min(MAX_WARRIORS, len(warriors)) or lineups < 1:
            raise CorewarError(f"expected 1 or more matches of 2 to 16 of the warriors, not {lineups} of {size}")
        matches = Lineups(self, warriors, size, lineups)
        return melee_of(run_all(matches, Execution(jobs, executor, results, progress)))

    def _everywhere(self, warriors: Sequence[Warrior], pairs: Indices, how: Execution) -> NDArray[Any]:
        """Returns the survivors of each battle from every position, as rows of a match for each pair."""
        return rounds_of(self._play(warriors, *battles_of(pairs, self.settings), survivors, how), len(pairs))

    def _play(
        self,
        warriors: Sequence[Warrior],
        lineups: Indices,
        seeds: ArrayLike,
        finish: Callable[[NDArray[Any]], NDArray[Any]],
        how: Execution,
    ) -> NDArray[Any]:
        """Returns what `finish` returns for the rows of each lineup."""
        table, parts, done = table_of(lineups, seeds), dict[int, NDArray[Any]](), 0
        how.report(0, len(table))
        for part, found in run_lineups(warriors, table, self.run(lineups.shape[1]), finish, how.jobs, how.executor):
            parts[part.start] = found
            done += len(found)
            how.report(done, len(table))
        return np.concatenate([parts[start] for start in sorted(parts)])


def run_all(matches: Kind, how: Execution) -> Kind:
    """Runs the matches that are not stored yet, and returns all matches."""
    for _ in run(matches, how):
        pass
    return matches


def run(matches: Schedule, how: Execution) -> Iterator[Indices]:
    """Runs the matches that are not stored yet. Yields the rows of all stored matches first, and then, each time some
    matches have been run, their rows. Raises CorewarError.
    """
    how.check(matches.contest)
    if matches.contest.positions == "all":
        raise CorewarError("only a challenge and a comparison can have every position")
    with ExitStack() as stack:
        stored = stack.enter_context(Results(os.fspath(how.results), matches)) if how.results else None
        turned = stored.find() if stored else 0
        rows = np.flatnonzero(matches.is_fought)
        done = len(rows)
        how.report(done, len(matches), turned)
        yield rows
        for rows in matches.play(how.jobs, how.executor):
            if stored:
                stored.keep(rows)
            done += len(rows)
            how.report(done, len(matches), turned)
            yield rows
