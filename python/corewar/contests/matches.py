"""Matches of two warriors, which are run or read from a file: their lineups, seeds and results."""
from __future__ import annotations

import hashlib
from collections.abc import Callable, Iterator, Sequence
from concurrent.futures import Executor
from functools import partial
from typing import TYPE_CHECKING, Any

import numpy as np
from numpy.typing import NDArray

from ..engine.calls import check_points
from ..engine.outcomes import BLOCK, play, run_lineups, table_of
from ..engine.rewards import survivals, values_of
from ..engine.warriors import Warrior
from ..model.types import Indices, Numbers
from ..model.errors import CorewarError
from .results import Table

if TYPE_CHECKING:
    # That module imports this one, since methods of a contest run matches.
    from .contest import Contest


def counts_of(rows: NDArray[Any], formula: str) -> Numbers:
    """Returns the counts of matches, from the rows of the library: the points, wins, ties and losses of the first
    warrior, and the points of the second one. Raises `MarsError`.
    """
    losses, wins, ties = np.moveaxis(survivals(rows), -1, 0)
    points = points_of(formula, wins, ties[:, 0])
    check_points(points.ravel())
    return np.column_stack([points[:, 0], wins[:, 0], ties[:, 0], losses[:, 0], points[:, 1]]).astype(np.int64)


def points_of(formula: str, wins: NDArray[Any], ties: NDArray[Any]) -> NDArray[Any]:
    """Returns the points of both warriors, which may have more than 64 bits, from their wins and ties. Raises
    `MarsError`.
    """
    win, tie = values_of(formula, wins, ties)
    return np.asarray(wins.astype(object) * win + ties[:, None].astype(object) * tie)


def check_counts(counts: object, matches: int, contest: Contest) -> Numbers:
    """Returns the counts of a number of matches, which come from a file or from another machine. Raises CorewarError if
    they are not the counts of any matches of this contest.
    """
    try:
        table = np.array(counts)
    except (ValueError, OverflowError):
        table = np.empty(0)
    if table.shape != (matches, 5) or not (matches == 0 or table.dtype.kind == "i"):
        raise CorewarError(f"expected five whole numbers for each of {matches} matches")
    outcomes, rounds = table[:, 1:4], contest.rounds
    wrong = np.flatnonzero((outcomes < 0).any(axis=1) | (outcomes > rounds).any(axis=1) | (outcomes.sum(1) != rounds))
    if len(wrong):
        wins, ties, losses = outcomes[wrong[0]].tolist()
        raise CorewarError(f"a match of {rounds} rounds cannot have {wins} wins, {ties} ties and {losses} losses")
    # The losses of the first warrior are the wins of the second one.
    points = points_of(contest.formula, outcomes[:, ::2], outcomes[:, 1])
    wrong = np.flatnonzero((table[:, ::4] != points).any(axis=1))
    if len(wrong):
        first, *outcome, second = table[wrong[0]].tolist()
        raise CorewarError(f"{first} and {second} are not the points of {'-'.join(map(str, outcome))}")
    return table.astype(np.int64)


def digests_of(warrior: Warrior) -> tuple[bytes, bytes]:
    """Returns the digests by which the matches of a warrior are found. The first is of its load file without name and
    author, the second of the whole load file, by which version 1.2 stored results.
    """
    first, _, _, rest = warrior.load.split(b"\n", 3)
    return hashlib.sha256(first + b"\n" + rest).digest(), hashlib.sha256(warrior.load).digest()


class Schedule:
    """Matches of lineups of warriors, which are run or read from a file. Rows are indices of matches, and results are
    valid only where `is_fought` is true.
    """

    TABLE: Table
    # Returns the results that a worker sends for rows of the library.
    finish: Callable[[NDArray[Any]], NDArray[Any]]

    def __init__(self, contest: Contest, warriors: Sequence[Warrior], lineups: Indices) -> None:
        self.contest, self.warriors, self.lineups = contest, tuple(warriors), lineups
        self.seeds: Numbers = np.full(len(lineups), contest.seed)
        self.is_fought: NDArray[np.bool_] = np.zeros(len(lineups), bool)

    def __len__(self) -> int:
        return len(self.lineups)

    def play(self, jobs: int = 1, executor: Executor | None = None) -> Iterator[Indices]:
        """Runs the matches that are left. Each time it has filled in results, it yields their rows. Raises
        CorewarError.
        """
        left, run = np.flatnonzero(~self.is_fought), self.contest.run(self.lineups.shape[1])
        for block in (left[at : at + BLOCK] for at in range(0, len(left), BLOCK)):
            table = table_of(self.lineups[block], self.seeds[block])
            for part, found in run_lineups(self.warriors, table, run, self.finish, jobs, executor):
                rows = block[part]
                try:
                    self.fill_in(rows, found)
                except CorewarError as fault:
                    raise CorewarError(f"invalid result from a worker: {fault}") from None
                yield rows

    def fill_in(self, rows: Indices, found: NDArray[Any]) -> None:
        """Fills in the results of matches. Raises CorewarError if these matches cannot have such results."""
        raise NotImplementedError

    def stored(self, rows: Indices) -> Iterator[tuple[Any, ...]]:
        """Yields the digests and the results of matches, as the table has them."""
        raise NotImplementedError

    def take_stored(self, stored: Iterator[tuple[Any, ...]]) -> int:
        """Fills in the stored results. Returns how many matches have no result, but could have one if their warriors
        were in the other order; a result that belongs to another match does not count. Raises CorewarError if a result
        cannot be that of a match.
        """
        raise NotImplementedError


class Matches(Schedule):
    """The matches of pairs of warriors, with their counts, as `counts_of` returns them."""

    TABLE = Table("fought", ("first", "second"), ("points", "wins", "ties", "losses", "theirs"), "INTEGER")

    def __init__(self, contest: Contest, warriors: Sequence[Warrior], pairs: Indices) -> None:
        super().__init__(contest, warriors, pairs)
        self.counts: Numbers = np.zeros((len(pairs), 5), np.int64)
        self.finish = partial(counts_of, formula=contest.formula)
        # This runs no match, but raises the error of an invalid warrior with its index.
        play(warriors, table_of([], 1), contest.run(), np.asarray)
        both = [digests_of(warrior) for warrior in warriors]
        self.digests, self._older = [one for one, _ in both], [other for _, other in both]
        heads = np.array([int.from_bytes(one[:8], "little") for one in self.digests], np.uint64)
        self.seeds = contest.seeds_of(*heads[pairs].T) if contest.has_seeds else contest.fixed_seeds(warriors, pairs)
        # A number for each match; it is the same for matches of equal warriors.
        kinds = np.unique(np.array(self.digests, "S32"), return_inverse=True)[1]
        self.same: Indices = kinds[pairs[:, 0]] * len(warriors) + kinds[pairs[:, 1]]

    def fill_in(self, rows: Indices, found: NDArray[Any]) -> None:
        self.counts[rows] = check_counts(found, len(rows), self.contest)
        self.is_fought[rows] = True

    def stored(self, rows: Indices) -> Iterator[tuple[Any, ...]]:
        for (first, second), numbers in zip(self.lineups[rows].tolist(), self.counts[rows].tolist()):
            yield self.digests[first], self.digests[second], *numbers

    def rows_of(self, pairs: Indices) -> Indices:
        """Returns the row of each of these pairs, or -1 for a pair without a match."""
        rows = np.full((len(self.warriors), len(self.warriors)), -1)
        rows[tuple(self.lineups.T)] = np.arange(len(self))
        return np.asarray(rows[tuple(pairs.T)])

    def take_stored(self, stored: Iterator[tuple[Any, ...]]) -> int:
        numbers: dict[bytes, set[int]] = {}
        for number, digests in enumerate(zip(self.digests, self._older)):
            for digest in digests:
                numbers.setdefault(digest, set()).add(number)
        found = [
            (index, one, other, *counts)
            for index, (first, second, *counts) in enumerate(stored)
            for one in numbers.get(first, ())
            for other in numbers.get(second, ())
        ]
        indices, pairs = np.split(np.array([row[:3] for row in found], np.intp).reshape(-1, 3), [1], axis=1)
        counts = check_counts([row[3:] for row in found] or np.empty((0, 5)), len(found), self.contest)
        rows, reversed_rows = self.rows_of(pairs), self.rows_of(pairs[:, ::-1])
        self.fill_in(rows[rows >= 0], counts[rows >= 0])
        # If equal warriors occur, one may be before an opponent and the other after it, so that both orders have a
        # match.
        is_own = np.isin(indices[:, 0], indices[rows >= 0])
        reversed_rows = np.unique(reversed_rows[(reversed_rows >= 0) & ~is_own])
        return int((~self.is_fought[reversed_rows]).sum())


def all_pairs(count: int) -> Indices:
    """Returns all pairs of `count` warriors, the earlier one first."""
    return np.column_stack(np.triu_indices(count, 1))
