"""Melees: matches of several warriors in random lineups, and the results of each warrior in them."""
from __future__ import annotations

import hashlib
import random
from collections.abc import Iterator, Sequence
from dataclasses import dataclass
from functools import cached_property
from itertools import islice
from typing import TYPE_CHECKING, Any

import numpy as np
from numpy.typing import NDArray

from ..engine.calls import check_points
from ..engine.outcomes import BLOCK
from ..engine.rewards import survivals, values_of
from ..engine.warriors import Warrior
from ..model.types import Indices, Numbers, Rates
from ..model.errors import CorewarError
from .matches import Schedule, digests_of
from .results import Table
from .standings import Standings, head_of

if TYPE_CHECKING:
    # That module imports this one, since methods of a contest run melees.
    from .contest import Contest


@dataclass(frozen=True, eq=False)
class Melee(Standings):
    """The results of warriors in melees. They are `Standings` with the lineups. An error is NaN if the warrior was in
    fewer than two matches.

    - `lineups`: the warriors of each match, in their order
    - `seeds`: the seeds of the matches
    """

    lineups: Indices
    seeds: Numbers

    def to_dict(self) -> dict[str, Any]:
        """Returns the options, the seed, the size and the number of lineups, and the rows, as plain values."""
        return {
            **head_of(self.contest),
            "size": self.lineups.shape[1],
            "lineups": len(self.lineups),
            "warriors": self.records(),
        }

    def __str__(self) -> str:
        lines, ranks = ["  rank    score rounds   wins   ties losses  warrior"], self.ranks
        for one in self.order.tolist():
            _, wins, ties, losses = self.counts[one].tolist()
            numbers = f"{ranks[one]:6} {self.scores[one]:8.1f} {self.rounds[one]:6} {wins:6} {ties:6} {losses:6}"
            lines.append(f"{numbers}  {self.warriors[one].title}")
        return "\n".join(lines)


def lineups_of(warriors: int, size: int, count: int, dice: random.Random) -> list[list[int]]:
    """Returns random lineups, each of different warriors. The numbers of lineups that two warriors are in differ by at
    most one.
    """
    matches_of = [0] * warriors
    lineups = []
    for _ in range(count):
        lineup = sorted(range(warriors), key=lambda one: (matches_of[one], dice.random()))[:size]
        dice.shuffle(lineup)
        for one in lineup:
            matches_of[one] += 1
        lineups.append(lineup)
    return lineups


class Lineups(Schedule):
    """Matches of random lineups. Only the points of the warriors in each match are kept, and sums over all matches."""

    TABLE = Table("melees", ("lineup",), ("lives",), "BLOB")
    finish = staticmethod(survivals)

    def __init__(self, contest: Contest, warriors: Sequence[Warrior], size: int, count: int) -> None:
        lineups = np.array(lineups_of(len(warriors), size, count, random.Random(contest.seed)))
        super().__init__(contest, warriors, lineups)
        # The seed of a match depends only on the contest's seed and on the match's index, so the first matches stay the
        # same with more lineups.
        self.seeds = contest.seeds_of(*np.arange(2 * count, dtype=np.uint64).reshape(-1, 2).T)
        self.points = np.zeros(lineups.shape)
        # The number of rounds in which each warrior died, and in which it was one of 1, 2 .. survivors.
        self.sums = np.zeros((len(warriors), size + 1), np.int64)
        self._lives: Numbers = np.zeros((0, size, size + 1), np.int64)

    def fill_in(self, rows: Indices, found: NDArray[Any]) -> None:
        rounds, survivors = self.contest.rounds, np.arange(found.shape[-1])
        # A round with three survivors is counted for three warriors, and so on.
        is_divisible = found.sum(axis=1) % np.maximum(survivors, 1) == 0
        if (found < 0).any() or (found.sum(axis=2) != rounds).any() or not is_divisible.all():
            raise CorewarError(f"a match of {rounds} rounds cannot have these survivors")
        values = values_of(self.contest.formula, *np.moveaxis(found, -1, 0)[1:])
        self.points[rows], self._lives = found[..., 1:] @ np.array(values, float), found
        np.add.at(self.sums, self.lineups[rows], found)
        self.is_fought[rows] = True

    def stored(self, rows: Indices) -> Iterator[tuple[Any, ...]]:
        # These are the rows that were filled in last.
        return zip(self._keys(rows), (lives.astype("<u4").tobytes() for lives in self._lives))

    @cached_property
    def _digests(self) -> list[bytes]:
        return [digests_of(warrior)[0] for warrior in self.warriors]

    def _keys(self, rows: Indices) -> Iterator[bytes]:
        """Yields a digest of the warriors and the seed of each match."""
        for lineup, seed in zip(self.lineups[rows].tolist(), self.seeds[rows].tolist()):
            yield hashlib.sha256(
                b"".join([seed.to_bytes(4, "little"), *(self._digests[one] for one in lineup)])
            ).digest()

    def take_stored(self, stored: Iterator[tuple[Any, ...]]) -> int:
        rows, shape = {key: row for row, key in enumerate(self._keys(np.arange(len(self))))}, self._lives.shape[1:]
        while block := [*islice(stored, BLOCK)]:
            own = [(rows[key], lives) for key, lives in block if key in rows]
            try:
                found = np.frombuffer(b"".join(lives for _, lives in own), "<u4").reshape(len(own), *shape)
            except (TypeError, ValueError):
                raise CorewarError(f"expected {shape[0]} times {shape[1]} numbers for a match") from None
            self.fill_in(np.array([row for row, _ in own], np.intp), found.astype(np.int64))
        return 0


def melee_of(matches: Lineups) -> Melee:
    """Returns the results of melees. Raises `MarsError`."""
    contest, sums, count = matches.contest, matches.sums, len(matches.warriors)
    values = values_of(contest.formula, *sums.T[1:])
    points = [sum(value * times for value, times in zip(values, own)) for own in sums[:, 1:].tolist()]
    check_points(points)
    errors = errors_of(matches.lineups.ravel(), matches.points.ravel(), count) / contest.rounds
    counts = np.column_stack([np.array(points, np.int64), sums[:, 1], sums[:, 2:].sum(axis=1), sums[:, 0]])
    return Melee(contest, matches.warriors, counts, errors, matches.lineups, matches.seeds)


def errors_of(indices: Indices, points: Rates, count: int) -> Rates:
    """Returns the standard error of 100 times the mean points of each warrior, or NaN for fewer than two matches.

    `indices` and `points` have the warrior and its points in each match.
    """
    matches, sums = np.bincount(indices, minlength=count), np.bincount(indices, points, count)
    with np.errstate(divide="ignore", invalid="ignore"):
        # Opponents are drawn as well as rounds, so the error is computed from whole matches and not from rounds.
        spread = np.bincount(indices, (points - (sums / matches)[indices]) ** 2, count) / (matches - 1)
        return np.where(matches > 1, 100 * np.sqrt(spread / matches), np.nan)
