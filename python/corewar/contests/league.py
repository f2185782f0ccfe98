"""The results of a league: a match of every two warriors."""
from __future__ import annotations

from dataclasses import dataclass
from functools import cached_property
from typing import Any

import numpy as np

from ..engine.calls import check_points
from ..model.types import Indices, Numbers, Rates
from .matches import Matches
from .standings import HEAD, Standings, Sums, best_of, rounded

LEADS = ("lead", "lead_error")


@dataclass(frozen=True, eq=False)
class League(Standings):
    """The results of a league. They are `Standings` with the results of each match.

    - `pairs`: the two warriors of each match, in their order
    - `results`: the points, wins, ties and losses of the first warrior of each match, and the points of the second one
    - `seeds`: the seeds of the matches
    - `leads`, `lead_errors`: by how much the score of each warrior is greater than that of the next rank, and the
      standard error of this lead; NaN for the last warrior
    - `by_points`: whether rows are shown by their points, or in the order of the warriors
    """

    pairs: Indices
    results: Numbers
    seeds: Numbers
    leads: Rates
    lead_errors: Rates
    by_points: bool = True

    COLUMNS = (*Standings.COLUMNS, *LEADS)

    @cached_property
    def matrix(self) -> Numbers:
        """The points, wins, ties and losses of each warrior against every other warrior."""
        return matrix_of(len(self.warriors), self.pairs, self.results)

    @property
    def order(self) -> Indices:
        """The indices of the warriors in the order in which they are shown."""
        return best_of(self.points) if self.by_points else np.arange(len(self.warriors))

    @property
    def shown_ranks(self) -> Numbers:
        """The rank of each warrior in the table, where equal points are in the order of the warriors."""
        return 1 + np.argsort(best_of(self.points))

    @property
    def titles(self) -> list[str]:
        """The name or file, and the author, of each warrior in the order of `order`."""
        return [self.warriors[one].title for one in self.order.tolist()]

    @property
    def balances(self) -> Numbers:
        """The wins, ties and losses of each warrior against every other warrior, in the order of `order`."""
        return np.asarray(self.matrix[np.ix_(self.order, self.order)][..., 1:])

    def record(self, number: int) -> dict[str, Any]:
        """Returns the row of a warrior, without its rank but with its `lead` and `lead_error`."""
        lead = dict(zip(LEADS, map(rounded, (self.leads[number], self.lead_errors[number]))))
        return {**super().record(number), **lead}

    def to_dict(self) -> dict[str, Any]:
        """Returns the options, the seed, the rows, and each match, whose `first` and `second` are indices of the rows,
        as plain values.
        """
        names = ("first", "second", *HEAD, "theirs", "seed")
        table = np.column_stack([np.argsort(self.order)[self.pairs], self.results, self.seeds])
        return {**super().to_dict(), "matches": [dict(zip(names, row)) for row in table.tolist()]}

    def __str__(self) -> str:
        lines, ranks = ["  rank   points   wins   ties losses  warrior"], self.shown_ranks
        for one, title in zip(self.order.tolist(), self.titles):
            points, wins, ties, losses = self.counts[one].tolist()
            lines.append(f"{ranks[one]:6} {points:8} {wins:6} {ties:6} {losses:6}  {title}")
        return "\n".join(lines)

    def matrix_text(self) -> str:
        """Returns a table of the wins of each warrior against every other one; rows and columns begin with ranks."""
        ranks = [str(rank) for rank in self.shown_ranks[self.order]]
        lines = [["", *ranks]]
        for line, (rank, wins) in enumerate(zip(ranks, self.balances[..., 0].tolist())):
            lines.append([rank, *(str(count) if number != line else "." for number, count in enumerate(wins))])
        width = max(len(cell) for line in lines for cell in line)
        titles = ["warrior", *self.titles]
        return "\n".join(
            " ".join(cell.rjust(width) for cell in line) + f"  {title}" for line, title in zip(lines, titles)
        )


def matrix_of(count: int, pairs: Indices, results: Numbers) -> Numbers:
    matrix = np.zeros((count, count, 4), np.int64)
    first, second = pairs.T
    matrix[first, second], matrix[second, first] = results[:, :4], results[:, [4, 3, 2, 1]]
    return matrix


def league_of(matches: Matches) -> League:
    """Returns the league of the matches of all pairs. Raises `MarsError` if a sum of points does not fit in 64 bits."""
    contest, count = matches.contest, len(matches.warriors)
    matrix = matrix_of(count, matches.lineups, matches.counts)
    check_points(map(sum, matrix[..., 0].tolist()))
    counts, rows = matrix.sum(axis=1), np.arange(len(matches))
    best, scale = best_of(counts[:, 0]), 100 / (contest.rounds * max(1, count - 1))
    # The points of a match count for the sum of each of its warriors.
    given = matches.lineups.T.ravel(), np.tile(rows, 2), np.repeat([0, 1], len(rows))
    errors = Sums(count, *given, np.ones_like(given[0])).errors(matches) * scale
    # They also count for the lead of each over the next rank and, with the opposite sign, for the lead of the rank
    # before.
    orders = np.argsort(best)[given[0]]
    sums = np.stack([np.r_[orders, orders - 1], *np.tile(given[1:], 2), np.repeat([1, -1], len(orders))])
    sums = sums[:, (sums[0] >= 0) & (sums[0] < count - 1)]
    lead_errors = Sums(count, *sums).errors(matches) * scale
    leads = np.append(-np.diff(counts[best, 0]) * scale, [np.nan] * bool(count))
    of_warriors = np.argsort(best)
    ahead = leads[of_warriors], lead_errors[of_warriors]
    return League(contest, matches.warriors, counts, errors, matches.lineups, matches.counts, matches.seeds, *ahead)
