"""The results of warriors: counts, scores per 100 rounds with standard errors and ranks, and rows for programs."""
from __future__ import annotations

import csv
import io
from collections.abc import Iterable, Mapping, Sequence
from dataclasses import dataclass
from typing import TYPE_CHECKING, Any, ClassVar

import numpy as np

from ..engine.rewards import values_of
from ..engine.warriors import Warrior
from ..model.types import Indices, Numbers, Rates
from .matches import Matches

if TYPE_CHECKING:
    # That module imports this one, since methods of a contest return standings.
    from .contest import Contest

HEAD = ("points", "wins", "ties", "losses")
RATES = ("rounds", "win_percent", "tie_percent", "loss_percent", "score", "error")
NAMES = ("file", "name", "author")
# The number of digits after the point of a rate.
DIGITS = 4


@dataclass(frozen=True, eq=False)
class Standings:
    """The results of warriors in a contest. Each array has a value or a row for each warrior, in their order.

    - `contest`: the contest
    - `warriors`: the warriors
    - `counts`: the points, wins, ties and losses
    - `errors`: the standard errors of the scores: how far the scores of other seeds lie from their mean; NaN if that is
      not known

    Its text is the table that the command prints, `records` are rows for programs, as `pandas.DataFrame` takes them,
    and `to_dict` is what `--format json` prints.
    """

    contest: Contest
    warriors: tuple[Warrior, ...]
    counts: Numbers
    errors: Rates

    COLUMNS: ClassVar[tuple[str, ...]] = ("rank", *NAMES, *HEAD, *RATES, "number")

    def __post_init__(self) -> None:
        freeze(self)

    @property
    def points(self) -> Numbers:
        """The sums of the points."""
        return self.counts[:, 0]

    @property
    def rounds(self) -> Numbers:
        """The numbers of rounds."""
        return np.asarray(self.counts[:, 1:].sum(axis=1))

    @property
    def percents(self) -> Rates:
        """The percents of wins, ties and losses."""
        return np.asarray(100 * self.counts[:, 1:] / np.maximum(self.rounds, 1)[:, None])

    @property
    def scores(self) -> Rates:
        """The points for 100 rounds."""
        return np.asarray(100 * self.points / np.maximum(self.rounds, 1))

    @property
    def order(self) -> Indices:
        """The indices of the warriors, the best score first."""
        return best_of(self.scores)

    @property
    def ranks(self) -> Numbers:
        """The ranks, from 1 for the best score; equal scores share a rank."""
        return 1 + np.searchsorted(np.sort(-self.scores), -self.scores)

    def records(self) -> list[dict[str, Any]]:
        """Returns a row for each warrior, the best first: its `rank`, `file`, `name`, `author`, `points`, `wins`,
        `ties`, `losses`, `rounds`, `win_percent`, `tie_percent`, `loss_percent`, `score` and `error`, and as `number`
        its index among the warriors.
        """
        ranks = self.ranks
        return [{"rank": int(ranks[one]), **self.record(one)} for one in self.order.tolist()]

    def record(self, number: int) -> dict[str, Any]:
        """Returns the row of a warrior, without its rank."""
        return {**row_of(self.warriors[number], self.counts[number].tolist(), self.errors[number]), "number": number}

    def to_dict(self) -> dict[str, Any]:
        """Returns the options, the seed and the rows, as plain values."""
        return {**head_of(self.contest), "warriors": self.records()}


def freeze(result: object) -> None:
    """Makes the arrays of a result read-only."""
    for value in vars(result).values():
        if isinstance(value, np.ndarray):
            value.flags.writeable = False


def head_of(contest: Contest) -> dict[str, Any]:
    """Returns the options and the seed of a contest, as results for programs have them."""
    return {"words": contest.words, "seed": contest.seed, "rounds": contest.rounds}


def names_of(warrior: Warrior) -> dict[str, Any]:
    """Returns the columns NAMES: the file of a warrior, its name and its author."""
    return {name: getattr(warrior, name) for name in NAMES}


def row_of(warrior: Warrior, counts: Sequence[int], error: float, **more: int) -> dict[str, Any]:
    """Returns the columns NAMES of a warrior, HEAD with its counts, `more`, and RATES: the number of rounds, the
    percents of wins, ties and losses, and the points for 100 rounds with their standard error.
    """
    rounds = sum(counts[1:])
    score, *percents = (rounded(100 * count / rounds) if rounds else 0.0 for count in counts)
    rates = dict(zip(RATES, (rounds, *percents, score, rounded(error))))
    return {**names_of(warrior), **dict(zip(HEAD, counts)), **more, **rates}


def best_of(points: Numbers | Rates) -> Indices:
    """Returns the indices of points or scores, the greatest first; equal ones stay in their order."""
    return np.argsort(-points, kind="stable")


def rounded(number: float) -> float | None:
    """Returns a rate as it is shown, or None for NaN, which stands for an unknown rate."""
    return None if np.isnan(number) else round(float(number), DIGITS)


def csv_text(columns: Sequence[str], rows: Iterable[Mapping[str, Any]]) -> str:
    """Returns rows as CSV, after a line with the names of the columns."""
    text = io.StringIO()
    writer = csv.DictWriter(text, columns, extrasaction="ignore", lineterminator="\n")
    writer.writeheader()
    writer.writerows(rows)
    return text.getvalue().rstrip("\n")


@dataclass(frozen=True)
class Sums:
    """Sums of the points of matches. Each summand has the number of its sum, the row of its match, 0 or 1 for the
    points of the first or the second warrior, and its sign.
    """

    count: int
    numbers: Indices
    rows: Indices
    sides: Indices
    signs: Indices

    def errors(self, matches: Matches) -> Rates:
        """Returns the standard error of each sum: how far the sums of other seeds lie from their mean.

        It is NaN if it cannot be known: for a sum of no match, and for matches of one round, in which nothing can be
        compared. With a given position nothing is drawn, and different matches with the same seed depend on each other
        in a way that counts do not show, so it is NaN for these, too.
        """
        sorts = np.unique(matches.same)
        if not matches.contest.is_drawn:
            return np.full(self.count, np.nan)
        # Matches of equal warriors have equal results, so they count as several times the same match.
        keys, indices = np.unique(
            self.numbers * len(sorts) + np.searchsorted(sorts, matches.same[self.rows]), return_inverse=True
        )
        ours, theirs = (np.bincount(indices, self.signs * (self.sides == side), len(keys)) for side in (0, 1))
        numbers, kinds = np.divmod(keys, max(1, len(sorts)))
        own, other, both = spreads(matches)[:, kinds]
        sums = np.bincount(numbers, ours**2 * own + theirs**2 * other + 2 * ours * theirs * both, self.count)
        parts, most = np.bincount(numbers, minlength=self.count), len(keys) if matches.contest.has_seeds else 1
        return np.where((parts > 0) & (parts <= most), np.sqrt(sums.clip(min=0)), np.nan)


def spreads(matches: Matches) -> Rates:
    """Returns the variances of the points of both warriors in different matches, and their covariance."""
    contest, example = matches.contest, np.unique(matches.same, return_index=True)[1]
    wins, ties, losses = matches.counts[example, 1:4].astype(float).T
    win, tie = map(float, values_of(contest.formula, wins + losses, ties))
    ours, theirs, rounds = wins * win + ties * tie, losses * win + ties * tie, contest.rounds
    # The opponents are given, so only the rounds of a match differ from each other by chance.
    own, other, both = ours**2, theirs**2, ours * theirs
    squares = np.stack([wins * win**2, losses * win**2, np.zeros(len(wins))]) + ties * tie**2
    return np.asarray((squares - np.stack([own, other, both]) / rounds) * rounds / (rounds - 1))
