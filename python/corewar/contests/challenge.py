"""The results of one warrior against many."""
from __future__ import annotations

from dataclasses import dataclass
from typing import Any

import numpy as np

from ..engine.warriors import Warrior
from ..model.types import Indices, Numbers, Rates
from ..model.printing import cut, printable
from .exact import strip_of
from .matches import Matches
from .standings import HEAD, NAMES, RATES, Standings, Sums, best_of, head_of, row_of

# The width of a strip of bars, which show the points by distance: usually, so that the head of the table fits into 80
# columns, and the minimum in a narrow terminal.
STRIP, NARROW_STRIP = 24, 8


@dataclass(frozen=True, eq=False)
class Challenge(Standings):
    """The results of a warrior against each of its opponents. They are `Standings` whose `warriors` are the opponents:
    the row of an opponent has the results of the warrior in the match with this opponent.

    - `challenger`: the warrior
    - `theirs`: the points of the opponents
    - `seeds`: the seeds of the matches
    - `total_error`: the standard error of the warrior's score in all matches
    - `by_distance`: the warrior's mean points for each distance to each opponent, from the minimum distance on; None
      unless the positions of the contest are `all`
    """

    challenger: Warrior
    theirs: Numbers
    seeds: Numbers
    total_error: float
    by_distance: Rates | None = None

    COLUMNS = (*NAMES, *HEAD, "theirs", *RATES, "number")

    @property
    def order(self) -> Indices:
        """The indices of the opponents, by the warrior's points against them, the most first."""
        return best_of(self.points)

    @property
    def sums(self) -> list[int]:
        """The sums of all matches: points, wins, ties and losses of the warrior, and the points of its opponents."""
        return [sum(column) for column in np.column_stack([self.counts, self.theirs]).T.tolist()]

    def records(self) -> list[dict[str, Any]]:
        """Returns a row for each match, the most points first: the names of the opponent, its points as
        `theirs` and its index as `number`, the other columns of `Standings` for the warrior, and the `seed`.
        """
        return [self.record(one) for one in self.order.tolist()]

    def record(self, number: int) -> dict[str, Any]:
        """Returns the row of a match."""
        counts, theirs = self.counts[number].tolist(), int(self.theirs[number])
        row = row_of(self.warriors[number], counts, self.errors[number], theirs=theirs)
        return {**row, "number": number, "seed": int(self.seeds[number])}

    def total(self) -> dict[str, Any]:
        """Returns the row of the warrior, with the sums."""
        *counts, theirs = self.sums
        return row_of(self.challenger, counts, self.total_error, theirs=theirs)

    def to_dict(self) -> dict[str, Any]:
        """Returns the options, the seed, the warrior with the sums, and each match, as plain values."""
        return {**head_of(self.contest), "warrior": self.total(), "matches": self.records()}

    def __str__(self) -> str:
        return self.table()

    def table(self, width: int = 0) -> str:
        """Returns the table. If its rows are longer than `width`, strips are narrower and titles are cut, unless even
        the names of the files do not fit. A width of 0 is no limit.
        """
        columns = self._files, [one.title for one in self.warriors]
        files, titles = (max(map(len, column), default=0) for column in columns)
        room = width - len(text_of([0] * 5)) - files - 4
        size = 0 if self.by_distance is None else min(STRIP, self.by_distance.shape[1])
        if width and size:
            size = min(size, max(NARROW_STRIP, room - titles - 2))
            room -= size + 2
        head = f"{'by distance' if size >= len('by distance') else 'distance':{size}}  " if size else ""
        lines = [f"  points   wins   ties losses   theirs  {head}opponent"]
        for number in self.order.tolist():
            title = self.warriors[number].title
            texts = [text_of([*self.counts[number], self.theirs[number]]), self.strip(number, size)]
            texts += [f"{self._files[number]:{files}}", cut(title, room) if width and room > 2 else title]
            lines.append("  ".join(filter(None, texts)))
        return "\n".join([*lines, self.summary])

    @property
    def _files(self) -> list[str]:
        return [printable(one.file) for one in self.warriors]

    def strip(self, number: int, width: int = STRIP) -> str:
        """Returns the points by distance to an opponent as bars, as `strip_of` does, or "" if they are not known."""
        return "" if self.by_distance is None else strip_of(self.by_distance[number], self.contest.formula, width)

    @property
    def summary(self) -> str:
        """The line with the sums."""
        return f"{text_of(self.sums)}  sum of {len(self.warriors)}"


def text_of(counts: list[int]) -> str:
    points, wins, ties, losses, theirs = counts
    return f"{points:8} {wins:6} {ties:6} {losses:6} {theirs:8}"


def challenge_of(matches: Matches, by_distance: Rates | None = None) -> Challenge:
    """Returns the challenge for the matches of the first warrior with each other warrior."""
    rows, count = np.arange(len(matches)), len(matches)
    scale, first = 100 / matches.contest.rounds, np.zeros_like(rows)
    errors = Sums(count, rows, rows, first, first + 1).errors(matches) * scale
    (total,) = Sums(1, first, rows, first, first + 1).errors(matches) * scale / max(1, count)
    challenger, *opponents = matches.warriors
    counts, theirs = matches.counts[:, :4], matches.counts[:, 4]
    given = counts, errors, challenger, theirs, matches.seeds, float(total), by_distance
    return Challenge(matches.contest, tuple(opponents), *given)
