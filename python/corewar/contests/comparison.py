"""Compares two versions of a warrior over the same opponents and positions."""
from __future__ import annotations

from dataclasses import dataclass
from typing import TYPE_CHECKING, Any

import numpy as np
from numpy.typing import NDArray

from ..engine.rewards import values_of
from ..engine.warriors import Warrior
from ..model.types import Indices, Rates
from ..model.printing import printable
from .standings import NAMES, freeze, head_of, names_of, rounded

if TYPE_CHECKING:
    # That module imports this one, since methods of a contest return comparisons.
    from .contest import Contest

# The number of standard errors from which a change is more than chance.
MIN_STANDARD_ERRORS = 2
HEAD = ("old", "new", "change", "error")


@dataclass(frozen=True, eq=False)
class Comparison:
    """The scores of two versions of a warrior against the same opponents.

    - `contest`: the contest
    - `versions`: the old version and the new one
    - `opponents`: the opponents
    - `scores`: the points of each version against each opponent in each round

    Both versions have the same positions in a round, unless the positions of the contest are `pmars`. Its text is the
    table that `corewar challenge --old` prints, and `records` and `to_dict` are for programs.
    """

    contest: Contest
    versions: tuple[Warrior, Warrior]
    opponents: tuple[Warrior, ...]
    scores: Rates

    COLUMNS = (*NAMES, *HEAD, "number")

    def __post_init__(self) -> None:
        freeze(self)

    def change(self, opponents: Indices | list[int] | slice = slice(None)) -> tuple[float, float, float, float]:
        """Returns the mean scores of both versions for 100 rounds against these opponents, by default against all, then
        the change and its standard error. The error is NaN if it is not known.
        """
        scores = self.scores[:, opponents]
        scale = 100 / scores.shape[1]
        # Rounds with the same number have the same positions for each opponent, so they are not independent. Sums are
        # exact, so that the error is 0 if the change is the same in every round.
        sums = scores.sum(axis=1)
        old, new = (scale * float(version.mean()) for version in sums)
        # Both versions start at the same positions in a round, so what a position does to both cancels out.
        changes = sums[1] - sums[0]
        error = float(changes.std(ddof=1) / np.sqrt(len(changes))) if self.contest.is_drawn else np.nan
        return old, new, new - old, scale * error

    def records(self) -> list[dict[str, Any]]:
        """Returns a row for each opponent: its index as `number`, its names, and what `change` returns as `old`, `new`,
        `change` and `error`.
        """
        return [{**self._record(one, [number]), "number": number} for number, one in enumerate(self.opponents)]

    def total(self) -> dict[str, Any]:
        """Returns the row of the new version, with the means."""
        return self._record(self.versions[1], slice(None))

    def to_dict(self) -> dict[str, Any]:
        """Returns the options, the old version, the new one with the means, and each match, as plain values."""
        return {
            **head_of(self.contest),
            "before": names_of(self.versions[0]),
            "warrior": self.total(),
            "matches": self.records(),
        }

    def _record(self, warrior: Warrior, opponents: list[int] | slice) -> dict[str, Any]:
        return {**names_of(warrior), **dict(zip(HEAD, map(rounded, self.change(opponents))))}

    def __str__(self) -> str:
        width = max(len(one.file) for one in self.opponents)
        head, *rest = self.summary.split("\n")
        lines = [head]
        for number, one in enumerate(self.opponents):
            lines.append(f"{text_of(*self.change([number]))}  {printable(one.file):{width}}  {one.title}")
        return "\n".join([*lines, *rest])

    @property
    def summary(self) -> str:
        """The table without a line for each opponent."""
        mean = f"{text_of(*self.change())}  mean of {len(self.opponents)}"
        return "\n".join(["     old      new   change   error  opponent", mean, self.verdict])

    @property
    def verdict(self) -> str:
        """The sentence that says whether the change is more than chance."""
        _, _, change, error = self.change()
        better = f"The new version is {'better' if change > 0 else 'worse'}"
        if self.contest.positions == "all":
            kind = better if change else "Both versions score the same"
            return f"{kind}: these are all starting positions in both orders."
        if np.isnan(error):
            return "Chance cannot be estimated from one round or for a fixed position; try `-r 100`."
        if error == 0:
            return f"{'The change is the same' if change else 'Both versions score the same'} in every round."
        size = abs(change) / error
        if size < MIN_STANDARD_ERRORS:
            maybe = "which may be chance. More rounds can detect smaller changes."
            return f"The change is {size:.1f} standard errors, {maybe}"
        return f"{better}: the change is {size:.1f} standard errors."


def text_of(old: float, new: float, change: float, error: float) -> str:
    return f"{old:8.1f} {new:8.1f} {change:+8.1f} {'-' if np.isnan(error) else f'{error:.1f}':>7}"


def scores_of(rows: NDArray[Any], formula: str) -> Rates:
    """Returns the points of the first warrior of matches in each round, from the rows of the library."""
    own, others = np.moveaxis(rows["survived"].astype(bool), 2, 0)
    wins, ties = own & ~others, own & others
    win, tie = values_of(formula, wins, ties)
    return np.asarray(wins * float(win) + ties * float(tie))
