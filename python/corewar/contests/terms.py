"""What the matches of a contest have in common, and the seed of each."""
from __future__ import annotations

import shlex
from collections.abc import Sequence
from dataclasses import dataclass
from typing import get_args

import numpy as np
from numpy.typing import NDArray

from ..battle.series import seed_of_cells
from ..engine.calls import Match, check_numbers
from ..engine.outcomes import Run
from ..engine.rewards import score_of
from ..engine.warriors import Warrior
from ..model.errors import CorewarError
from ..model.settings import FORMULA, MAX_SEED, NUMBERS, Settings, settings_of
from ..model.types import Indices, Numbers, Positions
from .exact import distances

# The constants of the generator SplitMix64, whose numbers of 64 bits look random whatever its states are.
MULTIPLIERS, SHIFTS = (0x9E3779B97F4A7C15, 0xBF58476D1CE4E5B9, 0x94D049BB133111EB), (30, 27, 31)


@dataclass(frozen=True, init=False)
class Terms:
    """The settings of all matches. They determine the result of a match of two warriors in a given order."""

    settings: Settings
    rounds: int
    seed: int
    position: int | None
    formula: str
    positions: Positions

    def __init__(
        self,
        settings: Settings | str = "94nop",
        *,
        rounds: int = 1,
        seed: int = 1,
        position: int | None = None,
        formula: str = FORMULA,
        positions: Positions = "drawn",
    ) -> None:
        given = dict[str, object](rounds=rounds, seed=seed, position=position, formula=formula, positions=positions)
        vars(self).update(given, settings=settings_of(settings))
        if positions not in get_args(Positions):
            *most, last = get_args(Positions)
            raise CorewarError(f"expected the positions {', '.join(most)} or {last}, not {positions!r}")
        if position is not None and positions in ("pmars", "all"):
            raise CorewarError(f"a position and the positions {positions} exclude each other")
        # An invalid number, and a formula that is wrong or has no value for a win, are rejected here and not after
        # hours of matches. If each match has its own seed, made from that of the contest, no match would check the seed
        # of the contest.
        check_numbers(self.settings, rounds, seed, position)
        score_of(formula, 2, 1)
        if positions == "all":
            vars(self).update(rounds=2 * len(distances(self.settings)))

    @property
    def words(self) -> list[str]:
        """The terms as options of `corewar`: without a seed if each match has its own, and without rounds, seed and
        position if all positions are tried.
        """
        seed = None if self.has_seeds or self.positions == "pmars" else self.seed
        drawn = {} if self.positions == "all" else {"rounds": self.rounds, "seed": seed, "position": self.position}
        numbers = {**vars(self.settings), **drawn}
        given = [f"{NUMBERS[name].word}={number}" for name, number in numbers.items() if number is not None]
        more = {"pmars": ["--pmars-fixed"], "all": ["--positions=all"]}.get(self.positions, [])
        return [*given, f"--score={self.formula}", *more]

    @property
    def has_seeds(self) -> bool:
        """Whether each match has a seed of its own; with a given position nothing is drawn."""
        return self.positions == "drawn" and self.position is None

    @property
    def is_drawn(self) -> bool:
        """Whether rounds differ from each other by chance."""
        return self.rounds > 1 and self.position is None and self.positions != "all"

    @property
    def key(self) -> str:
        """The text by which results with these settings are found in a file."""
        return shlex.join([*self.words, *([f"--pair-seeds={self.seed}"] if self.has_seeds else [])])

    def run(self, width: int = 2) -> Run:
        """Returns what the engine needs for matches of this number of warriors."""
        return Run(self.settings, 1 if self.positions == "all" else self.rounds, self.position, width)

    def fixed_seeds(self, warriors: Sequence[Warrior], pairs: Indices) -> Numbers:
        """Returns the seeds of matches of two: with the positions `pmars` those of `pmars -f`, otherwise the contest's
        seed for each.
        """
        if self.positions != "pmars":
            return np.full(len(pairs), self.seed)
        matches = [Match([warriors[number] for number in pair], settings=self.settings) for pair in pairs.tolist()]
        return np.array([*map(seed_of_cells, matches)], np.int64)

    def seeds_of(self, first: NDArray[np.uint64], second: NDArray[np.uint64]) -> Numbers:
        """Returns a seed for each match, from two numbers of each: the first 8 bytes of the digests of its two warriors
        or, in a melee, numbers that no other match has.
        """
        start = mixed(np.full(len(first), self.seed, np.uint64))
        return 1 + (mixed(mixed(start ^ first) ^ second) % np.uint64(MAX_SEED)).astype(np.int64)


def mixed(numbers: NDArray[np.uint64]) -> NDArray[np.uint64]:
    """Returns the next number of SplitMix64 after each of these states."""
    (step, *multipliers), shifts = map(np.uint64, MULTIPLIERS), [*map(np.uint64, SHIFTS)]
    numbers = numbers + step
    for multiplier, shift in zip(multipliers, shifts):
        numbers = (numbers ^ (numbers >> shift)) * multiplier
    return np.asarray(numbers ^ (numbers >> shifts[-1]))
