"""Matches from every starting position, with either warrior beginning: scores without chance.

Such a match has a round for each distance from the first warrior to the second one and for each warrior that begins.
"""
from __future__ import annotations

from contextlib import suppress
from typing import Any

import numpy as np
from numpy.typing import NDArray

from ..engine.calls import seed_after
from ..engine.rewards import score_of
from ..model.errors import MarsError
from ..model.settings import Settings

# The bars of a strip, from the lowest level to the highest.
LEVELS = "▁▂▃▄▅▆▇█"


def distances(settings: Settings) -> range:
    """Returns the distances from the first warrior of a pair to the second one."""
    return range(settings.distance, settings.core - settings.distance + 1)


def battles_of(pairs: NDArray[np.intp], settings: Settings) -> tuple[NDArray[np.intp], NDArray[np.int64]]:
    """Returns a lineup for each battle of each pair, and for each lineup the seed that draws its positions."""
    room = len(distances(settings))
    # The draw modulo `room` selects the distance. A draw is never 0, so `room` takes the place of 0.
    seeds = np.array([seed_after(step or room, -1) for step in range(room)], np.int64)
    # If the second warrior begins, it is at address 0, and the first one at the core size minus the distance.
    lineups = np.repeat(np.stack([pairs, pairs[:, ::-1]], axis=1), room, axis=1).reshape(-1, 2)
    return lineups, np.tile(np.concatenate([seeds, seeds[::-1]]), len(pairs))


def survivors(rows: NDArray[Any]) -> NDArray[np.bool_]:
    """Returns which warriors of lineups survive, from rows of the library for one round."""
    return np.asarray(rows["survived"][:, 0] != 0)


def rounds_of(survived: NDArray[np.bool_], pairs: int) -> NDArray[Any]:
    """Returns the survivors of these lineups as rows of one match for each pair: for each distance a round in which the
    first warrior begins, and one in which the second does.
    """
    begun, ended = np.moveaxis(survived.reshape(pairs, 2, -1, 2), 1, 0)
    rounds = np.stack([begun, ended[..., ::-1]], axis=2).reshape(pairs, -1, 2)
    return np.ascontiguousarray(rounds).view([("survived", "?")])


def strip_of(scores: NDArray[np.float64], formula: str, width: int) -> str:
    """Returns mean scores by distance as bars. Their scale has all scores, the 0 of a loss, and the score of a win."""
    ends = [0.0, *scores.tolist()]
    with suppress(MarsError):
        ends.append(score_of(formula, 2, 1))
    low, high = min(ends), max(ends)
    means = [float(part.mean()) for part in np.array_split(scores, min(width, len(scores)))]
    steps = [(mean - low) / (high - low) if high > low else 0.0 for mean in means]
    return "".join(LEVELS[min(int(step * len(LEVELS)), len(LEVELS) - 1)] for step in steps)
