"""Rewards of warriors: points by a formula, and shares of the cycles. Also counts survivals, and the cycles that were
complete when each warrior died.
"""
from __future__ import annotations

from functools import lru_cache
from typing import Any

import numpy as np
from numpy.typing import NDArray

from ..model.errors import CorewarError
from ..model.settings import FORMULA, MAX_WARRIORS
from .binding import call, library, slice_of
from .calls import encode_source


@lru_cache(maxsize=None)
def score_of(formula: str, warriors: int, survivors: int) -> int:
    """Returns the points of each survivor of a round, 0 without survivors. Raises `MarsError`."""
    points = library()[0].new("int64_t *")
    call("mars_score", *slice_of("uint8_t", encode_source(formula)), warriors, survivors, points)
    return int(points[0])


def values_of(formula: str, *counts: NDArray[Any]) -> list[int]:
    """Returns the points of a survivor for each number of survivors of a round: 1, 2 and so on. They are 0 for a number
    that does not occur, for which a formula needs no value. `counts` has an array for each number of survivors: in how
    many rounds each warrior was one of them. For two warriors the arrays are wins and ties. Raises `MarsError`.
    """
    return [score_of(formula, len(counts), left) if many.any() else 0 for left, many in enumerate(counts, 1)]


def points(made: NDArray[Any], formula: str = FORMULA) -> NDArray[np.int64]:
    """Returns the points of each warrior of outcomes in each round, an array of their shape.

    - `made`: what `outcomes` returned
    - `formula`: the score of each survivor of a round, as for `match`

    The sums over the rounds are the points of `match`. Raises `MarsError` if the formula has no value for a round.
    """
    survived = made["survived"]
    warriors, survivors = is_warrior(made).sum(axis=-1), survived.sum(axis=-1)
    values = np.zeros((MAX_WARRIORS + 1, MAX_WARRIORS + 1), np.int64)
    for count, left in np.unique(np.stack([warriors, survivors], axis=-1).reshape(-1, 2), axis=0).tolist():
        values[count, left] = score_of(formula, count, left) if left else 0
    return np.where(survived, values[warriors, survivors][..., None], 0)


def is_warrior(made: NDArray[Any]) -> NDArray[np.bool_]:
    """Returns for each row of outcomes whether it has a warrior: then its `turns` or its `cycles` is not 0."""
    return np.asarray((made["turns"] > 0) | (made["cycles"] > 0))


def shares(made: NDArray[Any], cycles: int) -> NDArray[np.float64]:
    """Returns the reward of each warrior of outcomes. The warriors that live in a cycle share W/`cycles`, where W is
    the number of warriors in the lineup. In a round with a survivor, all shares add up to W.

    - `made`: what `outcomes` returned
    - `cycles`: the cycle limit of the settings that `outcomes` was given

    Raises `CorewarError` if there are no cycles.
    """
    if cycles < 1:
        raise CorewarError(f"expected 1 or more cycles, not {cycles}")
    # A warrior also lives in the cycle in which it dies; a row without a warrior gets nothing.
    is_here = is_warrior(made)
    lived = np.where(is_here, np.minimum(made["cycles"].astype(np.int64) + 1, cycles), 0).astype(float)
    order = np.argsort(lived, axis=-1, kind="stable")
    ends = np.take_along_axis(lived, order, -1)
    # From one death to the next, each cycle is shared by the warriors that are left.
    steps = np.diff(ends, axis=-1, prepend=0) / np.arange(lived.shape[-1], 0, -1)
    gained = np.empty_like(lived)
    np.put_along_axis(gained, order, steps.cumsum(-1), -1)
    return np.asarray(gained * is_here.sum(axis=-1, keepdims=True) / cycles)


def cycles_of(turns: NDArray[np.uint32], survived: NDArray[np.bool_], limit: int) -> NDArray[np.int64]:
    """Returns the number of complete cycles when each warrior died, or the limit if it survived.

    In a cycle each living warrior makes a turn. So between the end of the cycle of one death and the next death, the
    number of complete cycles is the number of turns, divided by the number of warriors that are left and rounded down.
    """
    count = turns.shape[-1]
    # Survivors come last, since no number of turns has more than 32 bits.
    order = np.argsort(np.where(survived, 1 << 32, turns.astype(np.int64)), axis=-1, kind="stable")
    deaths = np.take_along_axis(turns, order, -1).astype(np.int64)
    complete_at = np.empty(turns.shape, np.int64)
    # The last turn of the cycle of the latest death, and the number of cycles that are complete then.
    end, complete = np.zeros((2, *turns.shape[:-1]), np.int64)
    for number in range(count):
        left = count - number
        whole = (deaths[..., number] - 1 - end) // left
        # If this is false, the warrior died in the same cycle as the one before it.
        is_later = whole >= 0
        complete_at[..., number] = complete - 1 + np.where(is_later, whole + 1, 0)
        end, complete = end + np.where(is_later, (whole + 1) * left, 0), complete_at[..., number] + 1
    found = np.empty_like(complete_at)
    np.put_along_axis(found, order, complete_at, -1)
    # A row without a warrior has no turns.
    return np.where(survived, limit, np.where(turns > 0, found, 0))


def survivals(rows: NDArray[Any]) -> NDArray[np.intp]:
    """Returns for each warrior of each match in how many rounds it died, and then in how many it was one of 1, 2 ..
    survivors: an array of the shape (lineups, warriors, warriors + 1). `rows` are those of the library, or outcomes.
    """
    lives = rows["survived"] != 0
    left = np.where(lives, lives.sum(axis=-1, keepdims=True), 0)
    return np.stack([(left == count).sum(axis=1) for count in range(rows.shape[2] + 1)], axis=-1)
