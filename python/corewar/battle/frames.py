"""A battle in frames of several turns. Each has the cells that changed, the warriors that changed them, and the
processes after its last turn.
"""
from __future__ import annotations

from collections.abc import Iterator
from dataclasses import dataclass

import numpy as np
from numpy.typing import NDArray

from .history import History


@dataclass(frozen=True, eq=False)
class Frame:
    """The battle after `turn` turns. `addresses` are the cells that changed since the previous frame, in order,
    `writers` the warrior that changed each last, or BY_HAND, and `queues` the addresses of each warrior's processes.
    """

    turn: int
    addresses: NDArray[np.int64]
    writers: NDArray[np.uint8]
    queues: list[NDArray[np.uint32]]


def part_ends(first: int, last: int, count: int) -> list[int]:
    """Returns `first` and the last turn of each of `count` parts of the turns up to `last`, or of fewer parts if there
    are fewer turns.
    """
    count = max(1, min(last - first, count))
    return [first + (last - first) * part // count for part in range(count + 1)]


def frames(history: History, ends: list[int]) -> Iterator[Frame]:
    """Yields the frames at these turns; the first one has no changes."""
    yield frame(history, ends[0], ends[0])
    for first, last in zip(ends, ends[1:]):
        yield frame(history, first, last)


def frame(history: History, first: int, last: int) -> Frame:
    """Returns the frame of the turns after `first`, up to `last`."""
    battle, pasts = history.followed(last)
    changed = np.flatnonzero(pasts["turn"] > first)
    return Frame(last, changed, pasts["owner"][changed].astype(np.uint8), battle.queues)
