"""The colours of warriors and of results; a match has a mix of the colours of its rounds."""
from __future__ import annotations

import numpy as np
from numpy.typing import NDArray

from ..battle.history import History

# Sixteen colours that colour-blind people can distinguish, too: the first two best, and the first eight well.
COLOURS = (
    *("#d5480a", "#0a6fb8", "#0b5148", "#c080b8", "#e8960f", "#22a9ee", "#7a0f12", "#5c1896"),
    *("#f08a5d", "#5a8fd8", "#4f9a80", "#8a3f80", "#9a6a10", "#2f7f93", "#b28a6c", "#858b94"),
)
WON, TIED, LOST = (30, 80, 200), (216, 216, 216), (200, 30, 30)
NO_MATCH = 255


def warrior_colours(history: History) -> list[str]:
    """Returns the colours of a battle's warriors. Each has the same colour in all rounds of a match."""
    count = len(history.warriors)
    return [COLOURS[(number + history.round) % count] for number in range(count)]


def mix_colours(balances: NDArray[np.int64]) -> NDArray[np.uint8]:
    """Returns red, green and blue of matches, from 0 to 255, by their wins, ties and losses in the last dimension."""
    rounds = balances.sum(axis=-1, keepdims=True)
    colours = balances @ np.array([WON, TIED, LOST]) / np.maximum(rounds, 1)
    return np.where(rounds > 0, np.rint(colours), NO_MATCH).astype(np.uint8)
