"""The core of a battle as text in colours: half blocks of two cells if they fit into the terminal, otherwise Braille of
eight or more.
"""
from __future__ import annotations

from dataclasses import dataclass
from itertools import groupby

import numpy as np
from numpy.typing import NDArray

from ..battle.history import History
from .colours import warrior_colours

# The dots of a character, wide and tall.
HALVES, BRAILLE = (1, 2), (2, 4)
# The bits of a Braille character by rows of dots.
BITS = np.array([[1, 8], [2, 16], [4, 32], [64, 128]])
# The share of white in the colour of a process.
WHITE = 0.65
# Parts of a text with the style of each, as prompt_toolkit takes them.
Fragments = list[tuple[str, str]]
Dots = NDArray[np.int64]


@dataclass(frozen=True)
class Canvas:
    """How a core is placed on characters: the dots of a character, the cells of a dot, and the width in characters."""

    shape: tuple[int, int]
    cells: int
    columns: int

    def dots(self, values: NDArray[np.int64]) -> Dots:
        """Returns the dots by rows and columns, each the greatest value of its cells, or 0 beyond the core."""
        wide, tall = self.columns * self.shape[0], self.shape[1]
        count = -(-len(values) // self.cells)
        padded = np.zeros(-(-count // (wide * tall)) * wide * tall * self.cells, np.int64)
        padded[: len(values)] = values
        found: Dots = padded.reshape(-1, self.cells).max(axis=1).reshape(-1, wide)
        return found


def canvas_of(core: int, columns: int, rows: int) -> Canvas:
    """Returns the canvas that fits and has the fewest cells in a dot. If both kinds of characters fit, half blocks are
    taken, since their dots are larger.
    """
    cells, columns, rows = 1, max(1, columns), max(1, rows)
    while True:
        for wide, tall in (HALVES, BRAILLE):
            if columns * wide * rows * tall * cells >= core:
                return Canvas((wide, tall), cells, columns)
        cells += 1


def values_of(history: History, turn: int) -> NDArray[np.int64]:
    """Returns a value for each cell: 0 without an owner, or 1 + the number of its owner. If a process is there, the
    value is 1 + the number of warriors + the number of the process's warrior.
    """
    count, owners = len(history.warriors), history.owners(turn).astype(np.int64)
    values = np.where(owners < count, owners + 1, 0)
    block = history.block(turn)
    for number in range(count):
        values[block.queue(number, turn)] = count + number + 1
    return values


def styles_of(history: History) -> list[str]:
    """Returns the colour of each value of `values_of`, "" for 0."""
    colours = warrior_colours(history)
    parts = [[int(colour[at : at + 2], 16) for at in (1, 3, 5)] for colour in colours]
    light = [[round(part + (255 - part) * WHITE) for part in one] for one in parts]
    return ["", *colours, *("#" + "".join(f"{part:02x}" for part in one) for one in light)]


def draw(history: History, turn: int, canvas: Canvas) -> Fragments:
    """Returns the core after a turn as lines of text in the colours of the warriors."""
    dots, styles = canvas.dots(values_of(history, turn)), styles_of(history)
    rows = halves(dots, styles) if canvas.shape == HALVES else braille(dots, styles, len(history.warriors))
    found: Fragments = []
    for row in rows:
        found += [(style, "".join(text for _, text in part)) for style, part in groupby(row, lambda one: one[0])]
        found.append(("", "\n"))
    return found


def halves(dots: Dots, styles: list[str]) -> list[Fragments]:
    """Returns a character for two dots above each other, with a colour for each."""
    made = {}
    for above in range(len(styles)):
        for below in range(len(styles)):
            back = f" bg:{styles[below]}" if below else ""
            upper = (f"fg:{styles[above]}{back}", "▀")
            made[above, below] = upper if above else (f"fg:{styles[below]}", "▄") if below else ("", " ")
    return [[made[pair] for pair in zip(above, below)] for above, below in zip(dots[::2].tolist(), dots[1::2].tolist())]


def braille(dots: Dots, styles: list[str], count: int) -> list[Fragments]:
    """Returns a character for eight dots, in the colour of a process there, or else of the owner of most dots."""
    height, width = dots.shape
    groups = dots.reshape(height // 4, 4, width // 2, 2).transpose(0, 2, 1, 3)
    letters = (np.where(groups > 0, BITS, 0).sum(axis=(2, 3)) + 0x2800).tolist()
    owned = np.stack([(groups == number).sum(axis=(2, 3)) for number in range(count + 1)])
    owned[0] = 0
    most = groups.max(axis=(2, 3))
    colours = np.where(most > count, most, owned.argmax(axis=0)).tolist()
    return [
        [(f"fg:{styles[colour]}" if colour else "", chr(letter)) for letter, colour in zip(row, shades)]
        for row, shades in zip(letters, colours)
    ]
