"""A battle as a picture: time runs down, the core runs across. A warrior's colour is strong where its processes are,
lighter where it wrote, and pale on the cells that it wrote last. The end of the file's name selects PNG, SVG or PDF.
"""
from __future__ import annotations

from dataclasses import dataclass

import numpy as np
from matplotlib import rc_context
from matplotlib.colors import to_rgb
from matplotlib.figure import Figure
from matplotlib.patches import Patch
from numpy.typing import NDArray

from ..analysis.captions import describe_settings, fate, outcome, title
from ..battle.frames import Frame, frames, part_ends
from ..battle.history import History
from .colours import warrior_colours
from .saving import save

# The maximum number of columns and of rows of a picture, if none is given.
COLUMNS, ROWS = 400, 300
# The share of a warrior's colour on cells that it owns, that it wrote, and where its processes are.
OWNED, WRITTEN, EXECUTED = 0.3, 0.6, 1.0


@dataclass(frozen=True)
class View:
    """The turn after which a picture begins and those at which its rows end, the cells that it shows, and its number of
    columns.
    """

    ends: list[int]
    cells: range
    columns: int

    def leaders(self, addresses: NDArray[np.int64], warriors: NDArray[np.int64], count: int) -> NDArray[np.int64]:
        """Returns the warrior with most of these cells in each column, the first of several, or -1 for none."""
        inside = (addresses >= self.cells.start) & (addresses < self.cells.stop) & (warriors < count)
        columns = (addresses[inside] - self.cells.start) * self.columns // len(self.cells)
        sums = np.bincount(warriors[inside] * self.columns + columns, minlength=count * self.columns).reshape(count, -1)
        return np.where(sums.max(axis=0) > 0, sums.argmax(axis=0), -1)


def process_addresses(frame: Frame) -> tuple[NDArray[np.int64], NDArray[np.int64]]:
    """Returns the addresses of the processes, and their warriors."""
    whose = np.repeat(np.arange(len(frame.queues)), [len(queue) for queue in frame.queues])
    return np.concatenate(frame.queues).astype(np.int64), whose


def pixels_of(history: History, view: View) -> NDArray[np.float64]:
    """Returns the colours of the picture, by rows and columns."""
    count, owners = len(history.warriors), history.owners(view.ends[0]).astype(np.int64)
    shades = np.array([to_rgb(colour) for colour in warrior_colours(history)])
    pixels = np.ones((len(view.ends) - 1, view.columns, 3))
    moments = frames(history, view.ends)
    next(moments)
    for row, frame in zip(pixels, moments):
        owners[frame.addresses] = frame.writers
        layers = (
            (OWNED, (np.arange(history.core), owners)),
            (WRITTEN, (frame.addresses, frame.writers.astype(np.int64))),
            (EXECUTED, process_addresses(frame)),
        )
        for part, (addresses, warriors) in layers:
            leaders = view.leaders(addresses, warriors, count)
            row[leaders >= 0] = 1 - part * (1 - shades[leaders[leaders >= 0]])
    return pixels


def whole(history: History) -> View:
    """Returns the view of a whole battle."""
    return View(part_ends(0, history.end, ROWS), range(history.core), min(COLUMNS, history.core))


# `$` in a name does not begin a formula.
@rc_context({"text.parse_math": False})  # type: ignore[misc]
def figure_of(history: History, view: View) -> Figure:
    """Returns the picture of a battle: its cells from left to right, and its turns from top to bottom."""
    figure = Figure(figsize=(10, 7.5), layout="constrained")
    axes = figure.subplots()
    first, last = view.ends[0], view.ends[-1]
    extent = (view.cells.start, view.cells.stop, last, first)
    axes.imshow(pixels_of(history, view), aspect="auto", interpolation="nearest", extent=extent)
    figure.suptitle(f"{title(history)}. {outcome(history)}, {history.end:,} turns", fontsize=12)
    axes.set_title(", ".join(describe_settings(history)), fontsize=8)
    axes.set(xlabel="cell", ylabel="turn")
    colours = warrior_colours(history)
    for warrior, colour in enumerate(colours):
        death = history.death(warrior)
        if death is not None and first < death <= last:
            axes.axhline(death, color=colour, linestyle="dashed")
    # matplotlib leaves out a label that begins with an underscore.
    labels = [f" {name} {fate(history, number)}" for number, name in enumerate(history.names)]
    handles = [Patch(color=colour, label=label) for colour, label in zip(colours, labels)]
    axes.legend(
        handles=handles, loc="upper center", bbox_to_anchor=(0.5, -0.08), ncols=min(4, len(handles)), fontsize=8
    )
    return figure


def draw(history: History, view: View, path: str) -> None:
    """Writes the picture of a battle to a file."""
    save(figure_of(history, view), path)
