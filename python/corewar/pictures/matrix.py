"""The wins of each pair in a league as a picture: blue is won, red lost, grey tied."""
from __future__ import annotations

from matplotlib import rc_context
from matplotlib.figure import Figure
from matplotlib.patches import Patch

from ..contests.league import League
from .saving import save
from .colours import LOST, TIED, WON, mix_colours

# The size of a cell and the maximum size of the matrix, in inches; and the size, in points, below which letters are
# left out.
CELL, SIDE, LETTER = 0.25, 20.0, 4.0


# `$` in a name does not begin a formula.
@rc_context({"text.parse_math": False})  # type: ignore[misc]
def figure_of(league: League) -> Figure:
    """Returns the picture of the wins, ties and losses of each warrior against each other one."""
    titles, ranks = league.titles, league.shown_ranks[league.order].tolist()
    side = min(CELL * len(titles), SIDE)
    # A letter takes up to 0.7 of a cell; an inch has 72 points.
    letter = min(9.0, 72 * side / max(1, len(titles)) * 0.7)
    figure = Figure(figsize=(side + 4, side + 1), layout="constrained")
    axes = figure.subplots()
    axes.imshow(mix_colours(league.balances), interpolation="none")
    shown = range(len(titles)) if letter >= LETTER else []
    axes.set_xticks(shown, [str(ranks[one]) for one in shown], fontsize=letter)
    axes.set_yticks(shown, [f"{titles[one]}  {ranks[one]}" for one in shown], fontsize=letter)
    axes.tick_params(length=0)
    shades = {"won": WON, "tied": TIED, "lost": LOST}
    patches = [Patch(color=[part / 255 for part in shade], label=name) for name, shade in shades.items()]
    axes.legend(handles=patches, loc="upper left", bbox_to_anchor=(1.01, 1), borderaxespad=0, frameon=False)
    return figure


def draw(league: League, path: str) -> None:
    """Writes the picture of a league. The end of the file's name selects the kind of picture."""
    save(figure_of(league), path)
