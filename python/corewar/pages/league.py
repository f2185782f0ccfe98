"""The page of a league: its table, the wins of each pair, and links to the page that shows their battles."""
from __future__ import annotations

from pathlib import Path
from typing import Any

import numpy as np
from numpy.typing import NDArray

from ..analysis.formatting import pluralize
from ..engine.calls import Match
from ..contests.league import League
from ..model.settings import label
from ..pictures.colours import mix_colours
from .render import render, write_page
from .site import page_of, site_folder

# The maximum number of warriors in a matrix; a browser cannot show a larger one.
MAX_MATRIX_SIZE = 250
PAGE = "battles.html"


def begin_pages(folder: Path) -> None:
    """Makes the folder for the pages of a league. Raises CorewarError if the site is not built."""
    site_folder()
    folder.mkdir(parents=True, exist_ok=True)


def write_pages(folder: Path, league: League) -> None:
    """Writes the page of a league, index.html, and the page of its battles unless it has too many warriors."""
    contest, warriors = league.contest, league.warriors
    has_matrix = len(warriors) <= MAX_MATRIX_SIZE
    given: dict[str, Any] = {"rounds": contest.rounds, "seed": contest.seed, "position": contest.position}
    match = Match(warriors, settings=contest.settings, **given)
    numbers = {**vars(contest.settings), **given}
    texts = [f"{label(name)} {value:,}" for name, value in numbers.items() if value]
    page = render(
        "league.html.j2",
        rows=[
            {**row, "title": title, "rank": rank}
            for row, title, rank in zip(league.records(), league.titles, league.shown_ranks[league.order].tolist())
        ],
        settings=[*texts, f"score {contest.formula}"],
        lines=lines_of(league) if has_matrix else [],
    )
    if has_matrix:
        write_page(folder / PAGE, page_of(match, contest.formula))
    write_page(folder / "index.html", page)


def lines_of(league: League) -> list[list[dict[str, Any] | None]]:
    """Returns the cells of the matrix, row by row, with None for a warrior against itself."""
    balances, order = league.balances, league.order.tolist()
    colours, counts = mix_colours(balances).tolist(), balances.tolist()
    seeds = np.zeros((len(order), len(order)), np.int64)
    seeds[tuple(league.pairs.T)] = league.seeds
    return [
        [
            None if one == other else cell(league, (one, other), counts[x][y], colours[x][y], seeds)
            for y, other in enumerate(order)
        ]
        for x, one in enumerate(order)
    ]


def cell(
    league: League, pair: tuple[int, int], counts: list[int], colour: list[int], seeds: NDArray[np.int64]
) -> dict[str, Any]:
    """Returns a cell of the matrix, with a link to the first round of the match."""
    wins, ties, losses = counts
    title = f"{pluralize(wins, 'win')}, {pluralize(ties, 'tie')}, {pluralize(losses, 'loss')} against "
    title += league.warriors[pair[1]].called
    # Letters are black on a light ground, white on a dark one.
    ink = "#000" if sum(colour) > 3 * 130 else "#fff"
    link = f"{PAGE}#w={min(pair)},{max(pair)}&s={seeds[min(pair), max(pair)]}"
    return {"wins": wins, "title": title, "ground": f"#{bytes(colour).hex()}", "ink": ink, "link": link}
