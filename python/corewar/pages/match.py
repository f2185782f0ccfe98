"""The folder of a match: an index of its rounds, and the page that shows each of them."""
from __future__ import annotations

from pathlib import Path
from typing import Any

from ..analysis.captions import command
from ..battle.rounds import Round, count_outcomes
from ..engine.calls import Match
from .render import render, write_page
from .site import page_of, site_folder

PAGE = "match.html"


class Pages:
    """A folder with match.html, written at once, and index.html, written after the last round. Raises CorewarError if
    the site is not built.
    """

    def __init__(self, folder: str, match: Match, formula: str) -> None:
        self.folder, self.match = Path(folder), match
        self.rounds: list[dict[str, Any]] = []
        site_folder()
        self.folder.mkdir(parents=True, exist_ok=True)
        write_page(self.folder / PAGE, page_of(match, formula))

    def add(self, one: Round) -> None:
        """Adds a round to the index."""
        history = one.history
        row = {"number": history.round, "outcomes": one.outcomes, "end": history.end}
        self.rounds.append({**row, "page": f"{PAGE}#r={history.round}", "words": command(history, "debug")})

    def write_index(self) -> None:
        """Writes the page of all rounds."""
        counted = count_outcomes([one["outcomes"] for one in self.rounds])
        index = render("match.html.j2", warriors=self.match.warriors, sums=counted, rounds=self.rounds)
        write_page(self.folder / "index.html", index)
