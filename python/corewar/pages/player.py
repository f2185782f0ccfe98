"""A battle that can be played in a notebook."""
from __future__ import annotations

from dataclasses import dataclass, field
from html import escape

from ..battle.history import History
from .site import check_length, page_of

FRAME = '<iframe srcdoc="{}" sandbox="allow-scripts" style="width: 100%; height: {}px; border: 0"></iframe>'


@dataclass(frozen=True)
class Player:
    """The page of a battle in one file, which a notebook shows in a frame of this height in pixels."""

    page: str = field(repr=False)
    height: int

    def _repr_html_(self) -> str:
        return FRAME.format(escape(self.page), self.height)


def player_of(history: History, turn: int, height: int) -> Player:
    """Returns the player of a battle. Raises CorewarError if the site is not built or the battle is too long."""
    check_length(history.end)
    page = page_of(history.match, round=history.round, turn=turn, edits=history.edits)
    return Player(page, height)
