"""The rounds of a match and their outcomes."""
from __future__ import annotations

from collections.abc import Iterator
from dataclasses import dataclass
from typing import Any

from ..engine.calls import Match
from .history import History

OUTCOMES = ("win", "tie", "loss")


@dataclass(frozen=True, eq=False)
class Round:
    """A round of a match.

    - `history`: its battle
    - `outcomes`: `win`, `tie` or `loss` for each warrior, in the order of the match
    """

    history: History
    outcomes: tuple[str, ...]

    @property
    def starts(self) -> list[int]:
        """The address of the first cell of each warrior, in the order of the match."""
        count, number = len(self.outcomes), self.history.round
        return [self.history.loaded((place - number) % count)[0] for place in range(count)]

    def to_dict(self) -> dict[str, Any]:
        """Returns its number, the starting addresses, the outcomes and its number of turns, as plain values."""
        outcomes, history = [*self.outcomes], self.history
        return {"round": history.round, "starts": self.starts, "outcomes": outcomes, "turns": history.end}


def rounds(match: Match) -> Iterator[Round]:
    """Yields the rounds of a match, from round 0. Raises `MarsError` if the match is invalid, and `CorewarError` if it
    has more than 16 warriors.
    """
    for number in range(match.rounds):
        history = History(match, number)
        dead = {int(warrior) for warrior in history.ending.deaths["warrior"]}
        survived = "win" if len(dead) == len(match.warriors) - 1 else "tie"
        # Warrior 0 of a battle is the one that begins it.
        places = [(place - number) % len(match.warriors) for place in range(len(match.warriors))]
        yield Round(history, tuple("loss" if place in dead else survived for place in places))


def count_outcomes(outcomes: list[tuple[str, ...]]) -> list[list[int]]:
    """Returns the number of wins, ties and losses of each warrior, given the outcomes of each round."""
    return [[own.count(outcome) for outcome in OUTCOMES] for own in zip(*outcomes)]
