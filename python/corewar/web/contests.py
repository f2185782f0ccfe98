"""Leagues of the site: run on the processors of this machine, with results that are stored."""
from __future__ import annotations

from collections.abc import Generator
from typing import Any

import numpy as np

from ..engine.sources import Assembler, Overrun
from ..contests.contest import Contest, Execution, run
from ..contests.matches import Matches, all_pairs
from ..model.errors import CorewarError, MarsError
from ..model.machine import processors
from ..model.settings import Settings
from ..engine.warriors import Warrior
from ..pages.site import NAMES

JOBS = processors()


def settings_of(given: dict[str, int]) -> Settings:
    """Returns the settings of a message, in which a limit of 0 is the core size."""
    ours = {theirs: name for name, theirs in NAMES.items()}
    numbers: dict[str, Any] = {ours.get(name, name): int(value) for name, value in given.items()}
    return Settings(**{**numbers, **{name: numbers.get(name) or None for name in NAMES}})


def contest_of(given: dict[str, Any]) -> Contest:
    """Returns the contest of a message. Raises TypeError, ValueError or KeyError if the message is not of this form."""
    rounds, seed, position = [int(given[name]) for name in ("rounds", "seed", "position")]
    return Contest(
        settings_of(given["settings"]),
        rounds=rounds,
        seed=seed,
        position=position or None,
        formula=str(given["formula"]),
        # As in the leagues that the page runs itself.
        positions="same",
    )


def warrior_of(assembler: Assembler, source: dict[str, str], contest: Contest) -> Warrior:
    """Returns the warrior of a source. Raises CorewarError."""
    text, name = source["text"], source["name"]
    try:
        return assembler.assemble(text, settings=contest.settings, rounds=contest.rounds, file=name)
    except (MarsError, Overrun) as fault:
        raise CorewarError(f"{name}: {fault}") from None


def league(assembler: Assembler, given: dict[str, Any], results: str | None) -> Generator[list[list[int]], None, None]:
    """Runs a match of every two sources. Yields the results of matches as they end, first those that are stored: the
    indices of the two sources, the points, wins, ties and losses of the first, and the points of the second. Raises
    CorewarError.
    """
    contest = contest_of(given)
    warriors = [warrior_of(assembler, source, contest) for source in given["sources"]]
    matches = Matches(contest, warriors, all_pairs(len(warriors)))
    for rows in run(matches, Execution(JOBS, results=results)):
        table: list[list[int]] = np.hstack([matches.lineups[rows], matches.counts[rows]]).tolist()
        yield table
