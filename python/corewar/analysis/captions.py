"""Captions of pictures and pages: the warriors of a battle, its outcome, its settings and its command line."""
from __future__ import annotations

import shlex

from ..battle.history import History
from ..model.settings import NUMBERS, Settings, label
from .formatting import join_names


def title(history: History) -> str:
    """Returns the names of the warriors as a heading, `A against B` for two."""
    return " against ".join(history.names) if len(history.names) == 2 else ", ".join(history.names)


def outcome(history: History) -> str:
    """Returns which warriors win, tie or, without an opponent, survive, as a sentence without a full stop."""
    living = [name for number, name in enumerate(history.names) if history.death(number) is None]
    if not living:
        return "No survivors"
    if len(living) == 1:
        return f"{living[0]} {'wins' if len(history.names) > 1 else 'survives'}"
    return f"Tie between {join_names(living)}"


def fate(history: History, warrior: int) -> str:
    """Returns how the battle ends for a warrior."""
    death = history.death(warrior)
    if death is not None:
        return f"died in turn {death:,}"
    if len(history.names) == 1:
        return "survives"
    return "wins" if len(history.ending.deaths) == len(history.names) - 1 else "ties"


def describe_settings(history: History) -> list[str]:
    """Returns the settings of the battle with their names, except for limits and a position that are not given, and for
    the seed if the position is given.
    """
    match = history.match
    numbers = {**vars(match.settings), "seed": match.seed, "position": match.position, "round": history.round}
    if match.position:
        del numbers["seed"]
    return [f"{label(name)} {value:,}" for name, value in numbers.items() if value or name == "round"]


def arguments(history: History) -> list[str]:
    """Returns the arguments of `corewar` that select this battle, with its files."""
    match = history.match
    numbers = {**vars(match.settings), "rounds": match.rounds, "seed": match.seed, "position": match.position}
    usual = {**vars(Settings()), "rounds": 1, "seed": 1, "position": None}
    options = [
        text for name, value in numbers.items() if value != usual[name] for text in (NUMBERS[name].word, str(value))
    ]
    options += ["--round", str(history.round)] if history.round else []
    # The name of a file that begins with `-` would be taken for an option.
    return [*options, *(f"./{one.file}" if one.file[:1] == "-" < one.file else one.file for one in match.warriors)]


def command(history: History, subcommand: str) -> str:
    """Returns the command line of a subcommand for this battle."""
    return shlex.join(["corewar", *subcommand.split(), *arguments(history)])
