"""Describes where a process comes from: the turns in which it and its ancestors were born."""
from __future__ import annotations

from collections.abc import Iterator

from .formatting import MAX_LISTED, BattleFormatter, pluralize


def describe_births(formatter: BattleFormatter, turn: int, warrior: int, index: int) -> Iterator[str]:
    """Describes the turns in which a process and its ancestors were born, the last one first. The process has `index`
    in the queue of its warrior after `turn`.
    """
    history = formatter.history
    births, added = history.born(turn, warrior, index)
    where = formatter.where(int(history.block(turn).queue(warrior, turn)[index]))
    process = f"Process {index} of {formatter.names[warrior]}, at {where},"
    origin = "loaded" if added is None else f"added by an edit after turn {added}"
    if not births:
        yield f"{process} was {origin}."
        return
    yield f"{process} was born in turn {births[0]}{', and its ancestors before that' if births[1:] else ''}:"
    yield from map(formatter.turn, births[:MAX_LISTED])
    if births[MAX_LISTED:]:
        yield f"and {pluralize(len(births) - MAX_LISTED, 'earlier turn')}"
    yield f"Its first ancestor was {origin}."
