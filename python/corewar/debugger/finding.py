"""`find`: how often a condition holds in the battle, or in each round of the match."""
from __future__ import annotations

import re
from collections.abc import Iterator

from ..analysis.formatting import pluralize
from ..battle.conditions import Joined, places
from ..battle.history import History
from ..battle.labels import Sources
from ..model.errors import CorewarError
from .conditions import describe_conditions, is_of_any_warrior, read_conditions, renumbered
from .session import Session
from .table import TABLE

# How many turns or rounds are listed, and how many turns of each of several rounds.
LISTED, LISTED_IN_ROUND = 20, 5
# The cell to execute next as an address: by itself, in a range, or with an offset.
NEXT = re.compile(r"(?:^|\.\.)\.(?=$|\.\.|[+-])")


def find_turns(session: Session, rest: str) -> Iterator[str]:
    """Counts the turns that meet a condition in the battle or, after `-r`, in each round, and lists the first."""
    words = rest.split()
    if words[:1] == ["-r"]:
        yield from find_in_rounds(session, " ".join(words[1:]))
        return
    joined = read_conditions(session, rest)
    yield f"{describe_conditions(session, joined)}: {times(session.history, joined, LISTED)[1] or 'never'}"


def times(history: History, joined: Joined, most: int) -> tuple[int, str]:
    """Returns how often conditions hold, and a text with that number and the first `most` places, or "" for none. If
    the conditions name no warrior, the text names the warrior of each place.
    """
    found = places(history, joined)
    count, is_open = len(found), is_of_any_warrior(joined)
    names = [f" ({history.names[one]})" if is_open else "" for one in found["warrior"][:most].tolist()]
    listed = ", ".join(f"{turn}{name}" for turn, name in zip(found["turn"].tolist(), names))
    more = f" and {count - most} more" if count > most else ""
    return count, f"{pluralize(count, 'time')}, after turn {listed}{more}" if count else ""


def find_in_rounds(session: Session, rest: str) -> Iterator[str]:
    """Finds conditions in each round of the match, without edits. Names and labels refer to the round searched. No cell
    is executed next there.
    """
    if any(map(NEXT.search, rest.split())):
        raise CorewarError(TABLE["conditions"]["dot"])
    match, here, total, rows = session.history.match, session.history.round, 0, list[str]()
    joined, names = read_conditions(session, rest), session.names
    for number in range(match.rounds):
        session.tell(f"searched {number} of {pluralize(match.rounds, 'round')}")
        history = History(match, number)
        history.names = [names[(place + number - here) % len(names)] for place in range(len(names))]
        other = Session(history, Sources(history))
        wanted = read_conditions(other, renumbered(rest, here - number, len(match.warriors)))
        count, text = times(history, wanted, LISTED_IN_ROUND)
        total += count
        rows += [f"round {number}: {text}"] if count else []
    head, all_rounds = describe_conditions(session, joined), pluralize(match.rounds, "round")
    if not rows:
        yield f"{head}: never in {all_rounds}"
        return
    yield f"{head}: {pluralize(total, 'time')} in {len(rows)} of {all_rounds}"
    yield from rows[:LISTED]
    if len(rows) > LISTED:
        yield f"and in {len(rows) - LISTED} more rounds"
