"""Counts how the warriors of a match died: on which cell, as it was before it was hit, and by which line. Also counts
what they executed last in ties.
"""
from __future__ import annotations

from collections.abc import Collection, Iterable, Iterator, Sequence
from concurrent.futures import Executor
from dataclasses import dataclass
from itertools import chain

import numpy as np

from ..battle.conditions import last_change, last_copy
from ..battle.history import History
from ..model.printing import make_distinct
from ..battle.labels import Sources
from ..battle.runs import NOBODY
from ..engine.calls import Match
from ..engine.outcomes import outcomes
from ..engine.parts import in_order, run_parts
from .endings import LAST_TURNS, summarize_last_turns
from .formatting import pluralize

# The most ways to die, or to tie, that are listed for a warrior.
MAX_ROWS = 10


@dataclass(frozen=True)
class Death:
    """A death in a round of a match: the number of the warrior in the order of the match and the number of the round.
    `cell` is the cell that the warrior died on, as it was before it was hit, and `by` is what hit it, both as text.
    """

    warrior: int
    round: int
    cell: str
    by: str


@dataclass(frozen=True)
class Tie:
    """A warrior that tied in a round of a match: its number in the order of the match, the number of the round, and
    what it executed last, as text.
    """

    warrior: int
    round: int
    executed: str


def fates(
    match: Match, *, warriors: Collection[int] | None = None, executor: Executor | None = None
) -> Iterator[Death | Tie]:
    """Yields how each warrior of a match died in each round or, in a tie, what it executed last.

    - `warriors`: the numbers of the warriors to look at, or None for all
    - `executor`: an executor of `concurrent.futures` that looks at the rounds, as for `outcomes`

    In the `History` of round K, warrior N of the match has the number (N - K) modulo the number of warriors. Raises
    `MarsError` if the match is invalid, and `CorewarError` for errors of the executor.
    """
    numbers = range(len(match.warriors)) if warriors is None else warriors
    yield from chain.from_iterable(fates_of_rounds(match, lost_rounds(match, numbers), numbers, executor))


def lost_rounds(match: Match, warriors: Collection[int]) -> list[int]:
    """Returns the rounds that at least one of these warriors did not win."""
    given = {name: value for name, value in vars(match).items() if name != "seed"}
    survived = outcomes(**given, seeds=match.seed)["survived"][0]
    is_won = survived & (survived.sum(axis=1) == 1)[:, None]
    return [int(number) for number in np.flatnonzero(~is_won[:, [*warriors]].all(axis=1))]


def fates_of_rounds(
    match: Match, rounds: Sequence[int], warriors: Collection[int], executor: Executor | None = None
) -> Iterator[list[Death | Tie]]:
    """Yields the fates of some warriors in each of some rounds."""
    return in_order(run_parts(fates_of, ((match, number, warriors) for number in rounds), executor=executor))


def fates_of(match: Match, number: int, warriors: Collection[int], _: object = None) -> list[Death | Tie]:
    """Returns how some warriors died in a round or, in a tie, what they executed last."""
    history, names = History(match, number), make_distinct([warrior.called for warrior in match.warriors])
    # The warriors of a match take turns to begin.
    order = [(turn + number) % len(names) for turn in range(len(names))]
    sources, in_turn = Sources(history), [names[one] for one in order]
    dead, found = history.ending.deaths["warrior"].tolist(), list[Death | Tie]()
    for one in [one for one in dead if order[one] in warriors]:
        found.append(Death(order[one], number, *cause_of_death(history, sources, in_turn, one)))
    living = [one for one in range(len(names)) if one not in dead]
    for one in [one for one in living if len(living) > 1 and order[one] in warriors]:
        found.append(Tie(order[one], number, summarize_last_turns(history, sources, in_turn, one)))
    return found


def cause_of_death(history: History, sources: Sources, names: Sequence[str], warrior: int) -> tuple[str, str]:
    """Returns what cell a warrior died on, as it was before it was hit, and what hit it: the turn that copied the
    cell's instruction there, or else the turn that changed the cell last. Names are in the order of turns.
    """
    turn = history.death(warrior) or 0
    address = int(history.record(turn)["address"])
    hit = last_copy(history, address, turn - 1) or last_change(history, address, turn - 1)
    before = (hit or turn) - 1
    line = sources.line(history, address, before)
    if line is not None:
        owner = "its line" if line.warrior == warrior else f"{names[line.warrior]}'s line"
        cell = f"{owner} {line}"
    else:
        origin = history.pasts(before)["origin"][address]
        cell = "empty core" if history.owners(0)[origin] == NOBODY else "an unknown line"
    if hit is None:
        return cell, "nothing: the cell has not changed"
    record = history.record(hit)
    killer, line = int(record["warrior"]), sources.line(history, int(record["address"]), hit - 1)
    name = "itself" if killer == warrior else names[killer]
    if line is None:
        return cell, f"{name}, by an unknown line"
    owner = "" if line.warrior == killer else f"{names[line.warrior]}'s "
    return cell, f"{name}, by {owner}line {line}"


def describe_losses(name: str, rounds: int, deaths: Sequence[Death]) -> Iterator[str]:
    """Describes the losses of a warrior in a match, the most frequent ones first, each with its first round."""
    if not deaths:
        yield f"{name} lost none of {rounds} rounds."
        return
    yield f"{name} lost {len(deaths)} of {pluralize(rounds, 'round')}:"
    yield from table_of("losses", ("died on", "hit by"), [((death.cell, death.by), death.round) for death in deaths])


def describe_ties(name: str, rounds: int, ties: Sequence[Tie]) -> Iterator[str]:
    """Describes the ties of a warrior in a match, if there are any, as `describe_losses` does its losses."""
    if ties:
        yield f"{name} tied {len(ties)} of {pluralize(rounds, 'round')}:"
        head = f"executed in its last {LAST_TURNS} turns"
        yield from table_of("ties", (head,), [((tie.executed,), tie.round) for tie in ties])


def table_of(fate: str, heads: tuple[str, ...], fates: Iterable[tuple[tuple[str, ...], int]]) -> Iterator[str]:
    """Yields a table that counts fates with equal texts, the most frequent ones first, each with its first round.

    - `fate`, `heads`: the heads of the columns with the counts and with the texts
    - `fates`: the texts and the round of each
    """
    ways: dict[tuple[str, ...], list[int]] = {}
    for texts, round in fates:
        ways.setdefault(texts, []).append(round)
    rows = sorted(ways.items(), key=lambda way: -len(way[1]))
    widths = [max(map(len, column)) for column in zip(heads, *(texts for texts, _ in rows[:MAX_ROWS]))]
    lines = [(fate, "round", heads), *((len(found), found[0], texts) for texts, found in rows[:MAX_ROWS])]
    for count, first, texts in lines:
        yield f"{count:>6} {first:>5}  {'  '.join(map(str.ljust, texts, widths))}".rstrip()
    rest = sum(len(found) for _, found in rows[MAX_ROWS:])
    if rest:
        yield f"{rest:6}        in {len(rows) - MAX_ROWS} other ways"
