"""Explains why a warrior died, or what it did last if it lives, and how a cell got its value."""
from __future__ import annotations

from collections.abc import Iterator, Sequence
from dataclasses import dataclass
from itertools import islice

from ..battle.conditions import EXECUTES, OWNER, TURN, Condition, by_warrior, find
from ..battle.conditions import last_change, last_copy, search
from ..battle.history import History
from ..battle.runs import BY_HAND
from ..engine.binding import MAX_UINT32
from .endings import Executed, describe_survivor, executed_by, own_turns
from .formatting import BattleFormatter
from .turns import Turn

# How many turns of a warrior, before those that are shown, are searched for one that executed another warrior's cell.
EXTRA_TURNS = 500


def describe_change(formatter: BattleFormatter, address: int, turn: int) -> list[str]:
    """Describes the last change of a cell up to a turn, by a turn or by an edit."""
    history, by_hand = formatter.history, None
    if history.pasts(turn)[address]["owner"] == BY_HAND:
        by_hand = history.by_hand(address, turn)
    if by_hand:
        edit_turn, before, after = by_hand
        change = f"{formatter.cell(before)} -> {formatter.cell(after)}"
        return [f"Cell {address} was edited after turn {edit_turn}: {change}"]
    found = last_change(history, address, turn)
    if found is None:
        return [f"Cell {address} has not changed since the start."]
    return [f"Cell {address} was last changed in turn {found}:", *formatter.lines_with_source(found)]


def describe_cause(formatter: BattleFormatter, address: int, turn: int) -> list[str]:
    """Describes how a cell got its value up to a turn: its last change, and the copy of its instruction."""
    lines = describe_change(formatter, address, turn)
    for copied in causes_of(formatter.history, address, turn)[1:]:
        lines += [f"Its instruction was copied there in turn {copied}:", *formatter.lines_with_source(copied)]
    return lines


def causes_of(history: History, address: int, turn: int) -> list[int]:
    """Returns the last turn, up to this one, that changed a cell, and the turn that copied its instruction there if
    that is another turn. A turn before an edit of the cell is left out.
    """
    found, by_hand = last_change(history, address, turn), history.by_hand(address, turn)
    if found is None:
        return []
    copied = last_copy(history, address, turn)
    return [*dict.fromkeys(one for one in (found, copied) if one and (by_hand is None or by_hand[0] < one))]


def foreign_write(history: History, turn: int) -> int | None:
    """Returns the turn of another warrior that last changed the cell that a turn executed, or None if the last change
    was not made by another warrior.
    """
    record = history.record(turn)
    found = last_change(history, int(record["address"]), turn - 1)
    return found if found is not None and history.record(found)["warrior"] != record["warrior"] else None


def foreign_turns(history: History, warrior: int, turns: Sequence[int]) -> Iterator[int]:
    """Yields each of a warrior's `turns` that executed a cell that another warrior wrote, the latest first. `turns` has
    the latest first, too.
    """
    # A range whose end is below its start goes around.
    others = (EXECUTES, OWNER, warrior + 1, (warrior - 1) & MAX_UINT32)
    rows = [by_warrior(warrior), others, (EXECUTES, TURN, 1, MAX_UINT32)]
    for found in find(history, rows, turns[-1] - 1, turns[0], False) if turns else []:
        # The range also has BY_HAND, but an edit is no warrior.
        yield from (turn for turn in reversed(found["turn"].tolist()) if foreign_write(history, turn) is not None)


def describe_turn(formatter: BattleFormatter, turn: int, shown: set[tuple[int, int]]) -> Iterator[str]:
    """Describes a turn, and the turn of another warrior that wrote the cell it executed, unless `shown` has it."""
    history, write_turn = formatter.history, foreign_write(formatter.history, turn)
    yield from formatter.lines(turn)
    address = int(history.record(turn)["address"])
    if write_turn is not None and (write_turn, address) not in shown:
        shown.add((write_turn, address))
        before = history.block(write_turn - 1).cell(address, write_turn - 1)
        record = history.record(write_turn)
        who = f"{formatter.names[record['warrior']]} at {record['address']}"
        cell = formatter.cell(history.executed(write_turn))
        yield f"    {address} was {formatter.cell(before)} until turn {write_turn} of {who}: {cell}"


def describe_death(formatter: BattleFormatter, warrior: int, count: int) -> Iterator[str]:
    """Explains why a warrior died, with up to `count` of its turns before its death; or what it did last, if it lives.

    If neither these turns nor its last one executed a cell that another warrior wrote, the latest of EXTRA_TURNS
    earlier turns that did so is added. Only the end of its last process is explained; if it ever split, the first hit
    on its loaded code is added.
    """
    history, name = formatter.history, formatter.names[warrior]
    death = history.death(warrior)
    if death is None:
        yield from describe_survivor(formatter, warrior)
        return
    if history.is_killed(warrior):
        yield f"{name} was killed by an edit after turn {death}."
        return
    yield f"{name} died in turn {death}:"
    yield from formatter.lines_with_source(death)
    yield from describe_cause(formatter, int(history.record(death)["address"]), death - 1)
    turns = [*islice(own_turns(history, warrior, death - 1), count + EXTRA_TURNS)]
    if turns:
        yield "Its turns before that:"
    shown: set[tuple[int, int]] = set()
    for turn in reversed(turns[:count]):
        yield from describe_turn(formatter, turn, shown)
    if not shown and foreign_write(history, death) is None:
        earlier = next(foreign_turns(history, warrior, turns[count:]), None)
        if earlier is not None:
            yield "Earlier it executed a cell that another warrior wrote:"
            yield from describe_turn(formatter, earlier, shown)
    if search(history, [[Condition("splits", by=warrior)]], 0):
        yield from describe_hit(formatter, warrior)


def describe_hit(formatter: BattleFormatter, warrior: int) -> Iterator[str]:
    """Describes the first turn in which another warrior changed a cell where this warrior was loaded, if any did."""
    found = first_hit(formatter.history, warrior)
    if found:
        yield "The first hit of another warrior on its loaded code was:"
        yield from formatter.lines_with_source(found)


def first_hit(history: History, warrior: int) -> int | None:
    """Returns the first turn in which another warrior changed a cell where this warrior was loaded, or None."""
    first, length = history.loaded(warrior)
    last = (first + length - 1) % history.core
    others = [number for number in range(len(history.warriors)) if number != warrior]
    hits = [[Condition("changes", (first, last), by=other)] for other in others]
    found = search(history, hits, 0) if hits else None
    return found and found[0]


@dataclass(frozen=True)
class Why:
    """How a battle ended for a warrior, and why.

    - `warrior`, `name`: its number and its name
    - `fate`: `died`, `killed` by an edit, or `alive`
    - `turn`: the turn in which it died, or after which an edit killed it, or the last one of the battle if it is alive
    - `last`: the turn in which its last process died, or None unless it `died`
    - `causes`: the turn that last changed the cell that `last` executed and, if it is another turn, the one that copied
      its instruction there; empty without `last`
    - `before`: its own turns before `last`, the latest one at the end; empty without `last`
    - `hit`: the first turn in which another warrior changed its loaded code, or None
    - `executed`: if it is alive, the lines that it executed in its last turns, the most frequent first; else empty
    - `text`: the lines that `corewar why` prints
    """

    warrior: int
    name: str
    fate: str
    turn: int
    last: Turn | None
    causes: tuple[Turn, ...]
    before: tuple[Turn, ...]
    hit: Turn | None
    executed: tuple[Executed, ...]
    text: str

    def __str__(self) -> str:
        return self.text


def why_of(formatter: BattleFormatter, warrior: int, count: int) -> Why:
    """Returns how a battle ended for a warrior, with up to `count` of its turns before it died."""
    history, death = formatter.history, formatter.history.death(warrior)
    text = "\n".join(describe_death(formatter, warrior, count))
    fate = "alive" if death is None else "killed" if history.is_killed(warrior) else "died"
    last, causes, before = None, list[int](), list[int]()
    if death is not None and fate == "died":
        last = formatter.turn_of(death)
        causes = causes_of(history, last.at.address, death - 1)
        before = [*islice(own_turns(history, warrior, death - 1), count)][::-1]
    hit = first_hit(history, warrior)
    return Why(
        warrior,
        history.names[warrior],
        fate,
        history.end if death is None else death,
        last,
        tuple(map(formatter.turn_of, causes)),
        tuple(map(formatter.turn_of, before)),
        None if hit is None else formatter.turn_of(hit),
        tuple(executed_by(formatter, warrior)[0]) if death is None else (),
        text,
    )
