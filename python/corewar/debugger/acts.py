"""The commands that move in time, search, set breakpoints, edit the battle or switch between futures."""
from __future__ import annotations

import re
from collections.abc import Callable, Iterator

import numpy as np

from ..analysis.formatting import pluralize
from ..battle.conditions import Condition, search
from ..model.edits import Edit
from ..model.errors import CorewarError
from ..model.settings import whole
from .conditions import describe_conditions, read_conditions
from .finding import find_turns
from .looks import show_position
from .session import MAX_FILLED_CELLS, Session
from .table import command


def step_by(session: Session, rest: str, sign: int) -> Iterator[str]:
    """Steps a number of turns forwards or back, or to the next or previous turn of a warrior."""
    if rest and not rest.isdecimal():
        warrior = session.warrior(rest)
        found = search(session.history, [[Condition("moves", by=warrior)]], session.turn, sign > 0)
        if found is None:
            where = "after" if sign > 0 else "before"
            raise CorewarError(f"{session.names[warrior]} has no turn {where} turn {session.turn}")
        session.go(found[0])
    else:
        to = session.turn + sign * session.number(rest or "1", "a number of turns")
        session.go(max(0, min(session.history.end, to)))
    yield from show_position(session)


@command("step")
def step(session: Session, rest: str) -> Iterator[str]:
    yield from step_by(session, rest, 1)


@command("reverse-step")
def reverse_step(session: Session, rest: str) -> Iterator[str]:
    yield from step_by(session, rest, -1)


@command("run")
def run(session: Session, rest: str) -> Iterator[str]:
    yield from step_by(session, rest or str(session.history.end), 1)


@command("goto")
def goto(session: Session, rest: str) -> Iterator[str]:
    end = session.history.end
    turn = {"start": 0, "end": end}.get(rest)
    if turn is None and re.fullmatch(r"[+-]\d{1,9}", rest):
        turn = session.turn + int(rest)
    turn = session.number(rest, "a turn, `start`, `end`, +N or -N") if turn is None else turn
    if not 0 <= turn <= end:
        raise CorewarError(f"the battle has turns 0 to {end}")
    session.go(turn)
    yield from show_position(session)


@command("until")
def until(session: Session, rest: str) -> Iterator[str]:
    cycle, history = session.number(rest, "a number of cycles"), session.history
    passed = history.block(session.turn).cycle(session.turn) >= cycle
    for block in [] if passed else history.blocks(session.turn):
        found = block.first + 1 + np.flatnonzero(block.records["cycle"] >= cycle)
        if len(found):
            session.go(int(found[0]))
            yield from show_position(session)
            return
    if passed:
        raise CorewarError(
            f"cycle {cycle} is already completed in turn {session.turn}; use `goto` with an earlier turn"
        )
    raise CorewarError(f"the battle ends before cycle {cycle} is completed")


@command("continue")
def continue_forward(session: Session, rest: str) -> Iterator[str]:
    yield from search_from_here(session, rest, True)


@command("reverse-continue")
def continue_back(session: Session, rest: str) -> Iterator[str]:
    yield from search_from_here(session, rest, False)


def search_from_here(session: Session, rest: str, forward: bool) -> Iterator[str]:
    conditions = [read_conditions(session, rest)] if rest else [*session.breakpoints.values()]
    yield f"{describe_conditions(session, session.search(conditions, forward))}:"
    yield from show_position(session)


command("find")(find_turns)


@command("break")
def set_break(session: Session, rest: str) -> Iterator[str]:
    if rest:
        session.breakpoints[max(session.breakpoints, default=-1) + 1] = read_conditions(session, rest)
    if not session.breakpoints:
        yield "no breakpoint is set"
    for number, condition in session.breakpoints.items():
        yield f"breakpoint {number}: {describe_conditions(session, condition)}"


@command("delete")
def delete(session: Session, rest: str) -> Iterator[str]:
    if rest == "all":
        session.breakpoints.clear()
    else:
        number = whole(rest)
        if number is None or number not in session.breakpoints:
            raise CorewarError(f"no breakpoint `{rest}`; expected a number or `all`")
        del session.breakpoints[number]
    yield from set_break(session, "") if session.breakpoints else ["all breakpoints are deleted"]


@command("undo")
def undo(session: Session, _: str) -> Iterator[str]:
    yield from undo_or_redo(session, session.undo)


@command("redo")
def redo(session: Session, _: str) -> Iterator[str]:
    yield from undo_or_redo(session, session.redo)


def undo_or_redo(session: Session, act: Callable[[], None]) -> Iterator[str]:
    """Undoes or redoes, and says which future this leads to if it is another one, since the turn may be the same."""
    before = session.history
    act()
    if session.history is not before:
        number = session.futures.index(session.history)
        yield f"now in future {number}: {'; '.join(session.edits(session.history)) or 'no edits'}"
    yield from show_position(session)


@command("edit")
def edit(session: Session, rest: str) -> Iterator[str]:
    words = rest.split(None, 1)
    if len(words) != 2:
        raise CorewarError("expected an address and a line of source")
    address = session.address(words[0])
    cell = session.cell(address, words[1])
    old = session.formatter.cell(session.history.block(session.turn).cell(address, session.turn))
    session.edit(Edit.set(address, cell))
    yield f"{session.formatter.where(address)}: {old} -> {session.formatter.cell(cell)}"


@command("fill")
def fill(session: Session, rest: str) -> Iterator[str]:
    words = re.sub(r"^(\S+?)\.\.", r"\1 ", rest).split(None, 2)
    if len(words) != 3:
        raise CorewarError("expected two addresses and a line of source")
    first, last = session.address(words[0]), session.address(words[1])
    if last < first:
        raise CorewarError(f"cannot fill {first} to {last}: the first address is above the last")
    if last - first >= MAX_FILLED_CELLS:
        raise CorewarError(f"cannot fill {first} to {last}: expected at most {MAX_FILLED_CELLS} cells")
    cell = session.cell(first, words[2])
    session.edit(Edit.fill(first, last, cell))
    yield f"{first} to {last}: {session.formatter.cell(cell)}"


def warrior_and(session: Session, rest: str, count: int, expected: str) -> tuple[int, list[str]]:
    """Returns the warrior that a text names, and the `count` words after it. Raises CorewarError with `expected`."""
    # From the right, since the name of a warrior may have spaces.
    words = rest.rsplit(None, count)
    if len(words) <= count:
        raise CorewarError(expected)
    return session.warrior(words[0]), words[1:]


@command("move")
def move(session: Session, rest: str) -> Iterator[str]:
    expected = "expected a warrior, the index of a process and an address"
    warrior, (index, address) = warrior_and(session, rest, 2, expected)
    process = session.process(warrior, index)
    session.edit(Edit.move(warrior, process, session.address(address)))
    yield session.formatter.queue_around(session.turn, warrior, process)


@command("kill")
def kill(session: Session, rest: str) -> Iterator[str]:
    warrior, (index,) = warrior_and(session, rest, 1, "expected a warrior and the index of a process")
    process = session.process(warrior, index)
    session.edit(Edit.kill(warrior, process))
    yield session.formatter.queue_around(session.turn, warrior, process)


@command("spawn")
def spawn(session: Session, rest: str) -> Iterator[str]:
    warrior, (named,) = warrior_and(session, rest, 1, "expected a warrior and an address")
    address, count = session.address(named), len(session.history.block(session.turn).queue(warrior, session.turn))
    if not 0 < count < session.history.match.settings.processes:
        why = f"has {pluralize(count, 'process')}, the maximum" if count else "is dead"
        raise CorewarError(f"cannot add a process: {session.names[warrior]} {why}")
    session.edit(Edit.add(warrior, address))
    yield session.formatter.queue_around(session.turn, warrior, count)


@command("futures")
def futures(session: Session, rest: str) -> Iterator[str]:
    if rest:
        number = session.number(rest, "the number of a future")
        if number >= len(session.futures):
            raise CorewarError(f"no future {number}; there are futures 0 to {len(session.futures) - 1}")
        history = session.futures[number]
        session.go(min(session.turn, history.end), history)
    for number, history in enumerate(session.futures):
        edits = "; ".join(session.edits(history)) or "no edits"
        yield f"{'>' if history is session.history else ' '} {number}: {edits}; {history.end} turns"
