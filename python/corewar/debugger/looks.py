"""The commands that only show something of a battle."""
from __future__ import annotations

import re
from collections.abc import Iterator

from ..analysis.births import describe_births
from ..analysis.causes import describe_cause, describe_change, describe_death
from ..explain.instructions import describe_instruction
from ..model.cells import MODES
from .session import Session
from .table import command

# How many cells `list` shows from an address on and around each next process, and how many turns `why` shows.
CELLS, AROUND, TURNS = 11, 7, 4


def show_position(session: Session) -> Iterator[str]:
    """Describes the turn that led here, unless this is the start, and what comes next."""
    if session.turn:
        yield session.formatter.turn(session.turn)
    yield session.formatter.next_turn(session.turn)


@command("list")
def list_cells(session: Session, rest: str) -> Iterator[str]:
    core, formatter, turn, width = session.history.core, session.formatter, session.turn, session.width()
    if rest:
        first, count = [*rest.split(None, 1), str(CELLS)][:2]
        start, _, end = first.partition("..")
        length = (session.address(end) - session.address(start)) % core + 1 if end else 0
        length = length or session.number(count, "a number of cells")
        yield from formatter.cells(turn, session.address(start), min(length, core), width)
        return
    for number in range(len(session.names)):
        queue = session.history.block(turn).queue(number, turn)
        if len(queue):
            yield f"{formatter.names[number]}:"
            yield from formatter.cells(turn, int(queue[0]) - AROUND // 2, min(AROUND, core), width)


def warrior_and_index(session: Session, rest: str) -> tuple[int, str]:
    """Returns the warrior that a text names, by default the next one, and the index of a process after it, or ""."""
    # The name of a warrior may end in a number.
    is_name = rest.lower() in map(str.lower, session.names)
    named, _, index = rest.rpartition(" ") if not is_name and re.fullmatch(r".+ \d+", rest) else (rest, "", "")
    next_warrior = session.history.block(session.turn).next_warrior(session.turn)
    return session.warrior(named.strip()) if named else next_warrior, index


@command("queue")
def queue(session: Session, rest: str) -> Iterator[str]:
    warrior, index = warrior_and_index(session, rest)
    yield session.formatter.queue(session.turn, warrior, session.process(warrior, index) if index else 0)


@command("born")
def born(session: Session, rest: str) -> Iterator[str]:
    warrior, index = warrior_and_index(session, rest)
    yield from describe_births(session.formatter, session.turn, warrior, session.process(warrior, index or "0"))


@command("show")
def show(session: Session, _: str) -> Iterator[str]:
    end, turn = session.history.end, session.turn
    state = "over" if turn == end else f"of {end} turns"
    yield f"turn {turn}, cycle {session.history.block(turn).cycle(turn)}, battle {state}"
    yield from session.formatter.warrior_states(turn)


@command("why")
def why(session: Session, rest: str) -> Iterator[str]:
    turn, formatter = session.turn, session.formatter
    died = [int(number) for number, when in session.history.deaths(turn).tolist() if when == turn]
    if rest or died:
        yield from describe_death(formatter, session.warrior(rest) if rest else died[0], TURNS)
        return
    yield formatter.next_turn(turn)
    address = session.history.head(turn)
    if address is not None:
        yield from describe_cause(formatter, address, turn)


@command("changed")
def changed(session: Session, rest: str) -> Iterator[str]:
    yield from describe_change(session.formatter, session.address(rest), session.turn)


@command("explain")
def explain(session: Session, rest: str) -> Iterator[str]:
    address, core, labels = session.address(rest or "."), session.history.core, session.sources.labels
    cell = session.history.block(session.turn).cell(address, session.turn)
    # A number has no name, and the instruction's own cell is `this cell`.
    names = [
        labels.get((address + int(cell[number])) % core, "") if MODES[cell[mode]] != "#" and cell[number] else ""
        for number, mode in (("a", "a_mode"), ("b", "b_mode"))
    ]
    yield f"{session.formatter.where(address)}: {session.formatter.cell(cell)}"
    yield describe_instruction(session.formatter.cell(cell), (names[0], names[1]))
