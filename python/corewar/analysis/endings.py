"""What a survivor of a battle did last: the lines that it executed, and where it wrote."""
from __future__ import annotations

from collections import Counter
from collections.abc import Iterator, Sequence
from dataclasses import dataclass
from itertools import chain, islice

from ..battle.conditions import by_warrior, executed, find
from ..battle.history import History
from ..battle.labels import Line, Sources
from ..battle.runs import BY_HAND
from ..model.types import Records
from .formatting import BattleFormatter, pluralize

# How many of the last turns of a warrior are shown, and the most lines of a table.
LAST_TURNS, MAX_ROWS = 1000, 8
# The summary of a round names what was executed in at least this share of these turns.
MIN_SHARE = 0.01


def own_turns(history: History, warrior: int, turn: int) -> Iterator[int]:
    """Yields the turns of a warrior up to a turn, the latest first."""
    for found in find(history, [by_warrior(warrior)], 0, turn, False):
        yield from reversed(found["turn"].tolist())


def last_executed(history: History, warrior: int) -> Records:
    """Returns the last turns of a warrior with the cells that they executed, as `executed` does."""
    turns = [*islice(own_turns(history, warrior, history.end), LAST_TURNS)]
    return executed(history, turns[-1] - 1 if turns else history.end, history.end, [by_warrior(warrior)])


def written_by(history: History, turn: int) -> list[int]:
    """Returns the address of the cell that a turn wrote last, in a list that is empty if it wrote none."""
    writes = history.block_of(turn).last_writes
    return [int(address) for address in writes.addresses[writes.of(turn)]]


def describe_survivor(formatter: BattleFormatter, warrior: int) -> Iterator[str]:
    """Describes what a warrior that lives at the end did last."""
    history, name = formatter.history, formatter.names[warrior]
    processes = len(history.ending.queues[warrior])
    yield f"{name} is alive after turn {history.end}, the last one, with {pluralize(processes, 'process')}."
    rows, cells = executed_by(formatter, warrior)
    yield f"Its last {pluralize(sum(row.turns for row in rows), 'turn')}:"
    yield "  turns  cells written  line"
    for row in rows[:MAX_ROWS]:
        yield f"{row.turns:7} {row.cells:14}  {row.line}"
    rest = rows[MAX_ROWS:]
    if rest:
        yield f"{sum(row.turns for row in rest):7} {'':14}  in {pluralize(len(rest), 'more line')}"
    yield from describe_hits(formatter, warrior, cells)


@dataclass(frozen=True)
class Executed:
    """A line that a warrior executed in its last turns, or the text of a cell without a line. `turns` is the number of
    these turns that executed it, and `cells` the number of different cells that they wrote last.
    """

    turns: int
    cells: int
    line: str


def executed_by(formatter: BattleFormatter, warrior: int) -> tuple[list[Executed], set[int]]:
    """Returns the lines that a warrior executed in its last turns, the most frequent first, and the cells that these
    turns wrote last.
    """
    history, written = formatter.history, dict[str, list[list[int]]]()
    last = last_executed(history, warrior)[::-1]
    for turn, origin in zip(last["turn"].tolist(), last["past"]["origin"].tolist()):
        line = formatter.sources.lines.get(origin)
        text = f"{line.owner(formatter.names, warrior)} {line}".lstrip() if line else ""
        text = text or formatter.cell(history.executed(turn))
        written.setdefault(text, []).append(written_by(history, turn))
    rows = [Executed(len(turns), len({*chain(*turns)}), line) for line, turns in written.items()]
    cells = {*chain.from_iterable(chain.from_iterable(written.values()))}
    return sorted(rows, key=lambda row: -row.turns), cells


def describe_hits(formatter: BattleFormatter, warrior: int, cells: set[int]) -> Iterator[str]:
    """Yields a sentence for each other survivor. It says how many cells that the warrior wrote were executed by this
    survivor in its last turns.
    """
    history = formatter.history
    for other, name in enumerate(formatter.names):
        if cells and other != warrior and history.death(other) is None:
            count = len(cells.intersection(last_executed(history, other)["address"].tolist()))
            yield f"In its last turns, {name} executed {count or 'none'} of the cells written."


def summarize_last_turns(history: History, sources: Sources, names: Sequence[str], warrior: int) -> str:
    """Returns in short what a survivor executed last: the lines of cells that still are as they were loaded or in which
    the survivor changed only numbers, and the warriors that wrote the other cells. Names are in the order of turns.
    """
    last = last_executed(history, warrior)
    counts = Counter(what_executed(sources, warrior, last))
    often = [what for what, count in counts.items() if count >= MIN_SHARE * len(last)]
    lines = [(what.warrior, what.number) for what in often if isinstance(what, Line)]
    parts = []
    for owner in sorted({owner for owner, _ in lines}, key=lambda owner: owner != warrior):
        numbers = {number for one, number in lines if one == owner}
        parts.append(("" if owner == warrior else f"{names[owner]}'s ") + ranges(numbers))
    writers_often = [what for what in often if isinstance(what, int)]
    for writer in sorted(writers_often, key=lambda one: (one != warrior, names[one])):
        parts.append(f"cells that {'it' if writer == warrior else names[writer]} wrote")
    return ", ".join(parts + ["cells without a line"] * (None in often))


def what_executed(sources: Sources, warrior: int, turns: Records) -> Iterator[int | Line | None]:
    """Yields for each of these turns of a warrior the line of the cell that it executed, None if the cell has no line,
    or the number of the warrior that wrote the cell. Turns that executed a cell that an edit changed are left out.
    """
    for address, (writer, changed, origin) in zip(turns["address"].tolist(), turns["past"].tolist()):
        # A warrior that changes numbers of its own code still executes the same line.
        if not changed or (writer == warrior and origin == address):
            yield sources.lines.get(address)
        elif writer != BY_HAND:
            yield writer


def ranges(numbers: set[int]) -> str:
    """Returns the numbers of lines, as in `line 3` and `lines 8-10, 12`."""
    parts: list[list[int]] = []
    for number in sorted(numbers):
        if parts and parts[-1][-1] == number - 1:
            parts[-1].append(number)
        else:
            parts.append([number])
    text = ", ".join(f"{part[0]}-{part[-1]}" if len(part) > 1 else str(part[0]) for part in parts)
    return f"line{'' if len(numbers) == 1 else 's'} {text}"
