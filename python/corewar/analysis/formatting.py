"""Describes turns, cells, queues and warriors in lines of text, with the names of warriors and labels of addresses."""
from __future__ import annotations

from collections import Counter
from collections.abc import Callable, Iterable, Iterator, Sequence

import numpy as np

from ..battle.history import History
from ..battle.labels import Sources
from ..model.types import Cell
from ..model.cells import cell_text
from ..model.printing import COLOUR
from .turns import Location, Turn, Write

# The maximum number of texts of a list that are shown, and of processes of a queue.
MAX_LISTED, MAX_PROCESSES = 8, 20

# The widths of the first columns of a list of cells: the mark, the address, the label and the cell.
COLUMNS = (1, 6, 10, 24)

# The colours of warriors, as a terminal numbers them.
COLOUR_CODES = (91, 94, 92, 93, 95, 96, 31, 34, 32, 33, 35, 36)


def paint(number: int, text: str) -> str:
    """Returns the name of a warrior in the colour of its number."""
    return f"\x1b[{COLOUR_CODES[number % len(COLOUR_CODES)]}m{text}\x1b[0m"


def list_some(texts: Sequence[str]) -> str:
    """Returns the first MAX_LISTED texts, joined by commas, and how many more there are."""
    return ", ".join(texts[:MAX_LISTED]) + (f" and {len(texts) - MAX_LISTED} more" if len(texts) > MAX_LISTED else "")


def join_names(names: Sequence[str]) -> str:
    """Joins names for a sentence."""
    return " and ".join([", ".join(names[:-1]), names[-1]] if len(names) > 1 else names)


def pluralize(count: int, noun: str) -> str:
    """Returns a number with its noun, as in `1 loss` and `2 losses`."""
    return f"{count} {noun}" + ("" if count == 1 else "es" if noun.endswith("s") else "s")


def fitted(rows: Sequence[Sequence[str]], width: int) -> Iterator[str]:
    """Yields rows of cells as lines. If `width` is not 0 and a line would be longer, the columns are as narrow as
    possible, and the last one is cut.
    """
    # A painted name has more letters than it shows.
    lengths = [[len(COLOUR.sub("", text)) for text in row] for row in rows]
    narrow = [max(column) for column in zip(*lengths)]
    sizes = [*COLUMNS, *narrow[len(COLUMNS) : -1]]
    if width and any(sum(sizes) + len(sizes) + row[-1] > width for row in lengths):
        sizes = narrow[:-1]
    room = width - sum(sizes) - len(sizes)
    for row, shown in zip(rows, lengths):
        texts = [text + " " * (size - length) for text, size, length in zip(row, sizes, shown)]
        texts[1] = row[1].rjust(sizes[1])
        source = row[-1] if not width or shown[-1] <= room else f"{row[-1][: room - 2]}.." if room > 2 else ""
        yield " ".join([*texts, source]).rstrip()


class BattleFormatter:
    """Describes turns and cells of a history. `paint` colours the name of a warrior."""

    def __init__(
        self, history: History, sources: Sources, paint: Callable[[int, str], str] = lambda _, text: text
    ) -> None:
        self.history, self.sources = history, sources
        self.names = [paint(number, name) for number, name in enumerate(history.names)]

    def cell(self, cell: Cell | np.void) -> str:
        return cell_text(cell, self.history.core)

    def location(self, address: int) -> Location:
        return Location(int(address), self.sources.labels.get(int(address), ""))

    def where(self, address: int) -> str:
        """Returns an address, with its label if it has one."""
        return str(self.location(address))

    def locations(self, addresses: Iterable[int]) -> str:
        return list_some([self.where(int(address)) for address in addresses])

    def head(self, turn: int) -> str:
        """Describes a turn: its warrior, the address, the instruction that it executed, and the cells that it read."""
        record = self.history.record(turn)
        name, where = self.names[record["warrior"]], self.where(int(record["address"]))
        text = f"turn {turn}: {name} at {where}: {self.cell(self.history.executed(turn))}"
        reads = self.locations(self.reads(turn))
        return f"{text}; reads {reads}" if reads else text

    def reads(self, turn: int) -> list[int]:
        """Returns the cells that a turn read, except the one that it executed and those where its process went."""
        record, reads = self.history.record(turn), self.history.block_of(turn).reads
        known, found = [record["address"], *record["process"][: record["queued"]]], reads.addresses[reads.of(turn)]
        return [address for address in dict.fromkeys(found.tolist()) if address not in known]

    def writes(self, turn: int) -> list[Write]:
        """Returns the writes of a turn, last those that changed nothing."""
        block = self.history.block_of(turn)
        parts = block.changes.addresses, block.changes.before, block.changes.after
        changed = [*zip(*(part[block.changes.of(turn)] for part in parts))]
        same = [(at, block.cell(at, turn), block.cell(at, turn)) for at in block.rewritten(turn)]
        return [Write(self.location(at), self.cell(old), self.cell(new)) for at, old, new in changed + same]

    def changes(self, turn: int) -> list[str]:
        """Describes the writes of a turn, also those that changed nothing."""
        return [
            f"{one.at}: {one.before}" + (f" -> {one.after}" if one.before != one.after else ", as before")
            for one in self.writes(turn)
        ]

    def turn_of(self, turn: int) -> Turn:
        """Returns a turn as a value."""
        record, history = self.history.record(turn), self.history
        address, number = int(record["address"]), int(record["warrior"])
        line = self.sources.line(history, address, turn - 1)
        return Turn(
            turn,
            number,
            history.names[number],
            self.location(address),
            self.cell(history.executed(turn)),
            line.number if line else 0,
            line.text if line else "",
            tuple(map(self.location, self.reads(turn))),
            tuple(self.writes(turn)),
            tuple(map(self.location, record["process"][: record["queued"]])),
            "\n".join(self.lines(turn)),
        )

    def processes_after(self, turn: int) -> str:
        """Describes where the process of a turn went."""
        record = self.history.record(turn)
        queued = record["process"][: record["queued"]]
        if len(queued):
            return "then at " + " and ".join(self.where(int(address)) for address in queued)
        left = len(self.history.block_of(turn).queue(int(record["warrior"]), turn))
        return f"its process dies, {left} left" if left else "the warrior dies"

    def turn(self, turn: int) -> str:
        """Describes a turn in one line: what was executed, which cells changed, and where the process went."""
        return "; ".join([self.head(turn), *self.changes(turn), self.processes_after(turn)])

    def lines(self, turn: int) -> list[str]:
        """Describes a turn, with each write in a line of its own."""
        return [self.head(turn), *(f"    {change}" for change in self.changes(turn))]

    def lines_with_source(self, turn: int) -> list[str]:
        """Describes a turn as `lines` does, and adds the line of source from which its instruction comes, if it is
        known.
        """
        line = self.sources.line(self.history, int(self.history.record(turn)["address"]), turn - 1)
        source = [f"    line {line.number} of {self.names[line.warrior]}: {line.text}"] if line else []
        return [*self.lines(turn), *source]

    def next_turn(self, turn: int) -> str:
        """Describes what the next turn will execute, or how the battle ended."""
        history, address = self.history, self.history.head(turn)
        if address is None:
            return self.ending()
        block = history.block(turn)
        warrior, cell = block.next_warrior(turn), block.cell(address, turn)
        text = f"next: {self.names[warrior]} at {self.where(address)}: {self.cell(cell)}"
        return f"{text}    {self.sources.describe_line(history, address, turn, warrior)}".rstrip()

    def ending(self) -> str:
        """Describes how the battle ended."""
        dead = self.history.ending.deaths["warrior"]
        living = [name for number, name in enumerate(self.names) if number not in dead]
        verb = "survives" if len(living) == 1 else "survive"
        return f"the battle is over: {join_names(living)} {verb}" if living else "the battle is over: no survivors"

    def warrior_states(self, turn: int) -> Iterator[str]:
        """Describes the state of each warrior."""
        for number, name in enumerate(self.names):
            death, start, length = self.history.death(number), *self.history.loaded(number)
            processes = pluralize(len(self.history.block(turn).queue(number, turn)), "process")
            state = processes if death is None or death > turn else f"died in turn {death}"
            yield f"{name}: {state}; {pluralize(length, 'cell')} loaded at {start}"

    def queue(self, turn: int, warrior: int, first: int = 0) -> str:
        """Describes the addresses of at most MAX_PROCESSES processes of a warrior, from the process `first` on."""
        found, end = self.history.block(turn).queue(warrior, turn), first + MAX_PROCESSES
        start, left = f", from process {first} on" if first else "", len(found) - end
        more = f" and {left} more: `queue {warrior} {end}`" if left > 0 else ""
        return f"{self.names[warrior]}{start}: {' '.join(map(str, found[first:end]))}{more}".rstrip()

    def queue_around(self, turn: int, warrior: int, process: int) -> str:
        """Describes the addresses of at most MAX_PROCESSES processes of a warrior around the index of an edited one."""
        others = len(self.history.block(turn).queue(warrior, turn)) - MAX_PROCESSES
        return self.queue(turn, warrior, max(0, min(process - MAX_PROCESSES // 2, others)))

    def cells(self, turn: int, first: int, count: int, width: int = 0) -> Iterator[str]:
        """Describes cells from an address on: `>` before the cell that is executed next, labels, processes, and lines
        of sources. If `width` is not 0 and a row is longer, columns are narrower, and sources are cut.
        """
        history, cells, head = self.history, self.history.block(turn).cells(turn), self.history.head(turn)
        queues = [history.block(turn).queue(number, turn) for number in range(len(self.names))]
        here = Counter((int(at), number) for number, queue in enumerate(queues) for at in queue)
        rows = list[tuple[str, ...]]()
        for address in ((first + offset) % history.core for offset in range(count)):
            mark, label = ">" if address == head else " ", self.sources.labels.get(address, "")
            times = [(number, here[address, number]) for number in range(len(self.names)) if here[address, number]]
            processes, source = self._processes_at(times), self.sources.describe_line(history, address, turn)
            rows.append((mark, str(address), label, self.cell(cells[address]), processes, source))
        yield from fitted(rows, width)

    def _processes_at(self, times: Sequence[tuple[int, int]]) -> str:
        """Returns the names of the warriors with processes at a cell; with ` x N` after a name for N processes, if N >
        1.
        """
        return ", ".join(self.names[number] + (f" x {count}" if count > 1 else "") for number, count in times)
