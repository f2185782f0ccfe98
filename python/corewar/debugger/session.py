"""The session of the debugger: a place in a battle, with undo and redo, breakpoints and futures."""
from __future__ import annotations

import re
from collections.abc import Callable, Sequence
from dataclasses import dataclass, field

from ..analysis.formatting import BattleFormatter
from ..battle.conditions import Joined, search
from ..battle.history import History
from ..battle.labels import Sources
from ..engine.calls import assemble, encode_source
from ..explain.meanings import explain_error
from ..model.types import Cell
from ..model.edits import Edit
from ..model.errors import CorewarError, MarsError
from ..model.settings import whole

# The maximum number of cells that one edit fills, as in the debugger of `mars -e`.
MAX_FILLED_CELLS = 1_000_000
# A label in a line of source, as `bomb` or as `1.bomb`.
LABEL = re.compile(r"(?<![\w.])(?:\d+\.)?[A-Za-z_]\w*")


def without_separators(text: str) -> str:
    """Returns a text in which numbers such as `1,404`, as the site shows them, have no separators."""
    return re.sub(r"\b\d{1,3}(,\d{3})+\b", lambda found: found[0].replace(",", ""), text)


@dataclass
class Session:
    """A place in a history, the places where undo and redo lead, breakpoints, and all futures that edits made. `width`
    returns the columns of the terminal, or 0 without one; `tell` shows how far a command is.
    """

    history: History
    sources: Sources
    paint: Callable[[int, str], str] = lambda _, text: text
    width: Callable[[], int] = lambda: 0
    tell: Callable[[str], None] = lambda _: None
    turn: int = 0
    past: list[tuple[History, int]] = field(default_factory=list)
    undone: list[tuple[History, int]] = field(default_factory=list)
    breakpoints: dict[int, Joined] = field(default_factory=dict)
    futures: list[History] = field(default_factory=list)

    def __post_init__(self) -> None:
        self.futures.append(self.history)

    @property
    def formatter(self) -> BattleFormatter:
        return BattleFormatter(self.history, self.sources, self.paint)

    @property
    def names(self) -> list[str]:
        return self.history.names

    def go(self, turn: int, history: History | None = None) -> None:
        """Goes to a turn of this history or of another one. A move to the same place is not recorded for undo."""
        if (turn, history or self.history) == (self.turn, self.history):
            return
        self.past.append((self.history, self.turn))
        self.undone.clear()
        self.history, self.turn = history or self.history, turn

    def undo(self) -> None:
        """Goes back to where the last move or edit began."""
        if not self.past:
            raise CorewarError("nothing to undo")
        self.undone.append((self.history, self.turn))
        self.history, self.turn = self.past.pop()

    def redo(self) -> None:
        """Goes to where the last undo began."""
        if not self.undone:
            raise CorewarError("nothing to redo")
        self.past.append((self.history, self.turn))
        self.history, self.turn = self.undone.pop()

    def edit(self, edit: Edit) -> None:
        """Edits the battle here. What followed is kept as another future."""
        history = self.history.edited(self.turn, edit)
        self.futures.append(history)
        self.go(self.turn, history)

    @staticmethod
    def edits(history: History) -> list[str]:
        """Returns the edits of a future as text."""
        return [f"after turn {turn}: {edit.text(history.core)}" for turn, edit in history.edits]

    def search(self, conditions: Sequence[Joined], forward: bool) -> Joined:
        """Goes to the next place where one of the conditions holds or, if not `forward`, to the last such place before
        here. Returns the condition that holds. Raises CorewarError if there is no such place or no condition.
        """
        if not conditions:
            raise CorewarError("no breakpoint is set; use `break CONDITION` or add a condition to this command")
        found = search(self.history, conditions, self.turn, forward)
        if found is None:
            raise CorewarError(f"not found {'after' if forward else 'before'} turn {self.turn}")
        self.go(found[0])
        return found[1]

    def number(self, text: str, what: str) -> int:
        found = whole(without_separators(text))
        if found is None:
            raise CorewarError(f"expected {what}, not `{text}`")
        return found

    def address(self, text: str) -> int:
        """Returns the address that a text stands for: a number, a label, or `.` for the cell to execute next, each with
        or without +N or -N. Raises CorewarError for any other text.
        """
        found = re.fullmatch(r"(\.|[\w.]+?)((?:[+-]\d{1,9})*)", without_separators(text))
        base = found[1] if found else ""
        at = self.history.head(self.turn) if base == "." else self.sources.addresses.get(base, whole(base))
        if base == "." and at is None:
            raise CorewarError("`.` is the cell to execute next, but the battle is over; use a number or a label")
        if at is None:
            self.sources.check(base)
        if found is None or at is None or at >= self.history.core:
            raise CorewarError(
                f"`{text}` is not an address: a number below {self.history.core}, a label or `.`, "
                "with or without +N or -N"
            )
        return (at + sum(map(int, re.findall(r"[+-]\d+", found[2])))) % self.history.core

    def warrior(self, text: str) -> int:
        """Returns the number of a warrior, given by its number, name or file. Raises CorewarError if there is none."""
        return self.history.warrior(text)

    def cell(self, address: int, line: str) -> Cell:
        """Returns the cell that a line of source makes at an address, where labels stand for cells of the core. Raises
        CorewarError if the line is not an instruction.
        """
        addresses, words = self.sources.addresses_at(address), LABEL.findall(line)

        def distance(found: re.Match[str]) -> str:
            """Returns a label such as `1.bomb` as its distance, because no name of a source has a point."""
            is_label = "." in found[0] and found[0] in addresses
            return f"({addresses[found[0]] - address})" if is_label else found[0]

        given = [f"{name} EQU ({at - address})" for name, at in addresses.items() if "." not in name and name in words]
        match, source = self.history.match, "\n".join([*given, LABEL.sub(distance, line), ""])
        try:
            warrior = assemble(source, settings=match.settings, rounds=match.rounds, warriors=len(self.names))
        except MarsError as fault:
            for word in words:
                if word not in addresses:
                    self.sources.check(word)
            # The user has typed a single line.
            causes = [re.sub(r"^In line \d+, ", "", cause) for cause in explain_error(fault, encode_source(source))]
            kind = str(fault).partition(": ")[2]
            raise CorewarError(f"`{line}` is not an instruction: {kind}: {' '.join(causes)}") from None
        cell: Cell = warrior.cells[-1].tolist()
        return cell

    def process(self, warrior: int, text: str) -> int:
        """Returns the index of a process that a text names; the next process of the warrior has index 0. Raises
        CorewarError if there is no such process.
        """
        index = self.number(text, "the index of a process")
        count = len(self.history.block(self.turn).queue(warrior, self.turn))
        if index >= count:
            raise CorewarError(f"{self.names[warrior]} has no process {index}; its number of processes is {count}")
        return index
