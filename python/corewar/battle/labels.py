"""Maps the core of a battle to the sources of its warriors: the line of each loaded cell, and its labels."""
from __future__ import annotations

import re
from collections import Counter
from collections.abc import Sequence
from dataclasses import dataclass
from functools import cached_property

from ..model.errors import CorewarError
from ..model.printing import printable
from .history import History


@dataclass(frozen=True)
class Line:
    """The line of a source that a cell comes from: the warrior, the number of the line from 1, and its text without a
    comment.
    """

    warrior: int
    number: int
    text: str

    def __str__(self) -> str:
        return f"{self.number}: {self.text}"

    def owner(self, names: Sequence[str], known: int | None) -> str:
        """Returns the name of its warrior, or "" if that is `known`."""
        return "" if self.warrior == known else names[self.warrior]


class Sources:
    """The lines and labels of the cells where the warriors were loaded, and the lines of cells that were copied from
    there. Load files have neither.
    """

    def __init__(self, history: History) -> None:
        self.lines: dict[int, Line] = {}
        self._labels: list[tuple[int, str, int]] = []
        for number, warrior in enumerate(history.warriors):
            first, _ = history.loaded(number)
            texts = (warrior.source or b"").decode("latin-1").split("\n")
            for place, (line, labels) in enumerate(warrior.lines):
                address = (first + place) % history.core
                # Control characters are whitespace of the language, but a terminal would obey them.
                words = re.findall(r"[^\0- ]+", texts[line - 1].partition(";")[0])
                self.lines[address] = Line(number, line, printable(" ".join(words)))
                self._labels += [(number, label, address) for label in labels]

    def line(self, history: History, address: int, turn: int) -> Line | None:
        """Returns the line from which the instruction at an address was copied, after a turn of a history."""
        return self.lines.get(int(history.pasts(turn)["origin"][address]))

    def describe_line(self, history: History, address: int, turn: int, warrior: int | None = None) -> str:
        """Returns `; ` with the number and the text of the line that `line` returns, or "" if there is none. The name
        of the line's warrior comes first, unless the warrior is `warrior` or, if this is None, was loaded at the
        address.
        """
        line, loaded = self.line(history, address, turn), self.lines.get(address)
        if line is None:
            return ""
        known = warrior if warrior is not None else loaded.warrior if loaded else None
        return f"; {f'{line.owner(history.names, known)} {line}'.lstrip()}"

    @cached_property
    def addresses(self) -> dict[str, int]:
        """The addresses of labels: `0.bomb` for the label of warrior 0, also `bomb` if only one warrior has it."""
        owners = Counter(label for _, label in {(number, label) for number, label, _ in self._labels})
        alone = {label: address for _, label, address in self._labels if owners[label] == 1}
        return {**alone, **{f"{number}.{label}": address for number, label, address in self._labels}}

    def addresses_at(self, address: int) -> dict[str, int]:
        """Returns the addresses of labels for a line of source that is typed for an address. They are `addresses`, but
        the labels of the warrior that was loaded there need no number.
        """
        line = self.lines.get(address)
        own = {label: at for number, label, at in self._labels if line and number == line.warrior}
        return {**self.addresses, **own}

    def check(self, name: str) -> None:
        """Raises CorewarError for a label of several warriors."""
        several = [label for label in self.addresses if name and label.partition(".")[2] == name]
        if len(several) > 1:
            raise CorewarError(f"`{name}` is a label of several warriors; use {' or '.join(several)}")

    @cached_property
    def labels(self) -> dict[int, str]:
        """A label for each address that has one, without the number of the warrior if possible."""
        return {address: label for label, address in reversed(self.addresses.items())}
