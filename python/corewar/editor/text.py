"""A source as it is written: how it looks, and what the assembler makes of it. Each is computed once."""
from __future__ import annotations

import re
from bisect import bisect_left
from collections.abc import Callable
from dataclasses import dataclass
from functools import cached_property
from itertools import zip_longest

from ..explain.errors import errors_of, kind_of, wrong_word
from ..explain.sentences import Advice
from ..explain.source import Place, Source, place_of, read_source
from ..model.cells import cell_text
from ..model.errors import CorewarError
from ..model.settings import HILLS, MAX_FILE_SIZE, Settings
from ..engine.warriors import Warrior
from .names import Names, Token

# A comment that names a hill.
HILL = re.compile(r"^[^\S\n]*;redcode-(\w+)", re.I | re.M)
WIDE = re.compile("[\U00010000-\U0010ffff]")
FIELDS = re.compile(r"DAT\.F #(-?\d+), #(-?\d+)")
# The numbers of expressions are below this.
MAX_WEIGHT = 2**63
Range = dict[str, dict[str, int]]
# Each cell with its index, by the number of its line.
Cells = dict[int, list[tuple[int, str]]]


@dataclass
class Error:
    """An error of a source: its text and explanation, the number of the line to correct, or 0, and the place that the
    library reports, or None.
    """

    kind: str
    sentences: list[str]
    number: int = 0
    place: Place | None = None

    @property
    def advice(self) -> Advice | None:
        """The first sentence that has a word to correct."""
        return next((one for one in self.sentences if isinstance(one, Advice)), None)


class Text:
    """The text of a source. A comment such as `;redcode-tiny` selects the settings of that hill.

    Lines count from 1 and columns from 0, in characters. Positions of the protocol count both from 0, in UTF-16 units.

    - `refused`: why a text is not read, which is then its only error, or "" if it is read
    """

    def __init__(self, text: str, assemble: Callable[..., Warrior], settings: Settings, refused: str = "") -> None:
        self.data = text.encode("utf-8", "replace")
        self.refused = refused or (f"larger than {MAX_FILE_SIZE:,} bytes" if len(self.data) > MAX_FILE_SIZE else "")
        if self.refused:
            text, self.data = "", b""
        hill = HILL.search(text)
        self.settings = HILLS.get(hill[1].lower(), settings) if hill else settings
        self.source: Source = read_source(self.data)
        self._assemble = assemble
        # For each line, the columns of the characters that have two units.
        self._wide: dict[int, list[int]] = {}

    @cached_property
    def names(self) -> Names:
        return Names(self.source)

    def line(self, number: int) -> str:
        """Returns the text of a line, or "" if there is no such line."""
        return self.source.lines[number - 1].text if 0 < number <= len(self.source.lines) else ""

    def line_and_column(self, position: dict[str, int]) -> tuple[int, int]:
        """Returns the line and the column of a position."""
        number = position["line"] + 1
        before = self.line(number).encode("utf-16-le")[: 2 * position["character"]]
        return number, len(before.decode("utf-16-le", "ignore"))

    def span(self, number: int, first: int, last: int) -> Range:
        """Returns the part of a line between two columns, as the protocol has it."""
        if number not in self._wide:
            self._wide[number] = [found.start() for found in WIDE.finditer(self.line(number))]
        units = [column + bisect_left(self._wide[number], column) for column in (first, last)]
        start, end = ({"line": max(number - 1, 0), "character": one} for one in units)
        return {"start": start, "end": end}

    def range_of(self, token: Token) -> Range:
        return self.span(token.number, token.first, token.last)

    def code_range(self, number: int) -> Range:
        """Returns the range of the code of a line, or of its comment if it has no code."""
        text = self.line(number)
        code = text.partition(";")[0].rstrip() or text
        return self.span(number, len(code) - len(code.lstrip()), len(code))

    def load(self, data: bytes) -> Warrior:
        """Returns the warrior of a source with the settings of this one. Raises CorewarError."""
        return self._assemble(data, settings=self.settings)

    def cells_of(self, data: bytes) -> Cells:
        """Returns the cells of a source with the settings of this one, or nothing if it has an error."""
        try:
            warrior = self.load(data)
        except CorewarError:
            return {}
        found: Cells = {}
        for index, ((number, _), cell) in enumerate(zip(warrior.lines, warrior.cells)):
            found.setdefault(number, []).append((index, cell_text(cell, self.settings.core)))
        return found

    @cached_property
    def cells(self) -> Cells:
        return self.cells_of(self.data)

    @cached_property
    def errors(self) -> list[Error]:
        if self.refused:
            return [Error(self.refused, [])]
        found: list[Error] = []
        try:
            for fault, sentences in errors_of(self.data, self.load):
                error = Error(kind_of(fault), sentences, place=place_of(self.data, fault.begin, fault.end))
                error.number = error.advice.line if error.advice and error.advice.line else fault.line
                found.append(error)
        except CorewarError as refused:
            found.append(Error(str(refused), []))
        return found

    def word_range(self, error: Error) -> Range | None:
        """Returns the range of the word that is to be corrected, or None if there is no such word."""
        word, _, column = wrong_word(error.number, self.line(error.number), error.sentences, error.place)
        return self.span(error.number, column, column + len(word)) if word else None

    def error_range(self, error: Error) -> Range:
        """Returns the range of the word to correct, or else of the code of the line."""
        return self.word_range(error) or self.code_range(error.number)

    def values(self, number: int, expression: str) -> list[int]:
        """Returns the value of an expression in each cell of a line, or nothing if it has none there.

        The assembler computes the value: a DAT in place of the instruction holds two of its digits, in a base whose
        digits fit into a cell.
        """
        base = (self.settings.core + 1) // 2
        weights = [base**power for power in range(64) if base > 1 and base**power < MAX_WEIGHT]
        found = [0] * len(self.cells.get(number, []))
        for pair in zip_longest(weights[::2], weights[1::2], fillvalue=0) if found else []:
            digits = self._probe(number, [f"({expression})/{weight}%{base}" if weight else "0" for weight in pair])
            if len(digits) != len(found):
                return []
            found = [value + pair[0] * a + pair[1] * b for value, (a, b) in zip(found, digits)]
        return found if weights else []

    def _probe(self, number: int, expressions: list[str]) -> list[tuple[int, int]]:
        """Returns the values of two expressions in each cell of a line."""
        lines = self.data.split(b"\n")
        probe = [*self.source.lines[number - 1].labels, "DAT.F", "#" + ", #".join(expressions)]
        lines[number - 1] = " ".join(probe).encode("utf-8", "replace")
        probed = self.cells_of(b"\n".join(lines)).get(number, [])
        return [(int(one[1]), int(one[2])) for one in (FIELDS.fullmatch(cell) for _, cell in probed) if one]
