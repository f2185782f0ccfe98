"""Turns as values, for programs."""
from __future__ import annotations

from dataclasses import dataclass


@dataclass(frozen=True)
class Location:
    """A cell of the core: its address, and its label or ""."""

    address: int
    label: str

    def __str__(self) -> str:
        return f"{self.address} ({self.label})" if self.label else str(self.address)


@dataclass(frozen=True)
class Write:
    """A write of a turn: the cell before it and after it, which may be equal."""

    at: Location
    before: str
    after: str


@dataclass(frozen=True)
class Turn:
    """A turn of a battle.

    - `turn`: its number, from 1
    - `warrior`, `name`: the number and the name of the warrior
    - `at`, `cell`: where it executed an instruction, and the instruction
    - `line`, `source`: the number and the text of the line from which the instruction comes, also as a copy; 0 and ""
      if it comes from no source
    - `reads`: the cells that it read, except the one that it executed and those where its process went
    - `writes`: its writes
    - `processes`: where its process went: one cell, two after a split, or none if it died
    - `text`: the lines that `corewar trace` prints
    """

    turn: int
    warrior: int
    name: str
    at: Location
    cell: str
    line: int
    source: str
    reads: tuple[Location, ...]
    writes: tuple[Write, ...]
    processes: tuple[Location, ...]
    text: str

    def __str__(self) -> str:
        return self.text
