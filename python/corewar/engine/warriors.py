"""Warriors as values, and their load files."""
from __future__ import annotations

import struct
from collections.abc import Sequence
from dataclasses import dataclass, replace
from functools import cached_property
from operator import index
from pathlib import Path

import numpy as np

from ..model.types import Cell, Cells
from ..model.printing import printable
from ..model.settings import Settings, settings_of
from .binding import MAX_UINT32, ROOM, array, call, clamp, dtype_of, library, read_text, settings_struct, slice_of

# A cell as the library stores it: opcode, modifier, modes and numbers. MAX_CELL has the greatest number that each field
# can store, which is out of its range.
CELL, MAX_CELL = struct.Struct("=4B2I"), (255, 255, 255, 255, MAX_UINT32, MAX_UINT32)
# The sizes of the first buffers: the number of cells, and the number of bytes for their labels.
CELLS, LABELS = 128, 1024


@dataclass(frozen=True, repr=False)
class Warrior:
    """A warrior as a value, which `assemble`, `read` and `Warrior.from_cells` return.

    - `name`, `author`: at most 60 printable characters of ASCII; "Unknown" and "Anonymous" if none are given
    - `data`: its cells as bytes, each a `MarsCell` of the API for C
    - `start`: the index of the cell at which it starts, from 0
    - `core`: the core size for which its cells are; in a core of another size, each number of a cell has the value that
      the load file prints
    - `file`: the name of the file that it was read from, or ""
    - `source`: its source, or None without one
    - `listing`, `labels`: the lines of its cells in the source, each a `MarsLine` of the API for C, and the labels of
      its cells, each with a zero byte after it; `lines` has both

    Equal warriors have equal fields. `len(warrior)` is its number of cells, and `str(warrior)` its load file as text.
    """

    name: str
    author: str
    data: bytes
    start: int
    core: int
    file: str = ""
    source: bytes | None = None
    listing: bytes = b""
    labels: bytes = b""

    @staticmethod
    def from_cells(
        cells: Sequence[Cell | np.void] | Cells,
        start: int = 0,
        *,
        settings: Settings | str = "94nop",
        name: str = "Unknown",
        author: str = "Anonymous",
    ) -> Warrior:
        """Returns the warrior with these cells.

        - `cells`: an array of cells, or the six numbers of each: opcode, modifier, modes and numbers of A and B, as
          `cell_of` returns them; the last two are from 0 to the core size minus 1
        - `start`: the index of the cell at which it starts, from 0
        - `settings`: the parameters of the core, or the name of a hill

        Raises ValueError for a cell that is not six numbers. Their ranges are checked by the calls that use the
        warrior, which raise `MarsError`, such as `warrior 4 Field`.
        """
        return Warrior(name, author, pack_cells(cells), start, settings_of(settings).core)

    @property
    def cells(self) -> Cells:
        """The cells, a read-only array with the fields op, modifier, a_mode, b_mode, a and b."""
        return np.frombuffer(self.data, dtype_of("MarsCell"))

    @cached_property
    def lines(self) -> list[tuple[int, list[str]]]:
        """For each cell the number of its line in the source, from 1, and its labels; empty without a source."""
        rows, labels = np.frombuffer(self.listing, dtype_of("MarsLine")), self.labels.decode("ascii")
        return [(line, labels[begin:end].split("\0")[:-1]) for line, begin, end in rows.tolist()]

    def cells_in(self, core: int) -> bytes:
        """Returns the cells for a core of this size: each number has the value that the load file prints. Raises
        `MarsError`.
        """
        # A core that is too small is rejected by the call that uses the warrior, with the warrior's index.
        if core == self.core or core < len(self):
            return self.data
        return read_load(self.load, Settings(core=core, longest=core, distance=core)).data

    @cached_property
    def load(self) -> bytes:
        """The load file. Raises `MarsError` if a name, the start or a cell is invalid."""
        # The library rejects a name of more than 60 bytes, or with a control character. But a 0 would end the name, and
        # the field has 64 bytes.
        given_names = [name.replace("\0", "\n") for name in (self.name, self.author)]
        names = [name.encode(errors="surrogatepass")[:64] for name in given_names]
        program = library()[0].new("MarsProgram *", [[len(self), clamp(self.start)], *names])
        given = [
            settings_struct(Settings(core=self.core, longest=self.core, distance=self.core)),
            *slice_of("MarsCell", self.data),
        ]
        return read_text(1024, lambda *room: call("mars_write_load", *given, program, *room))

    @property
    def title(self) -> str:
        """The name and the author, as tables show them."""
        return f"{self.called} by {self.author}"

    @property
    def called(self) -> str:
        """The name, or the name of the file if the warrior has none, with `?` for characters that are not printable."""
        return printable(self.file if self.name in ("", "Unknown") and self.file else self.name or "Unknown")

    @property
    def files(self) -> tuple[str, str, str]:
        """The names that stand for its file: as given, without the folder, and without folder and ending."""
        path = Path(self.file)
        return self.file, path.name, path.stem

    def __len__(self) -> int:
        """Returns the number of cells."""
        return len(self.data) // CELL.size

    def __str__(self) -> str:
        return self.load.decode("latin-1")

    def __repr__(self) -> str:
        return f"<Warrior {self.title} of length {len(self)}>"


def pack_cells(cells: Sequence[Cell | np.void] | Cells) -> bytes:
    """Returns cells as bytes. Raises ValueError."""
    if isinstance(cells, np.ndarray) and cells.dtype == dtype_of("MarsCell"):
        return cells.tobytes()
    rows = [cell.tolist() if isinstance(cell, np.void) else cell for cell in cells]
    try:
        return b"".join([CELL.pack(*row) for row in rows])
    except (struct.error, TypeError):
        # Only after an error, values that are not cells and numbers that do not fit are looked for, since evolvers make
        # many cells.
        return b"".join([CELL.pack(*clamp_fields(row)) for row in rows])


def clamp_fields(cell: Cell) -> list[int]:
    """Returns the numbers of a cell, with the one of MAX_CELL, which the library rejects, in place of each that does
    not fit. Raises ValueError.
    """
    try:
        return [clamp(index(one), maximum) for one, maximum in zip(cell, MAX_CELL, strict=True)]
    except (TypeError, ValueError):
        raise ValueError(f"expected the six numbers of a cell, not {cell!r}") from None


def read_load(load: bytes, settings: Settings | str = "94nop", file: str = "") -> Warrior:
    """Returns the warrior of a load file. Raises `MarsError` with the line of an error in it."""
    return replace(program("mars_read_load", settings, 1, [], load), file=file)


def program(call_name: str, settings: Settings | str, rounds: int, more: list[int], data: bytes) -> Warrior:
    """Returns the warrior of a source or a load file, as the call of this name reads it. `more` has the arguments of
    the call between the settings and the data.
    """
    given, (ffi, _), has_lines = settings_of(settings), library(), call_name == "mars_assemble"
    parts = [settings_struct(given, rounds), *more, *slice_of("uint8_t", data)]
    result, length = ffi.new("MarsProgram *"), ffi.new("size_t *")
    cells, lines, labels = array("MarsCell", CELLS), array("MarsLine", CELLS), bytearray(LABELS)

    def read() -> int:
        mapped = (*slice_of("MarsLine", lines), *slice_of("uint8_t", labels), length) if has_lines else ()
        return call(call_name, *parts, *slice_of("MarsCell", cells), result, *mapped)

    if read() == ROOM:
        count = result.warrior.length
        cells, lines, labels = array("MarsCell", count), array("MarsLine", count), bytearray(length[0])
        read()
    name, author = (bytes(field).rstrip(b"\0").decode("ascii") for field in (result.name, result.author))
    count, start = result.warrior.length, result.warrior.start
    found = Warrior(name, author, cells[:count].tobytes(), start, given.core)
    return replace(found, listing=lines[:count].tobytes(), labels=bytes(labels[: length[0]])) if has_lines else found
