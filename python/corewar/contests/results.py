"""Stores results of matches in an SQLite file, so that no match is run twice.

A match is identified by its settings and by the digests of the cells and starts of its warriors, in their order, since
its results depend only on these. Results wait until a second has passed since the last write, and are then written
together, so a process that is killed loses only the latest ones. Several processes may use one file.
"""
from __future__ import annotations

import os
import sqlite3
import sys
import time
from collections.abc import Callable, Iterator
from contextlib import contextmanager
from dataclasses import dataclass
from typing import TYPE_CHECKING, Any, TypeVar

from ..model.types import Indices
from ..model.errors import CorewarError
from ..model.printing import printable

if TYPE_CHECKING:
    # These are stored in tables.
    from .matches import Schedule

# In seconds: how long another process may lock the file, how long one attempt takes, during which Ctrl-C waits, and the
# least time between two writes.
LOCK_SECONDS = 60
TRY_SECONDS = 0.25
WRITE_SECONDS = 1

Done = TypeVar("Done")


@dataclass(frozen=True)
class Table:
    """The table of a kind of matches: its name, the digests by which a match is found, and its results with their
    type.
    """

    name: str
    digests: tuple[str, ...]
    results: tuple[str, ...]
    type: str

    @property
    def create(self) -> str:
        columns = [*(f"{one} BLOB" for one in self.digests), *(f"{one} {self.type} NOT NULL" for one in self.results)]
        head = f"CREATE TABLE IF NOT EXISTS {self.name} (contest TEXT, {', '.join(columns)}"
        return f"{head}, PRIMARY KEY (contest, {', '.join(self.digests)})) STRICT, WITHOUT ROWID"

    @property
    def find(self) -> str:
        return f"SELECT {', '.join([*self.digests, *self.results])} FROM {self.name} WHERE contest = ?"

    @property
    def keep(self) -> str:
        return f"INSERT OR IGNORE INTO {self.name} VALUES (?{', ?' * len([*self.digests, *self.results])})"


class Results:
    """The stored results of some matches. Waiting results are written at the end. Raises CorewarError for errors of the
    file.
    """

    def __init__(self, path: str, matches: Schedule) -> None:
        self.path, self.matches, self.contest = path, matches, matches.contest.key
        self.new: list[tuple[Any, ...]] = []
        self.written = time.monotonic()
        with self.file_errors():
            # Some names do not mean a file to SQLite; an absolute path always does.
            self.file = sqlite3.connect(os.path.abspath(path), timeout=TRY_SECONDS)
            self.retry_while_locked(lambda: self.file.execute(matches.TABLE.create))

    def __enter__(self) -> Results:
        return self

    def __exit__(self, *_: object) -> None:
        self.write()
        self.file.close()

    @contextmanager
    def file_errors(self) -> Iterator[None]:
        """Raises a CorewarError that names the file in place of an error of SQLite."""
        try:
            yield
        except sqlite3.Error as fault:
            raise CorewarError(f"{self.path}: {fault}") from None

    def find(self) -> int:
        """Fills in the stored results. Returns how many matches are stored only in the other order of warriors."""
        with self.file_errors():
            try:
                stored = self.retry_while_locked(lambda: self.file.execute(self.matches.TABLE.find, [self.contest]))
                return self.matches.take_stored(stored)
            except CorewarError as fault:
                raise CorewarError(f"{self.path}: invalid result: {fault}") from None

    def keep(self, rows: Indices) -> None:
        """Adds the results of some rows to those that wait; writes all if the last write was a second ago or more."""
        self.new += ((self.contest, *one) for one in self.matches.stored(rows))
        if time.monotonic() - self.written >= WRITE_SECONDS:
            self.write()

    def write(self) -> None:
        """Writes the waiting results."""
        with self.file_errors():
            self.retry_while_locked(self._insert)
        self.new, self.written = [], time.monotonic()

    def _insert(self) -> None:
        with self.file:
            self.file.executemany(self.matches.TABLE.keep, self.new)

    def retry_while_locked(self, function: Callable[[], Done]) -> Done:
        """Returns the result of a function. It is called again while another process has locked the file, for up to
        LOCK_SECONDS.
        """
        end, is_shown = time.monotonic() + LOCK_SECONDS, False
        while True:
            try:
                return function()
            except sqlite3.OperationalError as fault:
                # The lowest byte of an extended error code is the error itself.
                if fault.sqlite_errorcode & 255 != sqlite3.SQLITE_BUSY or time.monotonic() > end:
                    raise
            if not is_shown:
                print(f"corewar: {printable(self.path)} is locked by another process; waiting", file=sys.stderr)
            is_shown = True
