"""The commands of the debugger by name. The site has them, too: their usage and help are in commands.json."""
from __future__ import annotations

from collections.abc import Iterator
from dataclasses import dataclass
from typing import NoReturn

from ..model.errors import CorewarError

# These modules enter their functions into ACTS when they are imported.
from . import acts, looks  # noqa: F401
from .session import Session
from .table import ACTS, TABLE, command


class QuitDebugger(Exception):
    """The user quits."""


@dataclass(frozen=True)
class Command:
    """A command. If it `repeats`, an empty line after it executes it again."""

    usage: str
    summary: str
    short: list[str]
    repeats: bool = False
    # The summary on the site: "" if it is the same there, or None if the site lacks the command.
    site: str | None = ""

    @property
    def name(self) -> str:
        return self.usage.split()[0]


COMMANDS = {one.name: one for one in (Command(**row) for row in TABLE["commands"])}


def split_line(line: str) -> tuple[str, str]:
    """Returns the first word of a line, and the rest; both are empty if it has none."""
    word, rest = [*line.strip().split(None, 1), "", ""][:2]
    return word, rest


def find_command(word: str) -> Command:
    """Finds a command by its name, a short name, or the first letters of its name. Raises CorewarError."""
    # Short names come before the first letters of others: `s` also begins `show`.
    found = [one for one in COMMANDS.values() if word == one.name or word in one.short]
    found = found or [one for one in COMMANDS.values() if one.name.startswith(word)]
    if len(found) != 1:
        names = ", ".join(one.name for one in found)
        raise CorewarError(
            f"`{word}` can mean {names}" if found else f"unknown command `{word}`; `help` lists all commands"
        )
    return found[0]


@command("help")
def show_help(session: Session, rest: str) -> Iterator[str]:
    for one in [find_command(rest)] if rest else COMMANDS.values():
        short = f" ({', '.join(one.short)})" if one.short else ""
        yield f"{one.usage:29}{one.summary}{short}"
    if not rest or "CONDITION" in find_command(rest).usage:
        yield from TABLE["arguments"]


@command("quit")
def quit_debugger(session: Session, _: str) -> NoReturn:
    raise QuitDebugger


# `Runner` in `prompt` executes these two; here they do nothing, so that every command of the table has an act.
for name in ("source", "log"):
    command(name)(lambda *_: [])


def execute(session: Session, line: str) -> list[str]:
    """Executes the command of a line and returns the lines to show. Raises CorewarError, and QuitDebugger."""
    word, rest = split_line(line)
    # Most commands are generators, which act and raise errors only while their lines are taken.
    return list(ACTS[find_command(word).name](session, rest))
