"""The table of the debugger's commands, which the site reads, too, and their functions."""
from __future__ import annotations

import json
from collections.abc import Callable, Iterable
from importlib.resources import files
from typing import Any

from .session import Session

TABLE: dict[str, Any] = json.loads((files("corewar.debugger") / "commands.json").read_text("ascii"))
# What a command does: it takes the session and the rest of the line, and returns the lines to show.
Act = Callable[[Session, str], Iterable[str]]
ACTS: dict[str, Act] = {}


def command(name: str) -> Callable[[Act], Act]:
    """Enters a function into ACTS as what the command with this name does."""

    def register(act: Act) -> Act:
        ACTS[name] = act
        return act

    return register
