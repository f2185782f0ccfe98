"""Completes a line of the debugger with what its command accepts at the cursor, by the usage of the command."""
from __future__ import annotations

import re
from collections.abc import Iterator

from prompt_toolkit.completion import CompleteEvent, Completer, Completion, PathCompleter
from prompt_toolkit.document import Document

from ..explain.words import OPCODES
from ..model.errors import CorewarError
from .commands import COMMANDS, Command, find_command
from .conditions import FOLLOWING, WORDS
from .session import Session

# What an argument can be, each with its meaning; None stands for the names of files.
Choices = dict[str, str] | None


class CommandCompleter(Completer):
    """Completes commands and their arguments."""

    def __init__(self, session: Session) -> None:
        self.session = session

    def get_completions(self, document: Document, event: CompleteEvent) -> Iterator[Completion]:
        begun, choices = self.last_argument(document.text_before_cursor.lstrip())
        if choices is None:
            yield from PathCompleter().get_completions(Document(begun), event)
            return
        for text, meaning in choices.items():
            # A label of several warriors is offered with their numbers, as in `1.bomb`.
            label = text.partition(".")[2]
            if text.lower().startswith(begun.lower()) or begun and label not in choices and label.startswith(begun):
                yield Completion(text, -len(begun), display_meta=meaning)

    def last_argument(self, line: str) -> tuple[str, Choices]:
        """Returns the argument that a line ends with, and what it can be."""
        word, rest = re.match(r"(\S*)\s*(.*)", line).groups()  # type: ignore[union-attr]
        command = command_of(word)
        if line == word or command is None:
            return line, {one.name: one.summary for one in COMMANDS.values()}
        for kind in [part.strip("[]") for part in command.usage.split()[1:]]:
            if kind == "CONDITION":
                return self.condition(rest)
            begun, more = self.split(rest, kind)
            if more is None:
                return begun, self.choices(kind, command)
            if kind == "LINE":
                return re.search(r"[\w.]*$", more)[0], self.addresses()  # type: ignore[index]
            rest = more
        return rest, {}

    def split(self, rest: str, kind: str) -> tuple[str, str | None]:
        """Returns the first argument, and what follows it, or None if nothing does. Names can contain spaces."""
        text, names = rest.lower(), [*map(str.lower, self.session.names)] if "W" in kind else []
        if kind == "FILE" or any(name.startswith(text) for name in names):
            return rest, None
        word = max((name for name in names if text.startswith(f"{name} ")), key=len, default=text.split(" ")[0])
        return rest[: len(word)], rest[len(word) :].lstrip() if len(word) < len(rest) else None

    def condition(self, rest: str) -> tuple[str, Choices]:
        """Returns the last argument of a condition, and what it can be."""
        *before, begun = rest.split(" ")
        # What can come next depends on the last of these words; a condition begins as it does after `and`.
        places = [
            place for place, word in enumerate(before) if word in (*FOLLOWING, *WORDS["cells"], *WORDS["warriors"])
        ]
        last, following = before[places[-1]] if places else "and", dict.fromkeys(FOLLOWING, "")
        after = " ".join([*before[places[-1] + 1 :], begun]) if places else ""
        if last == "and":
            first = dict.fromkeys((*WORDS["cells"], *WORDS["warriors"]), "")
            return begun, first | (following if places else {})
        if last in ("by", "of", *WORDS["warriors"]):
            names = self.warriors()
            return (begun, following) if any(after.startswith(f"{name} ") for name in names) else (after, names)
        if before[-1] != last:
            return begun, following
        if last in ("was", "becomes"):
            return begun, {name.lower(): meaning for name, meaning in OPCODES.items()}
        return begun.rpartition("..")[2], self.addresses() | (following if last in WORDS["cells"] else {})

    def choices(self, kind: str, command: Command) -> Choices:
        """Returns what an argument can be, from the word for it in the usage of its command."""
        numbers = {"delete": self.session.breakpoints, "futures": range(len(self.session.futures))}
        known: dict[str, Choices] = {
            "COMMAND": {one.name: one.summary for one in COMMANDS.values()},
            "FILE": None,
            "LINE": {name.lower(): meaning for name, meaning in OPCODES.items()},
            "N": {str(number): "" for number in numbers.get(command.name, ())},
            "T": {"start": "", "end": ""},
        }
        if command.name == "delete":
            return {**(known["N"] or {}), "all": ""}
        return known.get(kind, self.addresses() if kind in ("A", "B") else self.warriors() if "W" in kind else {})

    def addresses(self) -> dict[str, str]:
        return {label: str(address) for label, address in self.session.sources.addresses.items()}

    def warriors(self) -> dict[str, str]:
        return {name: f"warrior {number}" for number, name in enumerate(self.session.names)}


def command_of(line: str) -> Command | None:
    """Returns the command of a line, or None."""
    try:
        return find_command(line.split()[0])
    except (IndexError, CorewarError):
        return None
