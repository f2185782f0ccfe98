"""The prompt: completion, a history of lines, colours, and a bar with the state of the battle. Without a terminal,
lines are read as they come, and output is plain.
"""
from __future__ import annotations

import os
import sys
from collections.abc import Callable, Iterable
from pathlib import Path
from shutil import get_terminal_size
from typing import TextIO

from prompt_toolkit import PromptSession
from prompt_toolkit.auto_suggest import AutoSuggestFromHistory
from prompt_toolkit.formatted_text import ANSI
from prompt_toolkit.history import FileHistory, InMemoryHistory
from prompt_toolkit.lexers import PygmentsLexer
from pygments.lexers.esoteric import RedcodeLexer

from ..analysis.formatting import paint
from ..engine.sources import read_file
from ..model.errors import CorewarError
from ..model.printing import lines_for, printable
from .commands import QuitDebugger, execute, find_command, split_line
from .completion import CommandCompleter, command_of
from .session import Session

# How deep `source` may be nested.
MAX_DEPTH = 8


def as_utf8(line: str) -> str:
    """Returns a line with `?` for each byte that was typed and is not UTF-8."""
    return line.encode("utf-8", "replace").decode()


class LineHistory(FileHistory):
    """The history of lines in a file. A line that cannot be written is lost, and the debugger continues."""

    def store_string(self, string: str) -> None:
        try:
            super().store_string(as_utf8(string))
        except OSError:
            pass


class Runner:
    """Executes lines: commands of the debugger, and `source FILE` and `log FILE`, which read and write lines."""

    def __init__(self, session: Session, show: Callable[[str], None]) -> None:
        self.session, self.show = session, show
        self.log: TextIO | None = None
        self.depth, self.has_failed = 0, False

    def execute_line(self, line: str) -> None:
        """Executes a line and shows the result. Raises QuitDebugger."""
        word, file = split_line(line)
        try:
            name = find_command(word).name if word else ""
            if name == "log":
                self.start_log(file)
            elif name == "source":
                self.execute_file(file)
            elif name:
                self.show("\n".join(execute(self.session, line)))
                self.log_line(line.strip())
        except CorewarError as fault:
            self.has_failed = True
            self.show("\n".join(map(printable, str(fault).split("\n"))))

    def start_log(self, file: str) -> None:
        """Begins to log executed lines to a new file, which `source` can execute again; without a name, logging stops.
        Raises CorewarError.
        """
        log, self.log = self.log, None
        if log:
            log.close()
        try:
            self.log = open(file, "x", encoding="utf-8") if file else None
        except (OSError, ValueError) as fault:
            raise CorewarError(f"{file}: {fault.strerror if isinstance(fault, OSError) else fault}") from None

    def log_line(self, line: str) -> None:
        """Logs a line that was executed. If that fails, the log is closed."""
        if self.log is None:
            return
        try:
            print(line, file=self.log, flush=True)
        except OSError as fault:
            name, self.log = self.log.name, None
            raise CorewarError(f"{name}: {fault.strerror}") from None

    def execute_file(self, file: str) -> None:
        """Executes the lines of a file, which may contain `source` again."""
        if not file:
            raise CorewarError("expected the name of a file")
        if self.depth == MAX_DEPTH:
            raise CorewarError(f"{file}: `source` is nested more than {MAX_DEPTH} deep")
        self.depth += 1
        try:
            # The whole file is read first: it may be the log, which grows.
            for line in read_file(file).decode("utf-8", "replace").splitlines():
                self.execute_line(line)
        finally:
            self.depth -= 1


def run_lines(session: Session, lines: Iterable[str]) -> int:
    """Executes lines that do not come from a terminal. An empty line does nothing. Returns the exit status."""
    runner = Runner(session, lambda text: print(text, flush=True))
    try:
        for line in lines:
            runner.execute_line(line)
    except QuitDebugger:
        pass
    return int(runner.has_failed)


def state_file() -> Path | None:
    """Returns the file with the history of lines, or None if it cannot be written."""
    try:
        folder = Path(os.environ.get("XDG_STATE_HOME") or Path.home() / ".local" / "state") / "corewar"
        folder.mkdir(parents=True, exist_ok=True)
        (folder / "debug").touch()
    except (OSError, RuntimeError):
        return None
    return folder / "debug" if (folder / "debug").is_file() else None


def run_prompt(session: Session, coloured: bool) -> None:
    """Reads lines at a prompt until the user quits."""
    session.paint = paint if coloured else session.paint
    session.width = lambda: get_terminal_size().columns
    # Each text replaces the one before it in the same line of the terminal.
    session.tell = lambda text: print(f"\r\x1b[K{text}", end="", flush=True)

    def show(text: str) -> None:
        session.tell("")
        print(lines_for(sys.stdout, text.split("\n")), flush=True)

    file = state_file()
    prompt: PromptSession[str] = PromptSession(
        history=LineHistory(str(file)) if file else InMemoryHistory(),
        completer=CommandCompleter(session),
        complete_while_typing=True,
        lexer=PygmentsLexer(RedcodeLexer) if coloured else None,
        auto_suggest=AutoSuggestFromHistory(),
        bottom_toolbar=lambda: ANSI(status_bar(session)),
    )
    runner, last = Runner(session, show), ""
    while True:
        try:
            line = as_utf8(prompt.prompt(f"turn {session.turn}> ")).strip() or last
            runner.execute_line(line)
            command = command_of(line)
            last = line if command and command.repeats else ""
        except KeyboardInterrupt:
            session.tell("")
        except (EOFError, QuitDebugger):
            return


def status_bar(session: Session) -> str:
    """Returns the state of the battle in one line."""
    block = session.history.block(session.turn)
    counts = [len(block.queue(number, session.turn)) for number in range(len(session.names))]
    standing = ", ".join(f"{name} {count}" for name, count in zip(session.names, counts))
    return f" turn {session.turn} of {session.history.end}, cycle {block.cycle(session.turn)}; processes: {standing}"


def is_terminal() -> bool:
    return sys.stdin.isatty() and sys.stdout.isatty()
