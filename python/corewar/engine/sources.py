"""Reads warriors from files. Sources are assembled in a separate process with limits of time and memory, since a source
of a few lines can take minutes or all memory within the limits of the language.
"""
from __future__ import annotations

import multiprocessing
import os
import signal
import threading
from collections.abc import Callable, Sequence
from dataclasses import dataclass, replace
from multiprocessing.connection import Connection
from typing import Any

from ..model.errors import ASSEMBLY, LOAD, MEMORY, CorewarError, FileError, MarsError
from ..model.machine import FORK
from ..model.settings import MAX_FILE_SIZE, Settings, settings_of
from .binding import library
from .calls import assemble, encode_source
from .limits import TOO_LONG, TimeLimit, limit_memory
from .warriors import Warrior, read_load

# The exit codes of a process that took more than its CPU time.
ENDS_OF_TIME = {TOO_LONG} | ({-signal.SIGXCPU} if hasattr(signal, "SIGXCPU") else set())


@dataclass(frozen=True)
class Limit:
    """The limits for assembling one source: `seconds` of CPU time, and `megabytes` of memory, 1 or more of each. Only
    Linux limits the memory. Raises `CorewarError` for less.
    """

    seconds: int = 10
    megabytes: int = 1000

    def __post_init__(self) -> None:
        if self.seconds < 1 or self.megabytes < 1:
            raise CorewarError(f"expected 1 or more seconds and megabytes, not {self.seconds} and {self.megabytes}")


class Overrun(CorewarError):
    """Reading or assembling a source took more than a limit, or the process that assembles has ended."""


class Terminated(Overrun):
    """The process that assembles was ended by SIGTERM."""


class Assembler:
    """A process that assembles sources within limits, one after the other. It is started for the first source, and
    again after a limit or an exception such as `KeyboardInterrupt` has ended it. After a fork, and for a copy that is
    pickled, each side has a process of its own. `with Assembler() as assembler:` ends it after its block. If the
    program has threads, and on every system except Linux, the process is not forked, but imports the program's main
    module again.

    - `limit`: the limits for each source
    - `is_total`: whether the limit of time is for all sources together
    """

    def __init__(self, limit: Limit = Limit(), is_total: bool = False) -> None:
        self.limit, self.is_total = limit, is_total
        # By the number of the process that asks. With one server after a fork, two processes would read each other's
        # answers from one pipe, and a lock that another thread holds at the fork would stay locked.
        self._servers: dict[int, Server] = {}

    def __enter__(self) -> Assembler:
        return self

    def __exit__(self, *_: object) -> None:
        self.end()

    def __reduce__(self) -> tuple[type[Assembler], tuple[Limit, bool]]:
        return Assembler, (self.limit, self.is_total)

    def end(self) -> None:
        """Ends the process, if there is one, after the source that it assembles. The next source starts another."""
        server = self._server()
        with server.lock:
            server.end()

    def assemble(
        self,
        source: str | bytes,
        *,
        settings: Settings | str = "94nop",
        rounds: int = 1,
        warriors: int = 2,
        file: str | os.PathLike[str] = "",
    ) -> Warrior:
        """Assembles a source as `corewar.assemble` does, and returns the warrior. Raises `MarsError`, and `Overrun` if
        it takes more than a limit. Several threads may call at once.
        """
        data = encode_source(source)
        given = {"settings": settings_of(settings), "rounds": rounds, "warriors": warriors}
        server = self._server()
        with server.lock:
            try:
                result = server.ask(data, given)
            except Terminated:
                # The process may have ended for another reason than this source: Python ends the children of a process
                # also when a fork of it ends.
                result = server.ask(data, given)
        if isinstance(result, Warrior):
            return replace(result, file=os.fsdecode(file), source=data)
        if isinstance(result, MarsError) and result.code == MEMORY:
            raise Overrun(f"assembling takes more than {self.limit.megabytes} MB of memory")
        raise result

    def read(
        self,
        path: str | os.PathLike[str],
        *,
        settings: Settings | str = "94nop",
        rounds: int = 1,
        warriors: int = 2,
    ) -> Warrior:
        """Reads a warrior from a file as `corewar.read` does, and returns it. Raises `FileError`, also if the source
        takes more than a limit, and `MarsError` if the settings are invalid.
        """
        return read_warrior(self.assemble, os.fsdecode(path), settings_of(settings), rounds, warriors)

    def _server(self) -> Server:
        return self._servers.setdefault(os.getpid(), Server(self.limit, self.is_total))


class Server:
    """The process of an `Assembler`, if there is one, and the pipe to it. Each caller takes the lock first."""

    def __init__(self, limit: Limit, is_total: bool) -> None:
        self.limit, self.is_total, self.lock = limit, is_total, threading.Lock()
        self._running: tuple[Any, Connection] | None = None
        self._is_spent = False

    def ask(self, source: bytes, given: dict[str, Any]) -> Warrior | Exception:
        """Returns the answer of the process for a source, which is a warrior or an error. Raises Overrun."""
        if self._is_spent:
            raise self._overrun(TOO_LONG)
        process, pipe = self._running or self._begin()
        # Whatever interrupts this call, a process whose answer may be left in the pipe is not used again.
        self._running = None
        try:
            pipe.send((source, given))
            result: Warrior | Exception = pipe.recv()
        except (EOFError, OSError):
            pipe.close()
            process.join()
            raise self._overrun(process.exitcode) from None
        except BaseException:
            # Also after Ctrl-C the answer would still come.
            stop(process, pipe)
            raise
        self._running = process, pipe
        return result

    def end(self) -> None:
        running, self._running = self._running, None
        if running:
            stop(*running)

    def _begin(self) -> tuple[Any, Connection]:
        # A missing library is reported by this call, and not by the process.
        library()
        # A process with threads is not forked, since the new process calls the library.
        way = FORK if threading.active_count() == 1 else "spawn"
        context: Any = multiprocessing.get_context(way)
        ours, theirs = context.Pipe()
        # A forked process also has our end of the pipe. Until it closes that end, it cannot notice that we have ended.
        args = (theirs, self.limit, self.is_total, ours if way == "fork" else None)
        process = context.Process(target=serve, args=args, daemon=True)
        # The workers of a `multiprocessing.Pool` may start no process that could outlive them. The assembler does not.
        current = multiprocessing.current_process()
        is_daemon = current.daemon
        try:
            if is_daemon:
                current.daemon = False
            process.start()
        except OSError as fault:
            raise CorewarError(f"cannot start the assembler: {fault.strerror}") from None
        finally:
            if is_daemon:
                current.daemon = True
        theirs.close()
        return process, ours

    def _overrun(self, code: int) -> Overrun:
        """Returns the error for a process that has ended with this exit code."""
        if code in ENDS_OF_TIME:
            self._is_spent = self.is_total
            return Overrun(f"assembling takes more than {self.limit.seconds} s of CPU time")
        kind = Terminated if code == -signal.SIGTERM else Overrun
        return kind(f"the assembler was ended by signal {-code}" if code < 0 else "the assembler has failed")


def stop(process: Any, pipe: Connection) -> None:
    pipe.close()
    process.kill()
    process.join()


def serve(pipe: Connection, limit: Limit, is_total: bool, other: Connection | None) -> None:
    """Assembles the sources from a pipe until its other end is closed. `other` is that end if this process has it too,
    by a fork.
    """
    if other is not None:
        other.close()
    # Ctrl-C reaches all processes of a terminal. The process that asks decides what it ends, and closes the pipe.
    signal.signal(signal.SIGINT, signal.SIG_IGN)
    threading.Thread(target=end_with_parent, daemon=True).start()
    # The limit is for what a source adds to the memory that the process has at its start.
    limit_memory(limit.megabytes)
    time_limit, is_limited = TimeLimit(), False
    while True:
        try:
            given = pipe.recv()
        except (EOFError, OSError):
            return
        if not (is_limited and is_total):
            time_limit.start(limit.seconds)
            is_limited = True
        try:
            pipe.send(assemble_or_error(*given))
        except BrokenPipeError:
            return


def end_with_parent() -> None:
    """Ends this process once the one that started it has ended, also in the middle of a source."""
    parent = multiprocessing.parent_process()
    if parent is not None:
        parent.join()
        os._exit(1)


def assemble_or_error(source: bytes, given: dict[str, Any]) -> Warrior | Exception:
    """Returns the warrior of a source, with None as its source, or the error of assembling it."""
    try:
        return replace(assemble(source, **given), source=None)
    except (CorewarError, TypeError) as fault:
        return fault
    except MemoryError:
        return MarsError(MEMORY)


def read_file(path: str) -> bytes:
    """Returns the content of a file or a pipe, or of standard input for `-`. Raises FileError, also if the content is
    larger than MAX_FILE_SIZE.
    """
    try:
        with open(0 if path == "-" else path, "rb", closefd=path != "-") as file:
            text = file.read(MAX_FILE_SIZE + 1)
    except (OSError, ValueError) as fault:
        raise FileError(path, (getattr(fault, "strerror", "") or "cannot read") + advice_on(path)) from None
    if len(text) > MAX_FILE_SIZE:
        raise FileError(path, "too large")
    return text


def advice_on(path: str) -> str:
    """Returns what to give in place of a name that cannot be read, or "" if that is unknown."""
    if os.path.isdir(path):
        return "; expected a file"
    meant = next((path + ending for ending in (".red", ".load") if os.path.isfile(path + ending)), "")
    return f"; did you mean `{meant}`?" if meant else ""


def read_warrior(
    assemble: Callable[..., Warrior], path: str, settings: Settings, rounds: int = 1, warriors: int = 2
) -> Warrior:
    """Returns the warrior of a file: of a load file if its name ends in .load, otherwise of a source. Raises FileError,
    and `MarsError` if the settings are invalid.
    """
    text = read_file(path)
    try:
        if path.endswith(".load"):
            return read_load(text, settings, path)
        return assemble(text, settings=settings, rounds=rounds, warriors=warriors, file=path)
    except Overrun as overrun:
        raise FileError(path, str(overrun), text) from None
    except MarsError as fault:
        if fault.code in (ASSEMBLY, LOAD):
            raise FileError(path, fault, text) from None
        raise


def read_warriors(
    paths: Sequence[str],
    settings: Settings = Settings(),
    rounds: int = 1,
    limit: Limit = Limit(),
    warriors: int | None = None,
) -> tuple[Warrior, ...]:
    """Returns the warriors of files. WARRIORS is the number of files, or `warriors` if given. Raises FileError, and
    `MarsError` if the settings are invalid.
    """
    with Assembler(limit) as assembler:
        count = len(paths) if warriors is None else warriors
        return tuple(read_warrior(assembler.assemble, path, settings, rounds, count) for path in paths)


def read(
    path: str | os.PathLike[str], *, settings: Settings | str = "94nop", rounds: int = 1, warriors: int = 2
) -> Warrior:
    """Reads a warrior from a file: a load file if the name ends in .load, otherwise a source.

    - `path`: the name of the file, or `-` for standard input; it has at most 1,048,576 bytes
    - `settings`, `rounds`, `warriors`: as for `assemble`

    Raises `FileError` if the file cannot be read or has an error, and `MarsError` if the settings are invalid. There is
    no limit of time and memory: use the `read` of an `Assembler` for sources of strangers.
    """
    return read_warrior(assemble, os.fsdecode(path), settings_of(settings), rounds, warriors)
