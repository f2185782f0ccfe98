"""Shows the progress of matches and contests as a bar, and starts the processes that share their work."""
from __future__ import annotations

import signal
import sys
from collections.abc import Callable, Iterator
from concurrent.futures import Executor, ProcessPoolExecutor
from contextlib import ExitStack, contextmanager
from multiprocessing import get_context

from ..contests.contest import Progress
from ..model.machine import FORK, processors
from .reporting import report

PROCESSORS = processors()
OTHER_ORDER = "{} of {} matches are stored only with the warriors in the other order; those are different matches"


@contextmanager
def progress(total: int, what: str, done: int = 0) -> Iterator[Callable[[int], None]]:
    """Yields a function that reports a number of steps as done. If standard error is a terminal, a bar shows them and
    is removed at the end; otherwise nothing is shown.
    """
    if not sys.stderr.isatty():
        yield lambda count: None
        return
    from rich.console import Console
    from rich.progress import BarColumn, MofNCompleteColumn, Progress as Bar, TimeRemainingColumn

    columns, console = (MofNCompleteColumn(), what, BarColumn(), TimeRemainingColumn()), Console(stderr=True)
    # Ctrl-C is echoed as `^C` at the end of the bar, which would be left there if it had no room.
    console.width -= len("^C")
    with Bar(*columns, console=console, transient=True) as bar:
        task = bar.add_task("", total=total, completed=done)
        yield lambda count: bar.advance(task, count)


class Waiting(ExitStack):
    """Shows the progress of a contest by a bar on a terminal, in units called `what`, each of `scale` matches."""

    def __init__(self, what: str = "matches", scale: int = 1) -> None:
        super().__init__()
        self.what, self.scale, self.state = what, scale, Progress(0, 0)
        self.advance: Callable[[int], None] | None = None

    def __call__(self, state: Progress) -> None:
        if self.advance is None:
            if state.turned:
                report(OTHER_ORDER.format(state.turned, state.total))
            bar = progress(state.total // self.scale, self.what, state.done // self.scale)
            self.advance = self.enter_context(bar)
        else:
            self.advance(state.done // self.scale - self.state.done // self.scale)
        self.state = state


@contextmanager
def processes(count: int) -> Iterator[Executor | None]:
    """Yields an executor for `count` calls, with a process for each processor; or None if the calls are few.

    If it is safe, the processes are forked, so that the library is not loaded again. Ctrl-C is raised only in this
    process.
    """
    if PROCESSORS == 1 or count < 2 * PROCESSORS:
        yield None
        return
    with ProcessPoolExecutor(PROCESSORS, get_context(FORK), signal.signal, (signal.SIGINT, signal.SIG_IGN)) as pool:
        yield pool
