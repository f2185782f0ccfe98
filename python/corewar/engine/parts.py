"""Runs a call in parts: here, in threads, or on any executor of `concurrent.futures`, such as one of processes, of Dask
or of MPI. Parts are short, so that Ctrl-C is raised at once and memory is needed only for parts that are under way.
"""
from __future__ import annotations

from collections.abc import Callable, Generator, Iterable, Iterator
from concurrent.futures import CancelledError, Executor, Future, ThreadPoolExecutor
from contextlib import closing
from itertools import islice
from queue import SimpleQueue
from threading import Event
from typing import Any, TypeVar

from ..model.errors import CorewarError
from .binding import library

# The maximum number of turns of a part in this process, which take about a quarter second, and of a part on an executor
# of other processes, where each part costs milliseconds.
TURNS, DISTANT_TURNS = 12_000_000, 50_000_000
# The number of parts that are submitted at a time: for each thread, and to an executor with any number of workers.
PARTS_PER_JOB, SUBMITTED_PARTS = 2, 500

Result = TypeVar("Result")
# A generator of the numbers of parts with their results; closing it ends the parts.
Parts = Generator[tuple[int, Result], None, None]


class Stopped(Exception):
    """A part was stopped because its result is not needed any more."""


class Threads(ThreadPoolExecutor):
    """A pool of threads that raises CorewarError if the system refuses one."""

    def submit(self, *given: Any, **named: Any) -> Future[Any]:
        try:
            return super().submit(*given, **named)
        except RuntimeError as fault:
            raise CorewarError(f"{fault}; use fewer jobs") from None


def versions() -> str:
    """Returns the versions of the package and of the library in this process."""
    from .. import __version__

    return f"corewar {__version__}, library {library()[1].mars_version()}"


def call_there(wanted: str, function: Callable[..., Result], *given: Any) -> Result | CorewarError:
    """Returns the result of a call, or its CorewarError. A process with other versions than `wanted` returns an error
    without the call, because its results may differ, and may be stored for good.
    """
    try:
        if versions() != wanted:
            return CorewarError(f"a worker has {versions()}, but this is {wanted}")
        return function(*given)
    except CorewarError as fault:
        return fault


def result_of(future: Future[Any]) -> Any:
    """Returns the result of a part from an executor. Raises CorewarError."""
    try:
        result = future.result()
    except CancelledError:
        raise CorewarError("the executor has ended before all matches were run") from None
    except CorewarError:
        raise
    except ModuleNotFoundError as fault:
        raise CorewarError(f"this package is not installed on a worker: {fault}") from None
    except Exception as fault:
        # `call_there` returns each CorewarError of the call. So a worker could not load the call, the call has raised
        # another exception, or a part has ended several workers.
        raise CorewarError(f"error on the workers: {' '.join(str(fault).split())}") from None
    if isinstance(result, CorewarError):
        raise result
    return result


def in_order(results: Parts[Result]) -> Iterator[Result]:
    """Yields the results of parts, which may end in any order, in the order of the parts."""
    early, number = dict[int, Result](), 0
    # After an interrupt in the loop, its traceback would keep the generator open and the parts running.
    with closing(results):
        for one, result in results:
            early[one] = result
            while number in early:
                yield early.pop(number)
                number += 1


def run_parts(
    function: Callable[..., Result], parts: Iterable[tuple[Any, ...]], jobs: int = 1, executor: Executor | None = None
) -> Parts[Result]:
    """Calls a function with the arguments of each part, and an event that is set when no result is needed any more.
    Yields the number of each part with its result, as the parts end. Raises CorewarError.

    - `jobs`: the number of threads in this process; if it is 1, the parts run in the calling thread
    - `executor`: runs the parts instead; unless it has threads, they get no event, and a worker must have this version
    """
    stop = Event()
    if executor is None and jobs == 1:
        yield from ((number, function(*part, stop)) for number, part in enumerate(parts))
        return
    pool = Threads(jobs) if executor is None else executor
    is_here = isinstance(pool, ThreadPoolExecutor)
    head: list[Any] = [function] if is_here else [call_there, versions(), function]
    room = PARTS_PER_JOB * jobs if executor is None else SUBMITTED_PARTS
    # `concurrent.futures.wait` would take the locks of all futures each time. Ctrl-C in there would leave some of them
    # taken, and the executor would wait for these.
    left, out, done = enumerate(parts), dict[Future[Any], int](), SimpleQueue[Future[Any]]()
    try:
        while True:
            for number, part in islice(left, room - len(out)):
                future = pool.submit(*head, *part, *[stop] * is_here)
                out[future] = number
                future.add_done_callback(done.put)
            if not out:
                return
            future = done.get()
            yield out.pop(future), future.result() if is_here else result_of(future)
    finally:
        stop.set()
        for future in out:
            future.cancel()
        if executor is None:
            # If no part is under way, the threads end at once. Waiting for them leaves no other thread.
            pool.shutdown(wait=not out, cancel_futures=True)
