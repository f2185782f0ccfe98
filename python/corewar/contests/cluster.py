"""The workers of a Dask cluster as an executor."""
from __future__ import annotations

import logging
import sys
from collections.abc import Iterator
from concurrent.futures import Executor
from contextlib import contextmanager
from threading import Event, Thread
from typing import Any

from ..model.errors import CorewarError

# In seconds: how long the scheduler may take to answer, and the time between two checks whether it has workers.
CONNECT_SECONDS, CHECK_SECONDS = 10, 5
NO_PACKAGE = (
    f"--scheduler: {sys.executable} cannot import distributed; install Debian's python3-distributed, or with pip "
    "corewar[cluster]"
)


def report_absence(client: Any, end: Event) -> None:
    """Reports each time the scheduler is without workers, until `end` is set."""
    was_without = False
    while True:
        try:
            is_without = not client.nthreads()
        except OSError:
            return
        if is_without and not was_without:
            print("corewar: the scheduler has no workers; waiting for one", file=sys.stderr)
        was_without = is_without
        if end.wait(CHECK_SECONDS):
            return


@contextmanager
def cluster(address: str) -> Iterator[Executor]:
    """Yields the workers of a Dask scheduler as an executor. Matches that they have not run are dropped at the end.
    Raises CorewarError.
    """
    try:
        import distributed
    except ImportError:
        raise CorewarError(NO_PACKAGE) from None
    # Dask logs a traceback for each dropped match; errors that end a league are raised.
    logging.disable()
    try:
        begin: Any = distributed.Client
        client = begin(address, timeout=CONNECT_SECONDS, set_as_default=False)
    except (OSError, ValueError) as fault:
        raise CorewarError(f"--scheduler {address}: {fault}") from None
    end = Event()
    Thread(target=report_absence, args=(client, end), daemon=True).start()
    with client:
        try:
            yield client.get_executor(pure=False)
        finally:
            end.set()
