"""A limit of the CPU time that this process itself spends on a source, such as for explanations."""
from __future__ import annotations

import signal
import threading
import time
from collections.abc import Iterator
from contextlib import contextmanager
from typing import NoReturn

from .limits import Clock
from .sources import Limit, Overrun

# Windows has neither this signal nor its timer: a thread takes their place, with a signal that nothing else sends.
SIGNAL = getattr(signal, "SIGPROF", signal.SIGTERM)


class Expired(BaseException):
    """The time is over. It is no `Exception`, so that code that catches the errors of a source does not catch it."""


@contextmanager
def deadline(limit: Limit) -> Iterator[None]:
    """Ends the `with` block with `Overrun` once this process has spent the seconds of a limit there. Only the main
    thread receives signals, so other threads have no limit.
    """
    if threading.current_thread() is not threading.main_thread():
        yield
        return
    old = signal.signal(SIGNAL, expire)
    try:
        with timer(limit.seconds):
            yield
    except Expired:
        raise Overrun(f"reading the source takes more than {limit.seconds} s of CPU time") from None
    finally:
        signal.signal(SIGNAL, old)


@contextmanager
def timer(seconds: int) -> Iterator[None]:
    """Sends SIGNAL to the main thread once this process has spent `seconds` of CPU time in the `with` block."""
    if SIGNAL == signal.SIGTERM:
        clock = Clock(lambda: signal.raise_signal(SIGNAL), time.process_time() + seconds)
        try:
            yield
        finally:
            clock.stop()
        return
    try:
        signal.setitimer(signal.ITIMER_PROF, seconds)
        yield
    finally:
        signal.setitimer(signal.ITIMER_PROF, 0)


def expire(*_: object) -> NoReturn:
    raise Expired
