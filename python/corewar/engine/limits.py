"""Limits of a process's CPU time and memory, as far as its system enforces them."""
from __future__ import annotations

import os
import sys
import threading
import time
from collections.abc import Callable

try:
    import resource
except ImportError:
    # Windows has no such limits.
    resource = None  # type: ignore[assignment]

# The file in which Linux says how much memory a process has; and the number of bytes that is assumed without that file,
# as in a chroot.
STATM, MUCH_MEMORY = "/proc/self/statm", 4_000_000_000
# The exit status of a process that took more than its CPU time, if the system does not end it by a signal.
TOO_LONG = 124
TICK_SECONDS = 0.1


class Clock:
    """Calls a function once the CPU time of this process exceeds `end`, in seconds, but not while `end` is None."""

    def __init__(self, call: Callable[[], object], end: float | None = None) -> None:
        self.call, self.end, self._stopped = call, end, threading.Event()
        threading.Thread(target=self._watch, daemon=True).start()

    def stop(self) -> None:
        self._stopped.set()

    def _watch(self) -> None:
        # This thread also runs during a call of the library, which releases the interpreter lock.
        while not self._stopped.wait(TICK_SECONDS):
            if self.end is not None and time.process_time() > self.end:
                self.end = None
                self.call()


class TimeLimit:
    """The limit of this process's CPU time. A process that takes more is ended by SIGXCPU. If the system has no such
    signal, it exits with the status TOO_LONG.
    """

    def __init__(self) -> None:
        self._clock = None if resource else Clock(lambda: os._exit(TOO_LONG))

    def start(self, seconds: int) -> None:
        """Limits the CPU time from now on to `seconds`, or up to a second more."""
        # The limit of the system is for the whole life of the process, and in whole seconds.
        end = int(time.process_time()) + 1 + seconds
        if self._clock:
            self._clock.end = end
        else:
            lower_limit(resource.RLIMIT_CPU, end)


def limit_memory(megabytes: int) -> None:
    """Limits what this process adds to its memory. Windows has no such limit, and macOS does not enforce it."""
    if resource and sys.platform == "linux":
        lower_limit(resource.RLIMIT_AS, taken_memory() + megabytes * 1_000_000)
        # Without this limit, the system may write a core file of a process that SIGXCPU ends.
        lower_limit(resource.RLIMIT_CORE, 0)


def taken_memory() -> int:
    """Returns the bytes of memory that this process has, or MUCH_MEMORY if the system does not report them."""
    try:
        with open(STATM) as file:
            return int(file.read().split()[0]) * resource.getpagesize()
    except OSError:
        return MUCH_MEMORY


def lower_limit(kind: int, soft: int) -> None:
    """Sets the soft limit of this kind to `soft`, or to the hard limit if that is lower."""
    hard = resource.getrlimit(kind)[1]
    resource.setrlimit(kind, (soft if hard == resource.RLIM_INFINITY else min(soft, hard), hard))
