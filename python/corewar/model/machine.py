"""How this system starts processes, and how many processors it offers."""
from __future__ import annotations

import os
import sys

# How a process without threads starts another: on macOS a library of the system may have threads, and Windows cannot
# fork.
FORK = "fork" if sys.platform == "linux" else "spawn"


def processors() -> int:
    """Returns the number of processors that this process may use, or of all if the system does not report that."""
    return len(os.sched_getaffinity(0)) if hasattr(os, "sched_getaffinity") else os.cpu_count() or 1
