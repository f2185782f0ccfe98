"""Properties of the machine: the toolchain, processors, free memory, and Debian packages."""
from __future__ import annotations

import os
import re
import shutil
import subprocess

# The files with the memory limit and the used memory of a control group, of version 2 and of version 1. Without a limit
# the first file has no number, or a huge one.
GROUPS = [("memory.max", "memory.current"), ("memory/memory.limit_in_bytes", "memory/memory.usage_in_bytes")]


def toolchain() -> str | None:
    """Returns the folder of the Rattle toolchain, which has the guide that `rt doc` prints, or None without `rt`."""
    if not shutil.which("rt"):
        return None
    return os.path.dirname(subprocess.run(["rt", "doc"], capture_output=True, text=True).stdout.strip())


def number_in(name: str, pattern: str = r"(\d+)\s*$") -> int | None:
    """Returns the number that a pattern finds in a file of the system, or None if there is none."""
    try:
        with open(name) as file:
            found = re.search(pattern, file.read())
    except OSError:
        return None
    return int(found[1]) if found else None


def free_memory() -> int:
    """Returns the free memory in bytes, of the machine or of the control group, whichever is less."""
    free = [1024 * (number_in("/proc/meminfo", r"MemAvailable: *(\d+)") or 0)]
    for names in GROUPS:
        limit, used = (number_in(f"/sys/fs/cgroup/{name}") for name in names)
        if limit is not None and used is not None:
            free.append(limit - used)
    return min(free)


def max_parallel(memory: int) -> int:
    """Returns the number of processes, at least one, that have a processor and this much memory, in bytes, each."""
    return max(1, min(len(os.sched_getaffinity(0)), free_memory() // memory))


def is_missing(package: str) -> bool:
    """Returns whether neither the Debian package is installed nor a command of its name exists."""
    if shutil.which(package):
        return False
    words = ["dpkg-query", "--show", "--showformat=${db:Status-Status}", package]
    return not shutil.which(words[0]) or subprocess.run(words, capture_output=True, text=True).stdout != "installed"
