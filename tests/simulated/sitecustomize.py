"""Removes what a system lacks, `windows` or `macos` in the variable SIMULATED, from each Python with this folder on its
path.
Python itself and its libraries are those of Linux: processes can still be forked on `windows`, whose own branches of
`sys.platform` are not taken.
"""
from __future__ import annotations

import builtins
import os
import signal
import sys
from typing import Any

plain_open = builtins.open


def open_without_proc(file: Any, *given: Any, **named: Any) -> Any:
    if isinstance(file, str) and file.startswith("/proc/"):
        raise FileNotFoundError(2, "No such file or directory", file)
    return plain_open(file, *given, **named)


def take_away(module: Any, *names: str) -> None:
    for name in names:
        delattr(module, name)


builtins.open = open_without_proc
take_away(os, "sched_getaffinity", "sched_setaffinity")
if os.environ["SIMULATED"] == "macos":
    sys.platform = "darwin"
else:
    for name in ("resource", "fcntl", "termios", "pwd", "grp", "tty", "pty"):
        sys.modules[name] = None  # type: ignore[assignment]
    take_away(signal, "SIGXCPU", "SIGPIPE", "SIGALRM", "SIGHUP", "SIGPROF", "setitimer", "pthread_sigmask")
