"""What measurements share: runs with their times and memory, counts by valgrind, pMARS, and warriors."""
from __future__ import annotations

import os
import re
import shutil
import subprocess
import tempfile
import time
from collections.abc import Callable, Sequence
from dataclasses import dataclass

from program import TOP

EXAMPLES = os.path.join(TOP, "examples")
# The program of `turns`, whose warriors are constants. `rt` accepts no file that ends in .rt outside of crates/.
RACE = os.path.join(os.path.dirname(os.path.abspath(__file__)), "race.rattle")


@dataclass
class Run:
    """A run of a program: how it ended, its seconds, its CPU seconds, and the peak of its memory in bytes."""

    status: int
    output: bytes
    errors: bytes
    seconds: float
    cpu: float
    peak: int


def run(command: Sequence[str], input: str = "", bound: Callable[[], None] | None = None) -> Run:
    """Runs a program with standard input; `bound` sets its limits."""
    streams = [tempfile.TemporaryFile() for _ in range(3)]
    streams[0].write(input.encode())
    streams[0].seek(0)
    start = time.perf_counter()
    child = subprocess.Popen(command, stdin=streams[0], stdout=streams[1], stderr=streams[2], preexec_fn=bound)
    # The peak memory that `resource.getrusage` has for children is the maximum over all of them.
    _, status, usage = os.wait4(child.pid, 0)
    seconds = time.perf_counter() - start
    child.returncode = os.waitstatus_to_exitcode(status)
    for stream in streams:
        stream.seek(0)
    output, errors = streams[1].read(), streams[2].read()
    for stream in streams:
        stream.close()
    cpu = usage.ru_utime + usage.ru_stime
    return Run(child.returncode, output, errors, seconds, cpu, usage.ru_maxrss * 1024)


def run_well(command: Sequence[str], input: str = "") -> Run:
    """Runs a program that has to succeed."""
    done = run(command, input)
    if done.status:
        raise subprocess.CalledProcessError(done.status, command[0], stderr=done.errors)
    return done


def count(command: Sequence[str], pattern: str, options: Sequence[str], input: str) -> tuple[int, str]:
    """Returns a number that valgrind reports of a run, and the output of the run."""
    done = run_well(["valgrind", *options, *command], input)
    found = re.search(pattern, done.errors.decode())
    assert found, "valgrind reports no such number"
    return int(found[1].replace(",", "")), done.output.decode()


def instructions(command: Sequence[str], input: str = "") -> tuple[int, str]:
    """Returns the machine instructions of a run, and its output."""
    return count(command, r"refs: +([\d,]+)", ["--tool=callgrind", "--callgrind-out-file=/dev/null"], input)


def allocations(command: Sequence[str]) -> int:
    return count(command, r"total heap usage: ([\d,]+) allocs", [], "")[0]


def find_pmars() -> str | None:
    """Returns the `pmars` on the path if it runs without a display, unlike that of Debian's package; otherwise None."""
    found = shutil.which("pmars")
    imp = os.path.join(EXAMPLES, "imp.red")
    return None if found is None or run([found, "-b", imp, imp]).status else found


def warrior(place: str, name: str) -> str:
    """Returns the file of an example. If the name is in capitals, writes that constant of race.rattle to a file in the
    folder `place`, and returns this file.
    """
    if not name.isupper():
        return os.path.join(EXAMPLES, f"{name}.red")
    path = os.path.join(place, f"{name}.load")
    with open(RACE) as source, open(path, "w") as file:
        found = re.search(rf'const {name}: .* = b"(.*)";', source.read())
        assert found, f"race.rattle has no {name}"
        file.write(found[1].replace("\\n", "\n"))
    return path
