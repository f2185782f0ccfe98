"""Reports the progress of a build on standard error, with the remaining time, estimated from the last build."""
from __future__ import annotations

import json
import shutil
import sys
import time
from collections.abc import Iterator

# The maximum time without a line if there is no terminal, in seconds.
SILENCE = 20


def clock(seconds: float) -> str:
    return f"{int(seconds) // 60} min {int(seconds) % 60} s"


class Estimate:
    """When each crate is expected to be proved, in seconds from the start of a build.

    - `path`: the file with the times of the last build
    - `whole`: the time of the last crate if there is no such file; the other crates have none in this case
    """

    def __init__(self, path: str, crates: list[str], whole: float) -> None:
        self.path = path
        try:
            with open(path) as file:
                kept = json.load(file)
            self.due = {crate: float(kept[crate]) for crate in crates}
        except (OSError, ValueError, LookupError, TypeError):
            self.due = {crates[-1]: whole}

    def whole(self) -> float:
        return max(self.due.values())

    def left(self, proved: dict[str, float], seconds: float) -> float:
        """Returns the remaining seconds, at the pace of the crate that was proved last, or slower if another one is
        late.
        """
        paces = [when / self.due[crate] for crate, when in proved.items() if crate in self.due]
        late = [seconds / when for crate, when in self.due.items() if crate not in proved]
        return self.whole() * max([paces[-1] if paces else 1, *late]) - seconds

    def keep(self, proved: dict[str, float]) -> None:
        with open(self.path, "w") as file:
            json.dump(proved, file)


class Progress:
    """Reports the progress of a build: on a terminal in one line that is rewritten every second, otherwise in a line
    for each proved crate, and one with the crates in progress after a while without a line."""

    def __init__(self, count: int, estimate: Estimate | None = None) -> None:
        self.count, self.estimate = count, estimate
        self.proved: dict[str, float] = {}
        self.started = self.printed = time.monotonic()
        self.is_terminal = sys.stderr.isatty()

    def add(self, crate: str) -> None:
        """Reports a crate as proved."""
        self.proved[crate] = time.monotonic() - self.started
        if not self.is_terminal:
            self.print_line(f"mars: proved {crate}, {len(self.proved)} of {self.count} ({clock(self.proved[crate])})")

    def update(self, at_work: list[str]) -> None:
        """Reports the crates in progress, if it is time to."""
        if time.monotonic() - self.printed >= (1 if self.is_terminal else SILENCE):
            seconds = time.monotonic() - self.started
            parts = [
                f"mars: {len(self.proved)} of {self.count} crates proved in {clock(seconds)}",
                *self.time_left(seconds),
            ]
            self.print_line(f"{', '.join(parts)}; proving {' and '.join(at_work)}")

    def time_left(self, seconds: float) -> Iterator[str]:
        left = self.estimate.left(self.proved, seconds) if self.estimate else 0
        if left > 0:
            yield f"about {left / 60:.0f} min left" if left >= 90 else "about a minute left"

    def print_line(self, line: str) -> None:
        """Writes a line, on a terminal over the previous one."""
        self.printed = time.monotonic()
        if self.is_terminal:
            print(f"\r\033[K{line[:shutil.get_terminal_size().columns - 1]}", end="", file=sys.stderr, flush=True)
        else:
            print(line, file=sys.stderr, flush=True)

    def end(self) -> None:
        """Ends the line on a terminal."""
        if self.is_terminal:
            done = (
                f"mars: proved {len(self.proved)} crates in {clock(time.monotonic() - self.started)}\n"
                if len(self.proved) == self.count > 0
                else ""
            )
            print(f"\r\033[K{done}", end="", file=sys.stderr, flush=True)
