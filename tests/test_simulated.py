"""Runs the package without what Windows or macOS lacks, with the same output as on this system."""
from __future__ import annotations

from pathlib import Path

import pytest
from conftest import ENVIRONMENT, TOP, Run
from costly import slow

SIMULATED = TOP / "tests" / "simulated"
# Commands that start processes and threads, count processors, and write a file.
COMMANDS = (
    ("fight", "-r", "10", "@dwarf", "@imp"),
    ("league", "-r", "2", "-o", "table.txt", "@dwarf", "@imp", "@paper"),
    ("study", "-r", "40", "-s", "800", "-c", "2000", "-l", "50", "-d", "50", "@dwarf"),
    ("explain", "broken.red"),
)


@pytest.fixture(params=("windows", "macos"))
def environment(request: pytest.FixtureRequest) -> dict[str, str]:
    """Returns the variables with which the package lacks what a system lacks."""
    path, library = f"{SIMULATED}:{ENVIRONMENT['PYTHONPATH']}", str(TOP / "build" / "libmars.so.2")
    return {**ENVIRONMENT, "PYTHONPATH": path, "SIMULATED": request.param, "MARS_LIBRARY": library, "NO_COLOR": "1"}


def test_commands(run: Run, tmp_path: Path, environment: dict[str, str]) -> None:
    (tmp_path / "broken.red").write_text("MVO 0, 1\n")
    for words in COMMANDS:
        found, expected = run(*words, env=environment), run(*words)
        assert (found.stdout, found.stderr, found.returncode) == (expected.stdout, expected.stderr, expected.returncode)


def test_limits(run: Run, tmp_path: Path, environment: dict[str, str]) -> None:
    """The limit of CPU time for a source ends the process that assembles it, and the reading in the command itself."""
    (tmp_path / "slow.red").write_text(slow())
    (tmp_path / "large.red").write_text("a NOP\n" * 150_000)
    for words, what in ((("fight", "slow.red"), "assembling"), (("explain", "large.red"), "reading the source")):
        done = run(*words, "--source-limit", 1, env=environment)
        assert (done.stdout, done.returncode) == ("", 1)
        assert done.stderr.endswith(f"{words[1]}: {what} takes more than 1 s of CPU time\n")
