"""The measurements of dev/bench/measure."""
from __future__ import annotations

import os
import re
import subprocess
from pathlib import Path

from counting import PROGRAM, TOP

MEASURE = os.path.join(TOP, "dev", "bench", "measure")


def measured(*words: str) -> str:
    return subprocess.run([MEASURE, *words], capture_output=True, text=True, check=True, timeout=300).stdout


def test_help() -> None:
    """The help lists each module that measures something."""
    folder = Path(TOP, "dev", "bench", "measuring")
    modules = {path.stem for path in folder.glob("*.py") if "def measure(" in path.read_text()}
    assert set(re.findall(r"^    (\w+) ", measured("--help"), re.M)) == modules


def test_league() -> None:
    """A measurement that needs only the program: its lines, each with two figures."""
    head, *lines = measured("league", "--runs", "1", "--program", PROGRAM).splitlines()
    assert head.startswith("CPU seconds") and [line.split(",")[0] for line in lines[:2]] == ["mars", "mars"]
    assert all(re.search(r" \d+\.\d{3} +\d+\.\d{3}$", line) for line in lines)
