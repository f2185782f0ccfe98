"""Measures runs that do little: starts, small sources and short matches, in milliseconds (the median) and machine
instructions.
"""
from __future__ import annotations

import argparse
import statistics
from collections.abc import Sequence

from program import find_program

from .tools import find_pmars, instructions, run_well, warrior

LINES = "step\n"
DWARF, IMP, SPIRAL = (warrior("", name) for name in ("dwarf", "imp", "spiral"))
RUNS = [
    ("one small source to its load file", ["--load", DWARF]),
    ("a source with loops to its load file", ["--load", SPIRAL]),
    ("one step in the debugger", ["-e", IMP]),
    ("a match of one cycle", ["-b", "-c", "1", DWARF, IMP]),
    ("a match of one round", ["-b", DWARF, IMP]),
]


def print_line(name: str, command: Sequence[str], runs: int) -> None:
    times = [run_well(command, LINES).seconds * 1000 for _ in range(runs)]
    print(f"{name:<44}{statistics.median(times):>10.2f}{instructions(command, LINES)[0]:>14,}", flush=True)


def measure(words: argparse.Namespace) -> None:
    program, pmars = find_program(words.program), find_pmars()
    print(f"{'':<44}{'ms':>10}{'instructions':>14}")
    for name, arguments in RUNS:
        print_line(name, [program, *arguments], words.runs)
        # pMARS has another debugger and other load files.
        if pmars and arguments[0] == "-b":
            print_line("  pMARS", [pmars, *arguments], words.runs)
