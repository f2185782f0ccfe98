"""Measures the CPU seconds of a league of sixteen sources, of 1 and of 10 rounds: by one start of `mars`, and by a
start of `mars` or pMARS for each pair.
"""
from __future__ import annotations

import argparse
import glob
import os
from itertools import combinations

from program import find_program

from .tools import EXAMPLES, find_pmars, run_well

ROUNDS = (1, 10)


def measure(words: argparse.Namespace) -> None:
    program, pmars = find_program(words.program), find_pmars()
    # There are fewer examples than sixteen, so some take part twice.
    files = (sorted(glob.glob(os.path.join(EXAMPLES, "*.red"))) * 2)[:16]
    pairs = [*combinations(files, 2)]
    ways = {
        "mars, one start": [[program, "-b", "--league", *files]],
        f"mars, {len(pairs)} starts": [[program, "-b", *pair] for pair in pairs],
    }
    if pmars:
        ways[f"pMARS, {len(pairs)} starts"] = [[pmars, "-b", *pair] for pair in pairs]
    print(f"{'CPU seconds':<24}" + "".join(f"{f'{rounds} round(s)':>14}" for rounds in ROUNDS))
    for name, commands in ways.items():
        figures = []
        for rounds in ROUNDS:
            all_starts = [[*command, "-r", str(rounds)] for command in commands]
            figures.append(min(sum(run_well(command).cpu for command in all_starts) for _ in range(words.runs)))
        print(f"{name:<24}" + "".join(f"{figure:>14.3f}" for figure in figures), flush=True)
