"""Measures the machine instructions of a turn of `mars_core`: with its record, which is read, and in a run to the end.

The warriors are two imps, two papers (a warrior that copies itself, with all kinds of operands), and two stones
(bombers that miss themselves and each other, so that they run long), in a core of 8000 cells. The program, race.rattle,
is proved and built in a copy of the crates.
"""
from __future__ import annotations

import argparse
import os
import shutil
import subprocess
import sys
import tempfile

from program import TOP

from .tools import RACE, instructions

# The program's line of crates.txt, and the kinds of its warriors.
LINE = "race: mars_cell mars_core arrayvec\n"
KINDS = ("imps", "papers", "stones")


def build_race(place: str) -> str:
    """Proves and builds race.rattle with a copy of the crates. Returns its program."""
    for name in ("crates.txt", "HANDLES"):
        shutil.copy(os.path.join(TOP, name), place)
    shutil.copytree(os.path.join(TOP, "crates"), os.path.join(place, "crates"))
    race = os.path.join(place, "crates", "race")
    os.makedirs(os.path.join(race, "src"))
    shutil.copy(RACE, os.path.join(race, "src", "main.rt"))
    with open(os.path.join(place, "crates.txt"), "a") as file:
        file.write(LINE)
    done = subprocess.run(["rt", "run"], cwd=race, capture_output=True, text=True)
    if done.returncode:
        sys.exit("\n".join((done.stdout + done.stderr).splitlines()[-20:]))
    return os.path.join(race, "out", "race")


def turn_cost(command: list[str]) -> int:
    """Returns the machine instructions of a turn after the first thousand cycles; each `x` is a thousand cycles."""
    few, answer = instructions([*command, "x"])
    many, later = instructions([*command, *["x"] * 20])
    turns = int(later.split()[0]) - int(answer.split()[0])
    return (many - few) // turns


def measure(_words: argparse.Namespace) -> None:
    with tempfile.TemporaryDirectory() as place:
        race = build_race(place)
        for kind in KINDS:
            recorded, run = turn_cost([race, kind]), turn_cost([race, kind, "run"])
            print(f"two {kind}: {recorded} machine instructions a turn with its record, {run} in a run", flush=True)
