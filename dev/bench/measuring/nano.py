"""Measures the machine instructions of a turn, in `mars` and in pMARS, of random warriors that live long in nano
settings.

Random instructions are rarely among the most frequent ones of written warriors, for which the machine has shortcuts.
The warriors have 1 to 5 cells, and a pair counts if both live 801 cycles; most pairs don't. The instructions are those
of 801 cycles minus those of one cycle, divided by the turns in between. The warriors are the same in each run.
"""
from __future__ import annotations

import argparse
import os
import random
import tempfile
from collections.abc import Iterator
from itertools import islice

from corewar.model.cells import MODIFIERS, OPCODES
from program import find_program

from .tools import find_pmars, instructions, run_well

# The order decides which warriors the seed gives, so it stays.
MODES = "#$*@{}<>"
CORE, CYCLES, MAX_LENGTH = 80, 800, 5


def write_warrior(dice: random.Random, path: str) -> None:
    lines = ["ORG 0"]
    for _ in range(dice.randint(1, MAX_LENGTH)):
        a, b = (f"{dice.choice(MODES)}{dice.randrange(CORE)}" for _ in "AB")
        lines.append(f"{dice.choice(OPCODES)}.{dice.choice(MODIFIERS)} {a}, {b}")
    with open(path, "w") as file:
        file.writelines(f"{line}\n" for line in lines)


def match(program: str, cycles: int, position: int, files: list[str]) -> list[str]:
    sizes = {"-s": CORE, "-p": CORE, "-c": cycles, "-l": MAX_LENGTH, "-d": MAX_LENGTH, "-F": position}
    return [program, "-b", *(str(word) for option in sizes.items() for word in option), *files]


def is_long(command: list[str]) -> bool:
    """Returns whether a match is a tie, which takes all its cycles."""
    rows = run_well(command).output.decode().splitlines()[1:]
    return all(row.split()[1:4] == ["0", "1", "0"] for row in rows)


def long_pairs(program: str, place: str) -> Iterator[tuple[int, list[str]]]:
    """Yields pairs that live long: the position of the second warrior, and the files, which the next pair replaces."""
    dice = random.Random(5)
    files = [os.path.join(place, f"{name}.load") for name in "ab"]
    while True:
        for file in files:
            write_warrior(dice, file)
        position = dice.randint(MAX_LENGTH, CORE - MAX_LENGTH)
        if is_long(match(program, CYCLES + 1, position, files)):
            yield position, files


def cost(program: str, position: int, files: list[str]) -> float:
    """Returns the machine instructions of a turn."""
    short, long = (instructions(match(program, cycles, position, files))[0] for cycles in (1, CYCLES + 1))
    return (long - short) / (2 * CYCLES)


def measure(words: argparse.Namespace) -> None:
    programs = {"mars": find_program(words.program), "pMARS": find_pmars()}
    found = {name: program for name, program in programs.items() if program}
    with tempfile.TemporaryDirectory() as place:
        pairs = islice(long_pairs(found["mars"], place), words.count)
        rows = [[cost(program, *pair) for program in found.values()] for pair in pairs]
    for name, costs in zip(found, zip(*rows)):
        mean, extremes = sum(costs) / len(costs), f"{min(costs):.1f} to {max(costs):.1f}"
        print(f"{name}: {mean:.1f} machine instructions a turn, {extremes}, {len(costs)} pairs")
