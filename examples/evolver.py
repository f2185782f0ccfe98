#!/usr/bin/python3
"""Evolves a warrior for the nano settings against a few opponents, and prints its load file.

usage: examples/evolver.py [SECONDS [SEED]]      [default: 60 seconds, seed 1]

In each generation the best warriors stay, and the others are replaced by children of the best with changed cells. One
call runs all matches of a generation. Requires the package `corewar` with its library; build the kit first.
"""
from __future__ import annotations

import argparse
import os
import random
import sys
import time
from dataclasses import dataclass

sys.path.insert(0, os.path.join(os.path.dirname(os.path.realpath(__file__)), "..", "python"))
try:
    import corewar
except ImportError as fault:
    sys.exit(f"evolver: {fault}; install the dependencies of corewar with dev/setup")

# The numbers of an instruction.
Cell = tuple[int, int, int, int, int, int]
NANO = corewar.HILLS["nano"]

OPPONENTS = [
    "MOV 0, 1",
    "ADD #4, 3\nMOV 2, @2\nJMP -2\nDAT #0, #0",
    "SPL 0, <-9\nMOV 3, <2\nJMP -1\nDAT 0, -4",
    "SPL.AB #-4, #-8\nMOV.I 65, <-4\nDJN.BA #61, <-5\nSPL.BA #5, <0\nDJN.BA #61, <-5",
    "SPL.A #9, }-4\nMOV.I *5, {41\nMOV.I 40, {-5\nDJN.A #9, <50",
]
OPCODES = "DAT MOV MOV ADD SUB JMP JMZ JMN DJN SNE SEQ SPL SPL".split()
MODIFIERS, MODES = "A B AB BA F X I I".split(), "#$$@*<>{}"
# The candidates of a generation, those of them that stay, and the rounds of a match.
SIZE, BEST, ROUNDS = 100, 15, 20


def cell(dice: random.Random) -> Cell:
    """Returns a random cell."""

    def operand() -> str:
        return f"{dice.choice(MODES)}{dice.randrange(-9, 10) if dice.randrange(3) else dice.randrange(80)}"

    return corewar.cell_of(f"{dice.choice(OPCODES)}.{dice.choice(MODIFIERS)} {operand()}, {operand()}", NANO.core)


def child(dice: random.Random, one: list[Cell], other: list[Cell]) -> list[Cell]:
    """Returns the cells of one parent or the joined cells of both, with cells inserted, removed or replaced."""
    cells = list(one)
    if dice.randrange(3) == 0:
        cells = one[: dice.randrange(len(one) + 1)] + other[dice.randrange(len(other)) :]
    for _ in range(dice.choice([1, 1, 2])):
        place = dice.randrange(len(cells) + 1)
        cells[place : place + dice.randrange(2)] = [cell(dice)] * dice.randrange(2)
    return cells[:5] or [cell(dice)]


def warrior(cells: list[Cell]) -> corewar.Warrior:
    return corewar.Warrior.from_cells(cells, name="Evolved", author="evolver.py", settings=NANO)


@dataclass
class Candidate:
    """Cells, and their points in each generation."""

    cells: list[Cell]
    points: list[int]

    def mean(self) -> float:
        return sum(self.points) / len(self.points)


def fight(candidates: list[Candidate], opponents: list[corewar.Warrior], seed: int) -> None:
    """Runs the matches of all candidates against all opponents, and sorts the candidates by their mean points."""
    rows = corewar.population(
        [warrior(one.cells) for one in candidates], opponents, rounds=ROUNDS, seed=seed, settings=NANO
    )
    for one, row in zip(candidates, rows):
        one.points.append(row.points)
    candidates.sort(key=Candidate.mean, reverse=True)


def measure(cells: list[Cell], opponents: list[corewar.Warrior]) -> float:
    """Returns the mean points per round against the opponents, in many rounds with a seed that no generation draws."""
    row = corewar.population([warrior(cells)], opponents, rounds=2000, seed=2_000_000_011, settings=NANO)[0]
    return row.points / (2000 * len(opponents))


def given() -> argparse.Namespace:
    """Returns the arguments."""
    parser = argparse.ArgumentParser(
        description=__doc__, formatter_class=argparse.RawDescriptionHelpFormatter, usage=argparse.SUPPRESS
    )
    parser.add_argument("seconds", nargs="?", type=int, default=60, help=argparse.SUPPRESS)
    parser.add_argument("seed", nargs="?", type=int, default=1, help=argparse.SUPPRESS)
    return parser.parse_args()


def main() -> None:
    args = given()
    dice, end = random.Random(args.seed), time.monotonic() + args.seconds
    opponents = [corewar.assemble(text, settings=NANO) for text in OPPONENTS]
    candidates, count = [Candidate([cell(dice) for _ in range(5)], []) for _ in range(SIZE)], 0
    while time.monotonic() < end:
        count += 1
        # Seeds near one another would give related positions.
        fight(candidates, opponents, dice.randrange(1, 1 << 30))
        best = candidates[:BEST]
        # Reports generations 1, 2, 4, 8 and so on.
        if count & (count - 1) == 0:
            print(f"generation {count}: {measure(best[0].cells, opponents):.2f} points per round", file=sys.stderr)
        candidates = best + [
            Candidate(child(dice, dice.choice(best).cells, dice.choice(best).cells), []) for _ in range(SIZE - BEST)
        ]
    print(f"after {count} generations: {measure(candidates[0].cells, opponents):.2f} points per round", file=sys.stderr)
    print(warrior(candidates[0].cells), end="")


try:
    main()
except (OSError, corewar.CorewarError) as fault:
    sys.exit(f"evolver: {fault}")
except KeyboardInterrupt:
    sys.exit("evolver: stopped")
