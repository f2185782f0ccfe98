#!/usr/bin/python3
"""Evolves warriors for the nano settings by MAP-Elites, which keeps the best warrior of each behaviour.

usage: examples/elites.py [GENERATIONS]      [default: 100]

A behaviour is how often a warrior starts another process, in powers of two, and how many cells it executes, reads or
writes, in tens, both in one round against three opponents. The warriors that live in a cycle share its reward; the
rewards of a whole round are 4. Prints a table with the greatest mean reward of each behaviour. Requires the package
`corewar` with its library.
"""
from __future__ import annotations

import argparse
import os
import random
import sys

sys.path.insert(0, os.path.join(os.path.dirname(os.path.realpath(__file__)), "..", "python"))
try:
    import corewar
except ImportError as fault:
    sys.exit(f"elites: {fault}; install the dependencies of corewar with dev/setup")

# The settings, the warriors of a generation, and the rounds of a match.
NANO, SIZE, ROUNDS = corewar.HILLS["nano"], 100, 20
OPPONENTS = [
    corewar.assemble(text, settings=NANO) for text in ("MOV 0, 1", "SPL 0, <-9\nMOV 3, <2\nJMP -1", "JMP 0, <-3")
]


def cell(dice: random.Random) -> tuple[int, int, int, int, int, int]:
    opcode, modifier, a_mode, b_mode, a, b = map(dice.randrange, corewar.cell_limits(NANO.core))
    return opcode, modifier, a_mode, b_mode, a, b


def child(dice: random.Random, parent: corewar.Warrior) -> corewar.Warrior:
    """Returns a copy of a warrior with a random cell in place of one of its own."""
    cells = parent.cells.copy()
    cells[dice.randrange(len(cells))] = cell(dice)
    return corewar.Warrior.from_cells(cells, settings=NANO)


def given() -> int:
    """Returns the number of generations from the arguments."""
    parser = argparse.ArgumentParser(
        description=__doc__, formatter_class=argparse.RawDescriptionHelpFormatter, usage=argparse.SUPPRESS
    )
    parser.add_argument("generations", nargs="?", type=int, default=100, help=argparse.SUPPRESS)
    generations: int = parser.parse_args().generations
    if generations < 1:
        parser.error("expected 1 or more generations")
    return generations


def main() -> None:
    generations, dice = given(), random.Random(1)
    elites: dict[tuple[int, int], tuple[float, corewar.Warrior]] = {}
    warriors = [corewar.Warrior.from_cells([cell(dice) for _ in range(5)], settings=NANO) for _ in range(SIZE)]
    lineups = [[place, SIZE, SIZE + 1, SIZE + 2] for place in range(SIZE)]
    for _ in range(generations):
        seed = dice.randrange(1, 1 << 30)
        entrants = [*warriors, *OPPONENTS]
        outcomes = corewar.outcomes(entrants, lineups, settings=NANO, rounds=ROUNDS, seeds=seed)
        counted = corewar.outcomes(entrants, lineups, settings=NANO, seeds=seed, counts=True)[:, 0, 0]
        rewards = corewar.shares(outcomes, NANO.cycles)[:, :, 0].mean(axis=1)
        for one, reward, counts in zip(warriors, rewards, counted):
            place = int(counts["spawned"]).bit_length(), int(counts["touched"]) // 10
            if place not in elites or reward > elites[place][0]:
                elites[place] = reward, one
        warriors = [child(dice, dice.choice([*elites.values()])[1]) for _ in range(SIZE)]
    print("started  touched" + "".join(f"{10 * tens:>6}" for tens in range(9)))
    for power in range(1 + max(row for row, _ in elites)):
        best = [elites.get((power, tens)) for tens in range(9)]
        print(f"{1 << power >> 1:>7}" + f"{'':9}" + "".join(f"{one[0]:6.2f}" if one else "     -" for one in best))


try:
    main()
except (OSError, corewar.CorewarError) as fault:
    sys.exit(f"elites: {fault}")
except KeyboardInterrupt:
    sys.exit("elites: stopped")
