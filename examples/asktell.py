#!/usr/bin/python3
"""Evolves a warrior for the nano settings by asking for candidates and telling their rewards, with checkpoints.

usage: examples/asktell.py CHECKPOINT [GENERATIONS]      [default: 100 generations]

Each generation replaces CHECKPOINT as a whole. The same command continues from it, with the same result as without a
pause. `Search` knows nothing of matches: anything that proposes warriors, such as a language model, can take its place.
Prints the best warrior. Requires the package `corewar` with its library.
"""
from __future__ import annotations

import argparse
import json
import os
import random
import sys
from dataclasses import dataclass, field
from typing import Any

sys.path.insert(0, os.path.join(os.path.dirname(os.path.realpath(__file__)), "..", "python"))
try:
    import corewar
except ImportError as fault:
    sys.exit(f"asktell: {fault}; install the dependencies of corewar with dev/setup")

# The settings, the candidates of a generation, the warriors that are kept, and the rounds of a match.
NANO, SIZE, KEPT, ROUNDS = corewar.HILLS["nano"], 40, 8, 20
OPPONENTS = ["MOV 0, 1", "SPL 0, <-9\nMOV 3, <2\nJMP -1", "JMP 0, <-3"]


@dataclass
class Search:
    """An evolution: the best warriors so far with their rewards, and the number of generations."""

    best: list[tuple[float, corewar.Warrior]] = field(default_factory=list)
    generation: int = 0

    def ask(self, dice: random.Random) -> list[corewar.Warrior]:
        """Returns the candidates of the next generation: the best, and copies of them with a random cell."""
        kept = [warrior for _, warrior in self.best] or [corewar.assemble("DAT 0\n" * 5, settings=NANO)]
        children = []
        for _ in range(SIZE - len(kept)):
            cells = dice.choice(kept).cells.copy()
            cells[dice.randrange(len(cells))] = tuple(map(dice.randrange, corewar.cell_limits(NANO.core)))
            children.append(corewar.Warrior.from_cells(cells, settings=NANO))
        return [*kept, *children]

    def tell(self, warriors: list[corewar.Warrior], rewards: list[float]) -> None:
        """Keeps the candidates with the greatest rewards."""
        # `ask` lists older warriors first, so of equal rewards the older warrior stays.
        self.best = sorted(zip(rewards, warriors), key=lambda one: one[0], reverse=True)[:KEPT]
        self.generation += 1

    def save(self, path: str) -> None:
        """Replaces a checkpoint, which is complete at any time."""
        best = [(reward, str(warrior)) for reward, warrior in self.best]
        with open(f"{path}.new", "w") as file:
            json.dump({"generation": self.generation, "best": best}, file, indent=1)
        os.replace(f"{path}.new", path)

    @staticmethod
    def load(path: str) -> Search:
        with open(path) as file:
            found: dict[str, Any] = json.load(file)
        best = [(reward, corewar.assemble(load, settings=NANO)) for reward, load in found["best"]]
        return Search(best, found["generation"])


def rewards_of(warriors: list[corewar.Warrior], seed: int) -> list[float]:
    """Returns the mean share of each warrior in melees against all opponents."""
    opponents = [corewar.assemble(text, settings=NANO) for text in OPPONENTS]
    lineups = [[one, SIZE, SIZE + 1, SIZE + 2] for one in range(SIZE)]
    made = corewar.outcomes([*warriors, *opponents], lineups, settings=NANO, rounds=ROUNDS, seeds=seed)
    rewards: list[float] = corewar.shares(made, NANO.cycles)[:, :, 0].mean(axis=1).tolist()
    return rewards


def main() -> None:
    parser = argparse.ArgumentParser(
        description=__doc__, formatter_class=argparse.RawDescriptionHelpFormatter, usage=argparse.SUPPRESS
    )
    parser.add_argument("checkpoint", help=argparse.SUPPRESS)
    parser.add_argument("generations", nargs="?", type=int, default=100, help=argparse.SUPPRESS)
    args = parser.parse_args()
    search = Search.load(args.checkpoint) if os.path.exists(args.checkpoint) else Search()
    while search.generation < args.generations:
        # What is drawn depends only on the generation, so a checkpoint needs no state of the dice.
        dice = random.Random(search.generation)
        warriors = search.ask(dice)
        search.tell(warriors, rewards_of(warriors, dice.randint(1, corewar.MAX_SEED)))
        search.save(args.checkpoint)
    reward, warrior = search.best[0]
    print(f"{warrior}{reward:.2f} of 4 after {search.generation} generations")


try:
    main()
except (OSError, ValueError, KeyError, corewar.CorewarError) as fault:
    sys.exit(f"asktell: {fault}")
except KeyboardInterrupt:
    sys.exit("asktell: stopped")
