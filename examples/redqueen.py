#!/usr/bin/python3
"""Digital Red Queen: evolves champions (4, or the number in the argument), each by MAP-Elites against all before it,
and prints a league of all. With Dask's `client.get_executor(pure=False)` as `pool`, the matches run on a cluster."""
import os
import random
import sys
from concurrent.futures import Executor, ProcessPoolExecutor
from typing import Any

import numpy as np

sys.path.insert(0, os.path.join(os.path.dirname(os.path.realpath(__file__)), "..", "python"))
import corewar  # noqa: E402

NANO, SIZE, GENERATIONS, dice = corewar.HILLS["nano"], 60, 60, random.Random(1)


def child(parent: corewar.Warrior) -> corewar.Warrior:
    cells = parent.cells.copy()
    cells[dice.randrange(len(cells))] = tuple(map(dice.randrange, corewar.cell_limits(NANO.core)))
    return corewar.Warrior.from_cells(cells, settings=NANO)


def measure(made: Any) -> Any:
    """Returns the mean reward of the first warrior of each lineup, its splits in powers of 2, and its cells in tens."""
    own, rewards = made[:, :, 0], corewar.shares(made, NANO.cycles)[:, :, 0]
    return np.stack([rewards, np.log2(own["spawned"] + 1), own["touched"] // 10]).mean(axis=2).T


def champion(opponents: list[corewar.Warrior], executor: Executor) -> corewar.Warrior:
    elites = {(0, 0): (0.0, corewar.assemble("DAT 0\n" * 5, settings=NANO))}
    lineups = [[one, SIZE + other] for one in range(SIZE) for other in range(len(opponents))]
    given: dict[str, Any] = {"settings": NANO, "rounds": 10, "counts": True, "executor": executor, "reduce": measure}
    for _ in range(GENERATIONS):
        warriors = [child(dice.choice([*elites.values()])[1]) for _ in range(SIZE)]
        seeds = dice.choices(range(1, corewar.MAX_SEED), k=len(lineups))
        found = corewar.outcomes([*warriors, *opponents], lineups, seeds=seeds, **given).reshape(SIZE, -1, 3)
        for one, (reward, splits, cells) in zip(warriors, found.mean(axis=1).tolist()):
            if reward > elites.get((int(splits), int(cells)), (0.0,))[0]:
                elites[int(splits), int(cells)] = reward, one
    return max(elites.values(), key=lambda elite: elite[0])[1]


if __name__ == "__main__":
    champions = [corewar.assemble("MOV 0, 1", settings=NANO)]
    with ProcessPoolExecutor() as pool:
        for _ in range(int(sys.argv[1]) if sys.argv[1:] else 4):
            champions.append(champion(champions, pool))
    print(corewar.Contest(NANO, rounds=200).league(champions))
