#!/usr/bin/python3
"""An environment for reinforcement learning, with the interface of Gymnasium, which it does not require.

usage: examples/environment.py [EPISODES]      [default: 200]

The agent writes a warrior for the nano settings. An action is the six numbers of the next cell. An observation has all
cells so far, and zeros for the others. A reward is by how much the cell has improved the warrior's share against three
opponents; the rewards of an episode add up to the share. `VectorEnvironment` runs many episodes at a time, and all
their matches in one call. Prints the mean reward of random agents. Requires the package `corewar` with its library.
"""
from __future__ import annotations

import os
import sys
from collections.abc import Sequence
from typing import Any

import numpy as np
from numpy.typing import NDArray

sys.path.insert(0, os.path.join(os.path.dirname(os.path.realpath(__file__)), "..", "python"))
try:
    import corewar
except ImportError as fault:
    sys.exit(f"environment: {fault}; install the dependencies of corewar with dev/setup")

OPPONENTS = ["MOV 0, 1", "SPL 0, <-9\nMOV 3, <2\nJMP -1", "JMP 0, <-3"]
Step = tuple[Any, Any, Any, Any, dict[str, Any]]


class VectorEnvironment:
    """Episodes that run together; each begins again in the step after its end.

    - `limits`: each number of an action is below its limit, as in `gymnasium.spaces.MultiDiscrete(limits)`
    - `length`: the number of steps of an episode, which is the maximum length of a warrior
    """

    def __init__(self, count: int, opponents: Sequence[str] = OPPONENTS, hill: str = "nano", rounds: int = 10) -> None:
        self.settings, self.rounds, self.num_envs = corewar.HILLS[hill], rounds, count
        self.opponents = [corewar.assemble(text, settings=hill) for text in opponents]
        self.limits, self.length = corewar.cell_limits(self.settings.core), self.settings.longest

    def reset(self, *, seed: int | None = None, options: Any = None) -> tuple[NDArray[np.int64], dict[str, Any]]:
        self.dice = np.random.default_rng(seed)
        self._begin()
        return self.cells.copy(), {}

    def _begin(self) -> None:
        self.place, self.shares = 0, np.zeros(self.num_envs)
        self.cells = np.zeros((self.num_envs, self.length, 6), np.int64)
        # The positions are the same in all steps of an episode.
        self.seed = int(self.dice.integers(1, corewar.MAX_SEED))

    def step(self, actions: Any) -> Step:
        if self.place == self.length:
            self._begin()
        self.cells[:, self.place] = actions
        self.place += 1
        before, self.shares = self.shares, self._measure()
        over = np.full(self.num_envs, self.place == self.length)
        return self.cells.copy(), self.shares - before, over, np.zeros(self.num_envs, bool), {"share": self.shares}

    def warriors(self) -> list[corewar.Warrior]:
        """Returns the warriors as they are: the cells that are not written are DAT.F $0, $0."""
        cells = self.cells.copy()
        cells[:, self.place :, 1:4] = corewar.cell_of("DAT.F $0, $0", self.settings.core)[1:4]
        made = np.zeros(cells.shape[:2], corewar.CELL)
        for place, name in enumerate(corewar.CELL.names or ()):
            made[name] = cells[..., place]
        return [corewar.Warrior.from_cells(one, settings=self.settings) for one in made]

    def _measure(self) -> NDArray[np.float64]:
        """Returns the mean share of each warrior in melees with all opponents."""
        count, others = self.num_envs, range(self.num_envs, self.num_envs + len(self.opponents))
        lineups = [[one, *others] for one in range(count)]
        given: dict[str, Any] = {"settings": self.settings, "rounds": self.rounds, "seeds": self.seed}
        made = corewar.outcomes([*self.warriors(), *self.opponents], lineups, **given)
        return np.asarray(corewar.shares(made, self.settings.cycles)[:, :, 0].mean(axis=1))


class Environment:
    """One episode at a time, with the interface of `gymnasium.Env`."""

    def __init__(self, **given: Any) -> None:
        self.single = VectorEnvironment(1, **given)
        self.limits, self.length = self.single.limits, self.single.length

    def reset(self, *, seed: int | None = None, options: Any = None) -> tuple[NDArray[np.int64], dict[str, Any]]:
        return self.single.reset(seed=seed)[0][0], {}

    def step(self, action: Any) -> Step:
        cells, rewards, over, _, info = self.single.step([action])
        return cells[0], float(rewards[0]), bool(over[0]), False, {"share": float(info["share"][0])}

    def render(self) -> str:
        """Returns the warrior as its load file."""
        return str(self.single.warriors()[0])


def main() -> None:
    episodes = int(sys.argv[1]) if sys.argv[1:] else 200
    environment, dice = VectorEnvironment(episodes), np.random.default_rng(1)
    environment.reset(seed=1)
    total = np.zeros(episodes)
    for _ in range(environment.length):
        total += environment.step(dice.integers(0, environment.limits, (episodes, 6)))[1]
    print(f"random warriors get {total.mean():.2f} of {1 + len(OPPONENTS)}, the best one {total.max():.2f}")


if __name__ == "__main__":
    try:
        main()
    except (ValueError, corewar.CorewarError) as fault:
        sys.exit(f"environment: {fault}")
    except KeyboardInterrupt:
        sys.exit("environment: stopped")
