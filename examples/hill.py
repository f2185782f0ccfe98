#!/usr/bin/python3
"""Runs a hill: a table of the best warriors so far, which newcomers challenge.

usage: examples/hill.py [--size N] [--rounds N] [--settings NAME] STATE [FILE]...

Each FILE, a source or a load file, plays a match against every warrior on the hill. If there are then more than N
warriors, the last of the table is pushed off, which may be the newcomer; the age of the others is the number of
challenges that they have survived. A newcomer with the cells of a warrior on the hill is left out. The first challenge
makes STATE, a JSON file, with the options [default: 20 warriors, 100 rounds, settings of 94nop], and each one replaces
it as a whole. Several processes may challenge at once: each waits for the one before it, by a lock on STATE.lock.
Assembling a source may take 5 seconds of CPU time and 500 MB. Without FILE the hill is only printed. Requires the
package `corewar` with its library.
"""
from __future__ import annotations

import argparse
import fcntl
import json
import os
import random
import sys
from collections.abc import Iterator
from contextlib import contextmanager
from typing import Any

sys.path.insert(0, os.path.join(os.path.dirname(os.path.realpath(__file__)), "..", "python"))
try:
    import corewar
except ImportError as fault:
    sys.exit(f"hill: {fault}; install the dependencies of corewar with dev/setup")

# The limits for assembling the source of a newcomer, which may be from a stranger.
LIMIT = corewar.Limit(5, 500)
# A hill, and a warrior of it, as they are in the file.
Hill = dict[str, Any]
Entry = dict[str, Any]
KEYS = {"number", "title", "load", "age", "against"}


def rates(one: Entry, rounds: int) -> tuple[float, float, float]:
    """Returns the score of a warrior, which is its points for 100 rounds with 3 for a win and 1 for a tie, and its
    percentages of wins and ties.
    """
    matches = one["against"].values()
    wins, ties = (100 * sum(column) / (rounds * len(matches)) for column in zip(*matches)) if matches else (0, 0)
    return 3 * wins + ties, wins, ties


def warriors_of(hill: Hill) -> list[corewar.Warrior]:
    return [corewar.assemble(one["load"], settings=hill["settings"]) for one in hill["warriors"]]


def fight(hill: Hill, newcomer: corewar.Warrior) -> Any:
    """Returns which warriors survive each round of the newcomer's matches against each warrior of the hill."""
    others = warriors_of(hill)
    lineups = [[0, place] for place in range(1, len(others) + 1)]
    # Each match has a seed of its own. A hill that is made again has the same seeds.
    dice = random.Random(hill["challenges"])
    seeds = [dice.randrange(1, 1 << 30) for _ in lineups]
    given = {"settings": hill["settings"], "rounds": hill["rounds"], "seeds": seeds}
    return corewar.outcomes([newcomer, *others], lineups, **given)["survived"]


def ranked(warriors: list[Entry], rounds: int) -> list[Entry]:
    """Returns warriors in the order of their scores. Of two with equal scores the one that was above stays above."""
    return sorted(warriors, key=lambda one: rates(one, rounds)[0], reverse=True)


def challenge(hill: Hill, newcomer: corewar.Warrior) -> list[Entry]:
    """Lets a newcomer challenge the hill. Returns the warriors that are pushed off."""
    hill["challenges"] += 1
    number = str(hill["challenges"])
    new: Entry = {"number": number, "title": newcomer.title, "load": str(newcomer), "age": 0, "against": {}}
    for other, survived in zip(hill["warriors"], fight(hill, newcomer)):
        ties = int(survived.all(axis=1).sum())
        wins, losses = (int(lives) - ties for lives in survived.sum(axis=0))
        new["against"][other["number"]], other["against"][new["number"]] = [wins, ties], [losses, ties]
        other["age"] += 1
    hill["warriors"] = ranked([*hill["warriors"], new], hill["rounds"])
    pushed_off: list[Entry] = hill["warriors"][hill["size"] :]
    del hill["warriors"][hill["size"] :]
    for one in hill["warriors"]:
        for left in pushed_off:
            del one["against"][left["number"]]
    # Without the matches against the warriors that left, the scores differ.
    hill["warriors"] = ranked(hill["warriors"], hill["rounds"])
    return pushed_off


@contextmanager
def locked(path: str) -> Iterator[None]:
    """Waits until no other process challenges a hill. The hill itself is replaced, so another file is locked."""
    with open(f"{path}.lock", "a") as file:
        # The process of the assembler would inherit a lock by `flock`.
        fcntl.lockf(file, fcntl.LOCK_EX)
        yield


def read(path: str, new: Hill) -> Hill:
    """Returns the hill of a file, or a new one if there is no such file."""
    if not os.path.exists(path):
        return new
    try:
        with open(path) as file:
            hill: Hill = json.load(file)
        if hill.keys() >= new.keys() and all(one.keys() >= KEYS for one in hill["warriors"]):
            return hill
    except (ValueError, AttributeError, TypeError):
        pass
    sys.exit(f"hill: {path} is not a hill")


def replace(path: str, hill: Hill) -> None:
    """Replaces the file of a hill as a whole, so that it is complete at any time."""
    with open(f"{path}.new", "w") as file:
        json.dump(hill, file, indent=1)
    os.replace(f"{path}.new", path)


def given() -> argparse.Namespace:
    """Returns the arguments."""
    parser = argparse.ArgumentParser(
        description=__doc__, formatter_class=argparse.RawDescriptionHelpFormatter, usage=argparse.SUPPRESS
    )
    parser.add_argument("--size", type=int, default=20, help=argparse.SUPPRESS)
    parser.add_argument("--rounds", type=int, default=100, help=argparse.SUPPRESS)
    parser.add_argument("--settings", default="94nop", choices=corewar.HILLS, help=argparse.SUPPRESS)
    parser.add_argument("state", help=argparse.SUPPRESS)
    parser.add_argument("files", nargs="*", help=argparse.SUPPRESS)
    args = parser.parse_args()
    if args.size < 1 or not 1 <= args.rounds <= 100_000:
        parser.error("expected a size of 1 or more, and 1 to 100000 rounds")
    return args


def main() -> None:
    args = given()
    new = {"settings": args.settings, "rounds": args.rounds, "size": args.size, "challenges": 0, "warriors": []}
    hill = read(args.state, new)
    with corewar.Assembler(LIMIT) as assembler:
        for path in args.files:
            # The hill is locked from reading to replacing it, so that no challenge of another process is lost.
            with locked(args.state):
                hill = read(args.state, new)
                newcomer = assembler.read(path, settings=hill["settings"], rounds=hill["rounds"])
                if any((one.data, one.start) == (newcomer.data, newcomer.start) for one in warriors_of(hill)):
                    print(f"{newcomer.title} is on the hill already")
                    continue
                pushed_off = challenge(hill, newcomer)
                replace(args.state, hill)
            for one in pushed_off:
                print(f"{one['title']} is pushed off at age {one['age']}")
    print("  rank   score   won  tied  lost    age  warrior")
    for rank, one in enumerate(hill["warriors"], 1):
        score, wins, ties = rates(one, hill["rounds"])
        lost = 100 - wins - ties if one["against"] else 0
        print(f"{rank:6} {score:7.1f} {wins:4.0f}% {ties:4.0f}% {lost:4.0f}% {one['age']:6}  {one['title']}")


try:
    main()
except (OSError, ValueError, corewar.CorewarError) as fault:
    sys.exit(f"hill: {fault}")
except KeyboardInterrupt:
    sys.exit("hill: stopped")
