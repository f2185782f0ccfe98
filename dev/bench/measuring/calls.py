"""Measures the matches per second of several ways to run matches of one round in nano settings, and the turns per
second of long battles.

100 candidates play against 10 opponents: by one call of a population, by a call for each match, by a league of each
candidate with the ten, and by a start of `mars`, or of pMARS, for each match. Of a league, only the ten matches of the
candidate count. Then the script counts the machine instructions of a nano match from C, and measures the turns per
second of a battle of 1,000,000 turns, with the record of each turn and as a `History`, and of matches in `outcomes`,
without and with counts. The library is the one that `corewar` finds.
"""
from __future__ import annotations

import argparse
import os
import subprocess
import sys
import tempfile
import time
from collections.abc import Callable, Iterator

import corewar
from program import TOP, find_program

from .tools import find_pmars, instructions, run_well, warrior

NANO = corewar.HILLS["nano"]
SOURCES = [
    "MOV 0, 1",
    "ADD #4, 3\nMOV 2, @2\nJMP -2\nDAT #0, #0",
    "SPL 0\nMOV -1, <-1\nJMP -1",
    "SPL 0, <-9\nMOV 3, <2\nJMP -1\nDAT 0, -4",
    "JMP 0, <-3",
]
# The turns of a long battle of two warriors, and its settings.
TURNS, LONG = 1_000_000, corewar.Settings(cycles=500_000)
# A program that runs as many matches as its first argument says, each with the second argument as its cycle limit.
MATCH = """#include <mars.h>
#include <stdlib.h>
#include <string.h>
int main(int count, char **words) {
    MarsSettings nano = {80, 80, atoi(words[2]), 0, 0, 5, 5, 1, 1, 0};
    const char *sources[] = {"ADD #4, 3\\nMOV 2, @2\\nJMP -2\\nDAT #0, #0", "MOV 0, 1"};
    const uint8_t *formula = (const uint8_t *)"(W*W-1)/S";
    MarsCell cells[5];
    MarsWarrior warriors[2];
    MarsProgram program;
    size_t unread;
    MarsRow rows[2];
    MarsFault fault;
    for (int i = 0; i < 2; i++) {
        const uint8_t *source = (const uint8_t *)sources[i];
        size_t length = strlen(sources[i]);
        MarsCell *own = cells + 4 * i;
        size_t room = 5 - 4 * i;
        if (mars_assemble(&nano, 2, source, length, own, room, &program, NULL, 0, NULL, 0, &unread, &fault)) return 1;
        warriors[i] = program.warrior;
    }
    for (int i = 0; i < atoi(words[1]); i++)
        if (mars_match(&nano, formula, 9, cells, 5, warriors, 2, rows, 2, &fault)) return 1;
    return count != 3;
}
"""
WORDS = ["-b", "-s", "80", "-p", "80", "-c", "800", "-l", "5", "-d", "5"]


def rate(seconds: float, amount: int, work: Callable[[int], object]) -> float:
    """Returns the matches or turns per second of a function that runs `amount` of them. It is called for `seconds`,
    each time with the number of calls before.
    """
    done, start = 0, time.perf_counter()
    while time.perf_counter() - start < seconds:
        work(done)
        done += 1
    return done * amount / (time.perf_counter() - start)


def ways(program: str, folder: str) -> Iterator[tuple[str, int, Callable[[int], object]]]:
    """Yields the name of each way, the number of matches that it plays in a call, and its function of a seed."""
    warriors = [corewar.assemble(source, settings=NANO) for source in SOURCES]
    candidates, opponents = warriors * 20, warriors * 2
    paths = [os.path.join(folder, f"{index}.load") for index in range(11)]
    for path, one in zip(paths, [warriors[0], *opponents]):
        with open(path, "wb") as file:
            file.write(one.load)

    def population(seed: int) -> object:
        return corewar.population(candidates, opponents, seed=seed + 1, settings=NANO)

    def start(*words: str) -> Callable[[int], object]:
        return lambda seed: run_well([*words, "--seed", str(seed + 1)])

    yield "a population of 100 against 10", 1000, population
    yield "a call for each match", 1, lambda seed: corewar.match(warriors[:2], seed=seed + 1, settings=NANO)
    yield "a league of the program for each candidate", 10, start(program, *WORDS, "--league", *paths)
    yield "a start of the program for each match", 1, start(program, *WORDS, *paths[:2])
    if pmars := find_pmars():
        command = [pmars, *WORDS, *paths[:2]]
        yield "a start of pMARS for each match", 1, lambda _: run_well(command)


def record_all(warriors: list[corewar.Warrior]) -> None:
    """Records the turns of a battle that lasts until its cycle limit."""
    turns, _ = corewar.Battle(corewar.Match(warriors, settings=LONG)).play(records=TURNS)
    if len(turns) != TURNS:
        sys.exit(f"measure: the battle has {len(turns)} turns")


def outcomes_of(warriors: list[corewar.Warrior], seed: int, counts: bool) -> None:
    """Plays ten rounds of a match that lasts until its cycle limit."""
    rows = corewar.outcomes(warriors, rounds=10, seeds=seed + 1, position=4000, counts=counts)
    if (rows["turns"] != 160_000).any():
        sys.exit("measure: a warrior dies")


def match_cost(cycles: int, folder: str) -> float:
    """Returns the machine instructions of a match from C, of two warriors in nano settings with this cycle limit."""
    program = os.path.join(folder, "match")
    with open(f"{program}.c", "w") as file:
        file.write(MATCH)
    library = os.path.join(TOP, "build", "libmars.a")
    subprocess.run(["gcc", "-O2", f"-I{TOP}/crates/mars_c/include", f"{program}.c", library, "-o", program], check=True)
    few, many = (instructions([program, str(count), str(cycles)])[0] for count in (1, 1001))
    return (many - few) / 1000


def measure_turns(seconds: float) -> None:
    """Prints the turns per second of long battles, each measured for this many seconds."""
    papers = [corewar.read(warrior("", name), settings=LONG) for name in ("paper", "silk")]
    lasting = [corewar.read(warrior("", name)) for name in ("bomber", "silk")]
    recorded = rate(seconds, TURNS, lambda _: record_all(papers))
    print(f"{recorded:10,.0f} turns a second of a battle of {TURNS:,}, each with its record")
    history = rate(seconds, TURNS, lambda _: corewar.History(corewar.Match(papers, settings=LONG)))
    print(f"{history:10,.0f} turns a second of the same as a history")
    for counts, what in ((False, "in outcomes"), (True, "in outcomes that count what the warriors do")):
        played = rate(seconds, 1_600_000, lambda seed: outcomes_of(lasting, seed, counts))
        print(f"{played:10,.0f} turns a second {what}")


def measure(words: argparse.Namespace) -> None:
    with tempfile.TemporaryDirectory() as folder:
        for name, matches, work in ways(find_program(words.program), folder):
            print(f"{rate(words.seconds, matches, work):10,.0f} matches a second by {name}", flush=True)
        for cycles in (1, 800):
            print(
                f"{match_cost(cycles, folder):10,.0f} machine instructions of a match of at most {cycles} cycles from C"
            )
    measure_turns(words.seconds)
