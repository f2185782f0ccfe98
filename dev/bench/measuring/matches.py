"""Measures a turn in ten matches, of `mars` and of pMARS: machine instructions, and nanoseconds of CPU time.

The ten matches are of two warriors of examples/, or of the paper and the stone of race.rattle (here in capitals), 4,000
cells apart in a core of 8000, in which no warrior dies for 20,000 cycles: from imps, which keep one process, to papers,
whose queues fill. The instructions are those of 20,001 cycles minus those of one cycle, divided by the turns in
between. The time is that of one long round minus that of one cycle; each is the minimum of some runs, in which the
programs alternate so that other work on the machine disturbs both. The round is as long as no warrior dies, 400,000
cycles at most, and both programs must report its result: pMARS keeps `-F` in the first round only, so in several rounds
the programs would fight different battles. The last lines are the geometric means, and the allocations of a match of
PAPER and PAPER, which do not grow with the rounds.
"""
from __future__ import annotations

import argparse
import re
import sys
import tempfile
from statistics import geometric_mean

from program import find_program

from .tools import allocations, find_pmars, instructions, run_well, warrior

CYCLES, LONG = 20_000, 400_000
MATCHES = """imp imp, dwarf imp, PAPER PAPER, STONE STONE, boot STONE, bomber silk, gate silk, quick PAPER,
    paper vampire, spiral PAPER"""


def words_of(files: list[str], cycles: int = CYCLES, rounds: int = 1) -> list[str]:
    return ["-b", "-F", "4000", "-c", str(cycles), "-r", str(rounds), *files]


def refuse_deaths(program: str, files: list[str]) -> None:
    """Exits if a warrior dies in the match, since the number of turns would be unknown."""
    if not survived(program, files, CYCLES + 1):
        sys.exit(f"measure: a warrior dies in {' '.join(files)}")


def count(program: str, files: list[str]) -> float:
    """Returns the machine instructions of a turn."""
    short, long = (instructions([program, *words_of(files, cycles)])[0] for cycles in (1, CYCLES + 1))
    return (long - short) / (2 * CYCLES)


def survived(program: str, files: list[str], cycles: int) -> bool:
    """Returns whether both warriors live for this number of cycles."""
    output = run_well([program, *words_of(files, cycles)]).output.decode()
    if found := re.search(r"Results: (\d+) (\d+) (\d+)", output):
        return found.groups() == ("0", "0", "1")
    return all(row.split()[1:4] == ["0", "1", "0"] for row in output.splitlines()[1:])


def long_round(programs: list[str], files: list[str]) -> int:
    """Returns the number of cycles, at most LONG, for which no warrior dies. Exits if the programs differ in it."""
    least, most = CYCLES, LONG
    while least < most:
        middle = (least + most + 1) // 2
        if survived(programs[0], files, middle):
            least = middle
        else:
            most = middle - 1
    for program in programs:
        if not survived(program, files, least) or (least < LONG and survived(program, files, least + 1)):
            sys.exit(f"measure: {program} fights another battle of {' '.join(files)}")
    return least


def times(programs: list[str], files: list[str], runs: int) -> list[float]:
    """Returns the nanoseconds of a turn of each program."""
    cycles = long_round(programs, files)
    least = [[float("inf")] * 2 for _ in programs]
    for _ in range(runs):
        for program, best in zip(programs, least):
            for index, length in enumerate((1, cycles)):
                best[index] = min(best[index], run_well([program, *words_of(files, length)]).cpu)
    return [(long - short) / (2 * (cycles - 1)) * 1e9 for short, long in least]


def measure(words: argparse.Namespace) -> None:
    pmars = find_pmars()
    programs = [find_program(words.program)] + ([pmars] if pmars else [])
    heads = [f"{name} {unit}" for unit in ("count", "ns") for name in ("mars", "pMARS")[: len(programs)]]
    print(f"{'a turn of':<24}" + "".join(f"{head:>13}" for head in heads), flush=True)
    costs = []
    with tempfile.TemporaryDirectory() as place:
        for match in MATCHES.split(","):
            files = [warrior(place, name) for name in match.split()]
            refuse_deaths(programs[0], files)
            costs.append([*(count(program, files) for program in programs), *times(programs, files, words.runs)])
            print(f"{', '.join(match.split()):<24}" + "".join(f"{cost:>13.1f}" for cost in costs[-1]), flush=True)
        print(f"{'geometric mean':<24}" + "".join(f"{geometric_mean(column):>13.1f}" for column in zip(*costs)))
        papers = [warrior(place, "PAPER")] * 2
        counts = [allocations([programs[0], *words_of(papers, 100, rounds)]) for rounds in (1, 10)]
        print(f"allocations: {counts[0]} in one round, {counts[1]} in ten")
