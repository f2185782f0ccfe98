"""Measures the costs of the debugger's history: bytes and machine instructions for each place, and the time of moves.

The warriors are two imps, two papers, and two that split until each has 8,000 processes, in a core of 8000 cells; then
processes are killed in the middle of a queue of 65,536. A figure is the difference between two runs that differ only in
what is measured. For memory these are two long runs, since the peak of a short one is that of this script.
"""
from __future__ import annotations

import argparse
import os
import tempfile

from program import find_program

from .tools import instructions, run_well, warrior

# The turns of most runs, of the longest run, which fills the history, and of the run whose memory is compared with it.
PLACES, MAX_HISTORY, FEWER = 200_000, 1_000_000, 400_000
KILLS = 20_000
SOURCES = {
    "splitter": "SPL 0\nADD.F #1, #1\nJMP -2\n",
    # Its queue of 65,536 processes is full after some 106,000 turns.
    "filler": "SPL 0\nJMP -1\n",
    "dead": "DAT 0, 0\n",
}


def text_of(lines: list[str]) -> str:
    return "".join(f"{line}\n" for line in lines)


def best(command: list[str], lines: list[str]) -> float:
    """Returns the minimum seconds of five runs, which other work on the machine disturbs least."""
    return min(run_well(command, text_of(lines)).seconds for _ in range(5))


def measure_places(program: str, kind: str, file: str) -> None:
    """Prints the costs of a place and of moves over many places."""
    command = [program, "-e", "-c", str(MAX_HISTORY), "-F", "4000", "--history", str(MAX_HISTORY), file, file]
    ready = [f"run {PLACES}"]
    fewer, most = (run_well(command, text_of([f"run {count}", "queue 0"])) for count in (FEWER, MAX_HISTORY))
    # The last line is `queue 0:` and an address for each process.
    processes = len(most.output.splitlines()[1].split()) - 2
    print(f"two {kind}: {(most.peak - fewer.peak) / (MAX_HISTORY - FEWER):.0f} bytes for each place")
    print(
        f"  run {MAX_HISTORY}: {most.seconds:.3f} s, {most.peak / 1e6:.0f} MB; warrior 0 has {processes} processes then"
    )
    base = best(command, ready)
    print(f"  run {PLACES}: {base:.3f} s from nothing")
    for name, lines in {
        "goto 0": ["goto 0"],
        f"goto 0, goto {PLACES}": ["goto 0", f"goto {PLACES}"],
        "1,000 steps, 1,000 undos, 1,000 redos": ["step"] * 1000 + ["undo"] * 1000 + ["redo"] * 1000,
        "10 undos and redos of the run": ["undo", "redo"] * 10,
    }.items():
        print(f"  then {name}: {best(command, ready + lines) - base:.3f} s")
    moves: list[list[str]] = [[], ["goto 0"], ["goto 0", f"goto {PLACES}"]]
    count, back, forth = (instructions(command, text_of([*ready, *lines]))[0] for lines in moves)
    each = ((back - count) / PLACES, (forth - back) / PLACES)
    print(f"  machine instructions for each place: {each[0]:.0f} back, {each[1]:.0f} forth")


def measure_start(program: str, file: str) -> None:
    """Prints the costs of a history at the start, when its places are allocated but not touched."""
    command = [program, "-e", file, "--history"]
    least = run_well([*command, "1"], "show\n").peak
    for history in PLACES, MAX_HISTORY:
        sized = [*command, str(history)]
        more = (run_well(sized, "show\n").peak - least) / 1e3
        print(f"start with a history of {history}: {best(sized, ['show']):.3f} s, {more:.0f} KB more than with 1")


def measure_forgetting(program: str, file: str) -> None:
    """Prints the time of more turns than the history has places, and of moves over a full history."""
    command = [program, "-e", "-c", "4000000", "--history", str(MAX_HISTORY), file]
    full = [f"run {MAX_HISTORY}"] * 2
    base = best(command, full)
    print(f"{len(full) * MAX_HISTORY} turns, of which {MAX_HISTORY} are kept: {base:.3f} s")
    for line in f"goto {MAX_HISTORY + MAX_HISTORY // 2}", "goto 0", "undo", "step":
        print(f"  then {line}: {best(command, [*full, line]) - base:.3f} s")
    back_and_forth = [f"goto {2 * MAX_HISTORY - 1}", f"goto {2 * MAX_HISTORY}"] * 1000
    print(f"  then 1,000 gotos to the last place but one and back: {best(command, full + back_and_forth) - base:.3f} s")
    print(f"  then 1,000 gotos to a forgotten turn: {best(command, full + ['goto 0'] * 1000) - base:.3f} s")


def measure_kills(program: str, file: str) -> None:
    """Prints the time of kills in the middle of a queue of 65,536, each before a spawn or a turn, and of a walk back
    over them.
    """
    turns = MAX_HISTORY // 2
    command = [program, "-e", "-c", str(MAX_HISTORY), "-p", "65536", "--history", str(MAX_HISTORY), file]
    base = best(command, [f"run {turns}"])
    for other in "spawn 0 5", "step":
        lines = [f"run {turns}", *["kill 0 30000", other] * KILLS]
        seconds = best(command, lines)
        print(f"{KILLS} of kill 0 30000 and {other}, of 65,536 processes: {seconds - base:.3f} s")
        print(f"  then goto {turns}, before them: {best(command, [*lines, f'goto {turns}']) - seconds:.3f} s")


def measure_long(program: str, file: str) -> None:
    """Prints the time and memory of a session of ten million turns with the default history."""
    done = run_well([program, "-e", "-c", "10000000", "-F", "4000", file, file], text_of([f"run {MAX_HISTORY}"] * 10))
    last = done.output.decode().splitlines()[-1]
    print(f"{last}, at the default history: {done.seconds:.2f} s, {done.peak / 1e6:.0f} MB")


def measure(words: argparse.Namespace) -> None:
    program, imp = find_program(words.program), warrior("", "imp")
    with tempfile.TemporaryDirectory() as folder:
        paths = {name: os.path.join(folder, f"{name}.red") for name in SOURCES}
        for name, source in SOURCES.items():
            with open(paths[name], "w") as file:
                file.write(source)
        measure_places(program, "imps", imp)
        measure_places(program, "papers", warrior("", "paper"))
        measure_places(program, "splitters", paths["splitter"])
        measure_start(program, paths["dead"])
        measure_forgetting(program, imp)
        measure_kills(program, paths["filler"])
        measure_long(program, imp)
