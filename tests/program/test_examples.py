"""Checks that each warrior of examples/ assembles and does what its comments say.
"""
from __future__ import annotations

import glob
import os
import subprocess
from collections.abc import Callable, Iterator

import pytest
from counting import PROGRAM, TOP


class Examples:
    """The warriors of examples/, with the program that runs them."""

    def __init__(self, program: str) -> None:
        self.program = program

    def run(self, *words: str, commands: str = "") -> str:
        """Returns the output of the program, with its standard error."""
        files = [os.path.join(TOP, "examples", word) if word.endswith(".red") else word for word in words]
        done = subprocess.run([self.program, *files], input=commands, capture_output=True, text=True, timeout=60)
        return done.stdout + done.stderr

    def cells(self, name: str, *words: str) -> tuple[str, list[str]]:
        """Returns the start of a warrior and its cells."""
        start, *cells = self.run("--load", *words, name).splitlines()[3:]
        return start, cells

    def survives_alone(self, name: str, *words: str) -> bool:
        """Returns whether a warrior without opponents is alive after all cycles."""
        answer = self.run("-e", *words, name, commands="until 80000\n")
        return answer.startswith("turn ") and " cycle 80000 " in answer and " alive 1 " in answer

    def queue(self, warrior: int, commands: str, *words: str) -> list[int]:
        """Returns the addresses of the processes of a warrior after these commands."""
        last = self.run("-e", *words, commands=f"{commands}\nqueue {warrior}\n").splitlines()[-1]
        return [int(address) for address in last.split(":")[1].split()]


def each_assembles(examples: Examples) -> Iterator[str]:
    """Each file is a warrior, with a name and an author."""
    for path in sorted(glob.glob(os.path.join(TOP, "examples", "*.red"))):
        name = os.path.basename(path)
        start, cells = examples.cells(name)
        heading = examples.run("-c", "1", name).split("\n")[0]
        if not start.startswith("ORG ") or not cells or "Unknown" in heading or "Anonymous" in heading:
            yield f"{name}: {start}"


def none_ends_itself(examples: Examples) -> Iterator[str]:
    """Warriors that claim never to hit themselves survive without opponents."""
    for words in (
        ["fitted.red"],
        ["fitted.red", "-s", "800"],
        ["fitted.red", "-s", "55440"],
        ["boot.red"],
        ["vampire.red"],
    ):
        if not examples.survives_alone(*words):
            yield " ".join(words)


def tailor_is_fitted(examples: Examples) -> Iterator[str]:
    """Tailor has another step in each core, and is rejected if it has none."""
    for size, step in ((800, 248), (8000, 3048), (55440, 13544)):
        _, cells = examples.cells("fitted.red", "-s", str(size))
        if cells[-1] != f"DAT.F #{step}, #{step}":
            yield f"size {size}: {cells[-1]}"
    if "line 6: 5 AssertFailed" not in examples.run("--load", "-s", "1000", "fitted.red"):
        yield "it is not rejected in a core of 1000 cells"


def stranger_boots(examples: Examples) -> Iterator[str]:
    """After its six copies and the jump, Stranger is far away, on a copy of its first working cell."""
    # The pointer `to` is the cell 8, and lowered six times from 3941 + 6.
    at = 8 + 3941
    if examples.queue(0, "run 7", "boot.red") != [at]:
        yield "its process is not on the copy"
    copies = examples.run("-e", "boot.red", commands=f"run 7\nlist {at} 6\nlist 29 6\n").splitlines()[1:]
    if [line.split(" ", 1)[1] for line in copies[:6]] != [line.split(" ", 1)[1] for line in copies[6:]]:
        yield "the copies are not those of its last six cells"


def dusk_traps(examples: Examples) -> Iterator[str]:
    """In this fight Lookout ends in the trap of Dusk, the cells 0 to 2, with more and more processes."""
    queue = examples.queue(1, "until 1500", "vampire.red", "scanner.red")
    if len(queue) < 100 or not set(queue) <= {0, 1, 2}:
        yield f"{len(queue)} processes, at {sorted(set(queue))[:5]}"


def silk_weaves(examples: Examples) -> Iterator[str]:
    """The name of several lines becomes three pairs of SPL and MOV, and eight processes copy."""
    _, cells = examples.cells("silk.red")
    pairs = [cell for place in (3620, -1270, 2404) for cell in (f"SPL.B @0, ${place}", "MOV.I }-1, >-1")]
    if cells[:3] != ["SPL.B $1, $0"] * 3 or cells[3:9] != pairs:
        yield str(cells)
    if len(examples.queue(0, "run 7", "silk.red")) != 8:
        yield "there are not eight processes after seven turns"


def glance_strikes(examples: Examples) -> Iterator[str]:
    """Glance strikes within 60 of its turns if a warrior is at a place that it looks at, and not otherwise."""
    _, cells = examples.cells("quick.red")
    strike = cells.index("MOV.I $10, *11")
    aim = len(cells) - 1
    # The two cells of the second pair: two hops of 320 cells from `aim`, and a gap of 160 cells apart.
    for place in (aim + 640, aim + 640 + 160):
        seen = examples.queue(0, "run 120", "-F", str(place), "quick.red", "gate.red")
        if len(seen) != 1 or not strike <= seen[0] <= strike + 3:
            yield f"a warrior at {place} is not struck: {seen}"
    seen = examples.queue(0, "run 120", "-F", str(aim + 700), "quick.red", "gate.red")
    if seen[0] <= strike + 3:
        yield f"it strikes at nothing: {seen}"


@pytest.mark.parametrize(
    "claim",
    [each_assembles, none_ends_itself, tailor_is_fitted, stranger_boots, dusk_traps, silk_weaves, glance_strikes],
)
def test_claims(claim: Callable[[Examples], Iterator[str]]) -> None:
    """A warrior does what its comments say."""
    assert not list(claim(Examples(PROGRAM)))
