"""Agreement with pMARS: matches by its two series of starting positions, single positions, and the cells of sources.

The sources are the examples of this kit and of Debian's package that fight in both programs.
"""
from __future__ import annotations

import random
import re
from collections.abc import Sequence
from itertools import permutations
from pathlib import Path

import pytest
from conftest import EXAMPLES, Run
from peer import DEBIAN, listed_by, own_cells, run_pmars, words_of

from corewar.battle.series import seed_of_cells, seed_of_position
from corewar.cli.options import MAX_PMARS_POSITION
from corewar.engine.calls import Match, match
from corewar.engine.sources import read
from corewar.engine.warriors import Warrior
from corewar.model.cells import MODES, MODIFIERS, OPCODES
from corewar.model.errors import FileError
from corewar.model.settings import HILLS, Settings

# A core of another size in which much happens soon.
SMALL = Settings(core=100, processes=7, cycles=300, longest=10, distance=10)
# What pMARS does in another way, as LANGUAGE.md says: a side effect of A before an immediate B.
EARLY = re.compile(r" [<>{}]\S+ #")


def fought(pmars: Path, settings: Settings, files: Sequence[object], *words: object) -> list[tuple[int, ...]]:
    """Returns the wins and the ties of each warrior, as pMARS counts them."""
    lines = run_pmars(pmars, "-b", "-k", *words_of(settings), *words, *files).splitlines()
    return [tuple(map(int, line.split())) for line in lines if line]


def ours(
    warriors: Sequence[Warrior], settings: Settings, rounds: int, seed: int, position: int
) -> list[tuple[int, ...]]:
    """Returns the wins and the ties of each warrior in this kit, by the seed or, if that is 0, by the position."""
    given = {"seed": seed} if seed else {"position": position}
    rows = match(warriors, settings=settings, rounds=rounds, **given)  # type: ignore[arg-type]
    return [(row.wins, row.ties) for row in rows]


def readable(settings: Settings) -> list[tuple[Path, Warrior]]:
    """Returns the sources that both programs read, each with its warrior. Two of Debian's, which use P-space or an EQU
    across loops, are left out.
    """
    found = []
    for path in [*sorted(EXAMPLES.glob("*.red")), *sorted(DEBIAN.glob("*.red"))]:
        try:
            found.append((path, read(path, settings=settings)))
        except FileError:
            continue
    return found


def random_cells(dice: random.Random, settings: Settings) -> str:
    """Returns the source of a random warrior, cell by cell."""
    lines = ["ORG 0"]
    while len(lines) <= settings.longest:
        opcode = dice.choice([*OPCODES, "MOV", "SPL", "ADD", "DJN"])
        numbers = [dice.choice([dice.randrange(-9, 10), dice.randrange(settings.core)]) for _ in "AB"]
        line = f"{opcode}.{dice.choice(MODIFIERS)} {dice.choice(MODES)}{numbers[0]}, {dice.choice(MODES)}{numbers[1]}"
        lines += [] if EARLY.search(line) else [line]
    return "\n".join([";redcode", ";assert 1", *lines, ""])


def different(pmars: Path, file: Path, warrior: Warrior) -> list[tuple[str, str]]:
    """Returns the pairs of cells that differ: the cell that a source makes here, and the one that it makes in pMARS."""
    theirs, own = listed_by(pmars, file), own_cells(warrior)
    assert len(own) == len(theirs), file
    return [pair for pair in zip(own, theirs) if pair[0] != pair[1]]


def test_matches_by_both_series(pmars: Path) -> None:
    """Every pair of sources has the same results in both orders, in 40 rounds by a position and in 40 by the cells."""
    settings, dice = HILLS["94nop"], random.Random(1)
    # One series begins with a sum of the cells, so both programs need the same cells.
    sources = [(file, warrior) for file, warrior in readable(settings) if not different(pmars, file, warrior)]
    for (one, first), (other, second) in permutations(sources, 2):
        position, warriors = dice.randrange(100, 7901), [first, second]
        seeds = seed_of_position(position, settings), seed_of_cells(Match(warriors))
        for words, seed in zip((("-F", position), ("-f",)), seeds):
            expected = fought(pmars, settings, (one, other), "-r", 40, *words)
            assert ours(warriors, settings, 40, seed, position) == expected, (one, other, words)


def test_positions_one_by_one(pmars: Path) -> None:
    """Every position of a pair in a nano core has the same results; beyond the last one pMARS begins again."""
    settings = HILLS["nano"]
    for files in permutations([EXAMPLES / "dwarf.red", EXAMPLES / "imp.red"]):
        warriors = [read(file, settings=settings) for file in files]
        for position in range(5, 76):
            expected = fought(pmars, settings, files, "-F", position)
            assert ours(warriors, settings, 1, 0, position) == expected, position
        for position in (5, 76, 1000, MAX_PMARS_POSITION):
            expected = fought(pmars, settings, files, "-r", 30, "-F", position)
            assert ours(warriors, settings, 30, seed_of_position(position, settings), 5) == expected, position


@pytest.mark.parametrize("name", ["tiny", "nano", "94x", "small"])
def test_random_warriors(pmars: Path, tmp_path: Path, name: str) -> None:
    """Battles of random cells, which use every opcode, modifier and mode, have the same results by both series."""
    settings, dice = HILLS.get(name, SMALL), random.Random(name)
    for number in range(4 if name == "94x" else 60):
        files = [tmp_path / f"{number}-{side}.red" for side in (0, 1)]
        for file in files:
            file.write_text(random_cells(dice, settings))
        warriors = [read(file, settings=settings) for file in files]
        position = dice.randrange(settings.distance, settings.core - settings.distance + 1)
        seeds = seed_of_position(position, settings), seed_of_cells(Match(warriors, settings=settings))
        for words, seed in zip((("-F", position), ("-f",)), seeds):
            expected = fought(pmars, settings, files, "-r", 20, *words)
            assert ours(warriors, settings, 20, seed, position) == expected, (files, words)


def test_cells_of_sources(pmars: Path) -> None:
    """Each source makes the same cells in both programs, except for CMP and for DAT with one operand."""
    found = [(file.name, different(pmars, file, warrior)) for file, warrior in readable(HILLS["94nop"])]
    assert len(found) >= 16
    assert {name for name, differ in found if differ} == {"validate.red"}
    assert all("DAT.F $0" in own for _, differ in found for own, _ in differ)


def test_the_options(pmars: Path, run: Run) -> None:
    """The options of `corewar` select these series, and print the seed that selects the same positions."""
    files = [EXAMPLES / "dwarf.red", EXAMPLES / "scanner.red"]
    for option, words in (("--pmars-position=4000", ("-F", 4000)), ("--pmars-fixed", ("-f",))):
        expected = fought(pmars, HILLS["94nop"], files, "-r", 50, *words)
        done = run("fight", "-r", 50, option, *files)
        assert done.returncode == 0 and f"the starting positions of `pmars {words[0]}" in done.stderr
        rows = [tuple(map(int, line.split()[1:3])) for line in done.stdout.splitlines()[1:]]
        assert rows == expected
        seed = re.findall(r"--seed (\d+)", done.stderr)[0]
        assert run("fight", "-r", 50, "--seed", seed, *files).stdout == done.stdout
        assert run("challenge", "-r", 50, option, *files).stdout.splitlines()[1].split()[1:3] == [*map(str, rows[0])]
        assert f"--seed {seed}" in run("rounds", "-r", 2, option, *files).stdout
    for refused in (
        ("fight", "--pmars-fixed", "--seed=3", *files),
        ("fight", "--pmars-position=99", *files),
        ("melee", "--size=2", "--pmars-fixed", *files),
    ):
        assert run(*refused).returncode == 2
    assert run("challenge", "--pmars-fixed", "--results=x.sqlite", *files).returncode == 1


def test_every_position(pmars: Path, run: Run) -> None:
    """A match at all positions, in both orders, has the results of `pmars -P`."""
    for names in (("dwarf", "scanner"), ("imp", "bomber")):
        files = [EXAMPLES / f"{name}.red" for name in names]
        done = run("fight", "--hill", "tiny", "--positions", "all", *files)
        rows = [tuple(map(int, line.split()[1:3])) for line in done.stdout.splitlines()[1:3]]
        assert rows == fought(pmars, HILLS["tiny"], files, "-P")
