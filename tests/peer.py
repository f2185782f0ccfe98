"""Runs pMARS, for the tests of agreement with it. dev/bench/pmars builds it from Debian's source, without a display."""
from __future__ import annotations

import re
import subprocess
from pathlib import Path

from counting import TOP, skip

from corewar.engine.warriors import Warrior
from corewar.model.cells import cell_text
from corewar.model.settings import HILLS, Settings

PMARS, DEBIAN = Path(TOP) / "build" / "pmars" / "pmars", Path("/usr/share/doc/pmars/examples")
# A cell in a line, as pMARS lists it.
CELL = re.compile(r"^(START)? +([A-Z]{3}\.[A-Z]{1,2}) +([#$@<>*{}]) *(-?\d+), ([#$@<>*{}]) *(-?\d+)", re.M)


def build_pmars() -> Path:
    """Returns the path of the program, which is built once."""
    if not DEBIAN.is_dir():
        skip("agreement with pMARS", "there is no pMARS", "pmars")
    if not PMARS.is_file():
        subprocess.run([Path(TOP) / "dev" / "bench" / "pmars", PMARS.parent], check=True, capture_output=True)
    return PMARS


def words_of(settings: Settings) -> list[str]:
    names = {"-s": "core", "-c": "cycles", "-p": "processes", "-l": "longest", "-d": "distance"}
    return [word for option, name in names.items() for word in (option, str(getattr(settings, name)))]


def run_pmars(pmars: Path, *words: object) -> str:
    done = subprocess.run([pmars, *map(str, words)], capture_output=True, text=True, timeout=300, errors="replace")
    return done.stdout


def listed_by(pmars: Path, file: Path) -> list[str]:
    """Returns the cells of a source as pMARS lists them, with SEQ in place of CMP, and `START` before the first one to
    be executed. The list is empty if pMARS rejects the source.
    """
    cells = CELL.findall(run_pmars(pmars, "-r", 0, *words_of(HILLS["94nop"]), file))
    return [
        f"{start}{' ' * bool(start)}{op.replace('CMP', 'SEQ')} {a_mode}{a}, {b_mode}{b}"
        for start, op, a_mode, a, b_mode, b in cells
    ]


def own_cells(warrior: Warrior) -> list[str]:
    """Returns the cells of a warrior in the form of `listed_by`."""
    cells = [cell_text(cell, warrior.core) for cell in warrior.cells]
    return [f"START {cell}" if index == warrior.start else cell for index, cell in enumerate(cells)]
