"""Finds the program to run: a given one, the built one of this repository, or one on the path."""
from __future__ import annotations

import os
import shutil

TOP = os.path.dirname(os.path.dirname(os.path.realpath(__file__)))
# The crate of the program, and the file that a proof of it leaves.
CRATE = "mars"
BUILT = os.path.join(TOP, "crates", CRATE, "out", CRATE)


class NoProgram(Exception):
    """There is no program to run; the text names the missing file."""


def find_program(given: str | None = None) -> str:
    """Returns the file of the program: the given one, or the built one, or one on the path. Raises NoProgram."""
    program = given or (BUILT if os.path.isfile(BUILT) else shutil.which("mars") or BUILT)
    if not os.path.isfile(program) or not os.access(program, os.X_OK):
        raise NoProgram(f"{program}: no such program" + ("" if given else "; prove and build it with `./mars --help`"))
    return os.path.abspath(program)
