"""Compares the names and numbers of mars.h with the definitions of the crates, for `dev/checks/rules`."""
from __future__ import annotations

import os
import re
import runpy
from collections.abc import Iterator

TOP = os.path.abspath(os.path.join(os.path.dirname(__file__), "..", ".."))
# The functions that read the header for the package.
READER = runpy.run_path(os.path.join(TOP, "python", "corewar", "model", "header.py"))
# The definition of each limit: its file, and what is before the number.
LIMITS = {
    "MAX_CORE": ("mars_cell/Limits", "max_core_size ="),
    "MAX_PROCESSES": ("mars_cell/Limits", "max_processes ="),
    "MAX_CYCLES": ("mars_cell/Limits", "max_cycles ="),
    "MAX_WARRIORS": ("mars_core/Limits", "max_warriors ="),
    "MAX_LEAGUE": ("mars_match/Leagues", "max_league_warriors ="),
    "MAX_ROUNDS": ("mars_app/Limits", "max_rounds ="),
    "MAX_SEED": ("mars_match/Placement", "max_seed ="),
    "MAX_HISTORY": ("mars_app/Limits", "max_history ="),
    "MAX_FORMULA": ("redcode_asm/Formula", r"formula_of text = if nat_lt"),
    "MARK": ("mars_core/Block", "block_mark ="),
}
# For each enumeration of errors in the header, the definition of its numbers, without `_number`.
ERRORS = {"PARAMETERS": "parameter", "WARRIOR": "entrant"} | {
    name: name.lower()
    for name in ("SETTINGS", "EXPRESSION", "ASSEMBLY", "TEXT", "LOAD", "PLACEMENT", "BATTLE", "BLOCK", "EDIT", "LINEUP")
}
# Errors that have a result of their own, or that no call returns.
ABSENT = {"OutOfMemory", "NoWarrior", "TooMany"}


def definitions(file: str) -> str:
    """Returns the text of a file of definitions, named as CRATE/FILE."""
    crate, name = file.split("/")
    with open(os.path.join(TOP, "crates", crate, "specs", f"{name}.antt")) as text:
        return text.read()


def cases(file: str, name: str) -> dict[str, str]:
    """Returns the value of a definition for each constructor: a name, a number, or the code of an error."""
    head = rf"^{name} (?:numbers )?\(?(?:\w+\.)?(\w+)[^=\n]*=\s+"
    value = r'(?:codes "|numbered |record \(numbered |\(numbers\.what ≡ )?([^\s";)]+)'
    return dict(re.findall(head + value, definitions(file), re.M))


def spelled(name: str) -> str:
    """Returns the name of a constructor as the header spells it: NO_ROOM for NoRoom."""
    return re.sub(r"(?<!^)(?=[A-Z])", "_", name).upper()


def defined() -> Iterator[tuple[str, str]]:
    """Yields each name that the header should have, without MARS_, and its number."""
    for kind in ("op", "modifier"):
        words = cases("mars_cell/Words", f"{kind}_name")
        yield from ((words[name], number) for name, number in cases("mars_cell/Cells", f"{kind}_index").items())
    for name, number in cases("mars_cell/Cells", "mode_index").items():
        yield spelled(name), number
    yield "DONE", "0"
    for name, number in {**cases("mars_c/Codes", "block_fault_of"), **cases("mars_c/Codes", "fault_of")}.items():
        # The first has the number of Edit, and the others that of the settings.
        if name not in ("NoSuchEdit", "History", "Pasts"):
            yield {"Capacity": "ROOM"}.get(name, spelled(name)), number
    for kind, definition in ERRORS.items():
        numbers = cases("mars_c/Codes", f"{definition}_number")
        yield from ((f"{kind}_{spelled(name)}", number) for name, number in numbers.items() if name not in ABSENT)
    yield "EDIT_NO_SUCH_EDIT", "1"
    for name, number in cases("mars_c/Blocks", "Means").items():
        yield {"Spawn": "ADD_PROCESS"}.get(name, spelled(name)), number
    for kind, prefix in (("way", ""), ("number", "NUMBER_")):
        numbers = cases("mars_c/Following", f"{kind}_index")
        yield from ((prefix + spelled(name), number) for name, number in numbers.items())
    for name, (file, before) in LIMITS.items():
        yield name, re.findall(rf"^{before} (\d+)", definitions(file), re.M)[0]


def differences() -> Iterator[str]:
    """Yields a line for each name with different numbers in the header and in the definitions."""
    wanted = {name: int(number) for name, number in defined()}
    found = READER["numbers"]()
    for name in sorted(wanted.keys() | found.keys()):
        if wanted.get(name) != found.get(name):
            yield f"MARS_{name}: {found.get(name)} in the header, {wanted.get(name)} in the definitions"
    characters, modes = READER["characters"](), "".join(cases("mars_cell/Words", "mode_name").values())
    if characters != modes:
        yield f"modes: {characters} in the header, {modes} in the definitions"
