"""Compares battles of two warriors in pMARS, without read and write limits: the core after some turns, the next
address, and who survives.
"""
from __future__ import annotations

import os
import random
import re
import subprocess
import tempfile
from collections.abc import Iterator, Mapping

from evaluating.base import Value
from evaluating.evaluator import Evaluator

from .comparison import Comparison
from .contests import random_fighters
from .library import TOP

# The pMARS that `dev/bench/pmars build/pmars` builds. The one in Debian's package opens a window, and has no debugger.
PMARS = os.path.join(TOP, "build", "pmars", "pmars")
# The number of lines after which the debugger of pMARS waits for a key.
PAGE = 15
# A run that takes longer hangs, as pMARS does for some values of expressions.
SECONDS = 5
CELL = re.compile(r"(\d{5})   (?:([A-Z]{3})\.([A-Z]{1,2}) *(\S) *(-?\d+), (\S) *(-?\d+))?")
MODES = {"#": "Immediate", "$": "Direct", "*": "AIndirect", "@": "BIndirect"}
MODES |= {"{": "APredecrement", "<": "BPredecrement", "}": "APostincrement", ">": "BPostincrement"}
# What pMARS prints for one round, the wins of each warrior and the ties, by which of the two are alive at the end.
RESULTS = {(True, False): "1 0 0", (False, True): "0 1 0", (True, True): "0 0 1"}


def has_pmars() -> bool:
    """Returns whether pMARS was built."""
    return os.path.isfile(PMARS)


def cells_in(text: str, core: int) -> dict[int, Value]:
    """Returns the cells that pMARS lists, by their addresses. An empty line is `DAT.F $0, $0`."""
    cells = {}
    for address, opcode, modifier, a_mode, a, b_mode, b in CELL.findall(text):
        cells[int(address)] = {
            "op": (opcode.capitalize() or "Dat",),
            "modifier": (modifier.capitalize() or "F",),
            "a_mode": (MODES.get(a_mode, "Direct"),),
            "b_mode": (MODES.get(b_mode, "Direct"),),
            "a": int(a or 0) % core,
            "b": int(b or 0) % core,
        }
    return cells


class Round:
    """A round in pMARS, of two warriors with the second one at a position, or of a single warrior.

    - `settings`: values of `core`, `cycles`, `processes`, `longest` and `distance`
    - `texts`: the sources of the warriors
    """

    def __init__(self, settings: Mapping[str, int], texts: list[bytes], position: int = 0) -> None:
        self.core, self.texts = settings["core"], texts
        options = {"-s": "core", "-c": "cycles", "-p": "processes", "-l": "longest", "-d": "distance"}
        self.words = [word for option, name in options.items() for word in (option, str(settings[name]))]
        self.words += ["-F", str(position)] if position else []

    def run(self, *words: str, lines: str = "") -> str:
        """Returns what pMARS prints, with these lines for its debugger; nothing if it hangs."""
        with tempfile.TemporaryDirectory() as folder:
            files = [os.path.join(folder, f"{index}.red") for index in range(len(self.texts))]
            for file, text in zip(files, self.texts):
                with open(file, "wb") as stream:
                    stream.write(text)
            command = [PMARS, *words, *self.words, *files]
            try:
                done = subprocess.run(command, input=lines.encode(), capture_output=True, timeout=SECONDS)
            except subprocess.TimeoutExpired:
                return ""
            return done.stdout.decode("latin-1")

    def core_after(self, turns: int) -> tuple[Value, Value]:
        """Returns the core that the debugger of pMARS lists after some turns, at least one, and the next address."""
        # `skip 0` executes one turn.
        pages = [f"list {first},{min(first + PAGE, self.core) - 1}" for first in range(0, self.core, PAGE)]
        text = self.run("-b", "-e", lines="\n".join([f"skip {turns - 1}", *pages, "quit", ""]))
        # The first line is the instruction before the first turn, the second one that after the turns.
        later = text.partition("(cdb) ")[2]
        cells, following = cells_in(later.partition("(cdb) ")[2], self.core), CELL.search(later)
        return tuple(cells.get(address) for address in range(self.core)), int(following[1]) if following else None

    def result(self) -> str:
        """Returns the line of pMARS with the wins of each warrior and the ties, or `no line` if it prints none."""
        found = re.search(r"^Results: (\d \d \d)$", self.run("-b"), re.M)
        return found[1] if found else "no line"


def reads_itself_changed(definitions: Evaluator, state: Value) -> bool:
    """Returns whether the A-operand of the next instruction changes the instruction, whose B-mode is `#`. In this case
    pMARS takes the instruction as it was fetched (docs/user/LANGUAGE.md has the differences).
    """
    place = state["queues"][state["next"]][0]
    cell = state["core"][place]
    written = {"core": state["core"], "changes": ()}
    a_operand = definitions("mars_core.Operand.evaluated", state["params"], written, place, cell["a_mode"], cell["a"])
    return cell["b_mode"] == ("Immediate",) and bool(a_operand["written"]["core"][place] != cell)


def compare_pmars(definitions: Evaluator, dice: random.Random) -> Iterator[Comparison]:
    """Compares the core after some turns of two random warriors, and who survives, up to the first turn that pMARS
    executes differently.
    """
    core, longest = dice.choice([8, 12, 20, 41]), dice.choice([1, 2, 4])
    bounds = {"core_size": core, "processes": dice.choice([1, 2, 8]), "cycles": dice.choice([5, 30])}
    bounds |= {"read_limit": core, "write_limit": core, "max_length": longest, "distance": longest}
    position, warriors = dice.randint(longest, core - longest), random_fighters(dice, core, longest, 2)
    given = bounds, position, warriors
    states = [definitions("mars_core.Start.start_state", bounds, tuple(warriors), (0, position))]
    while not (is_over := definitions("mars_core.State.is_over_of", states[-1])):
        if reads_itself_changed(definitions, states[-1]):
            break
        states.append(definitions("mars_core.Turn.turn_of", states[-1]))
    settings = {"core": core, "cycles": bounds["cycles"], "processes": bounds["processes"]}
    settings |= {"longest": longest, "distance": longest}
    texts = [bytes(definitions("mars_cell.Written.load_text", core, warrior)) for warrior in warriors]
    played = Round(settings, texts, position)
    # The state in which the battle is over has no front of a queue that could be compared.
    running = states[:-1] if is_over else states
    if len(running) > 1:
        turns = dice.randrange(1, len(running))
        state = states[turns]
        following = definitions("mars_core.Turn.front_of", state["queues"][state["next"]])
        yield Comparison("cores", (given, turns), (state["core"], following), played.core_after(turns))
    if is_over:
        lives = definitions("mars_match.Battles.lives", states[-1])
        yield Comparison("results", given, RESULTS.get(lives), played.result())
