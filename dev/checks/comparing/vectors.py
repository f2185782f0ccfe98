"""Makes battles, sources and matches with their answers by the definitions, as lines of text (docs/dev/VECTORS.md)."""
from __future__ import annotations

import os
import random
import re
import sys
from collections.abc import Callable, Iterator

from evaluating.base import Value
from evaluating.evaluator import Evaluator

from .contests import FORMULA, random_contest, random_fighters
from .library import TOP
from .pmars import reads_itself_changed
from .programs import examples, parameters
from .texts import mutated, text_of

Vector = Callable[[Evaluator, random.Random], Iterator[str]]


def cell_lines(definitions: Evaluator, core: int, cells: Value, word: str = "cell") -> Iterator[str]:
    """Yields a line for each cell."""
    for cell in cells:
        yield f"{word} {bytes(definitions('mars_cell.Text.cell_text', core, cell)).decode()}"


def warrior_lines(definitions: Evaluator, core: int, warriors: list[Value]) -> Iterator[str]:
    """Yields the starts and the cells of warriors."""
    for warrior in warriors:
        yield f"warrior {warrior['start']}"
        yield from cell_lines(definitions, core, warrior["cells"])


def settings_lines(settings: Value) -> Iterator[str]:
    """Yields the settings of a vector."""
    for name in ("core", "processes", "cycles", "longest", "distance"):
        yield f"{name} {settings[name]}"
    yield f"limits {settings['read_limit'] or settings['core']} {settings['write_limit'] or settings['core']}"


def end_of(definitions: Evaluator, state: Value) -> tuple[list[Value], set[str]]:
    """Returns the states of a battle up to its end, and the mark `immediate` if pMARS executes a turn differently."""
    states, marks = [state], set[str]()
    while not definitions("mars_core.State.is_over_of", states[-1]):
        if reads_itself_changed(definitions, states[-1]):
            marks.add("immediate")
        states.append(definitions("mars_core.Turn.turn_of", states[-1]))
    return states, marks


def marks_of(bounds: Value, count: int) -> set[str]:
    """Returns the marks of battles with these parameters and this number of warriors."""
    is_limited = bounds["core_size"] > min(bounds["read_limit"], bounds["write_limit"])
    return {name for name, holds in (("limits", is_limited), ("warriors", count != 2)) if holds}


def battle(definitions: Evaluator, dice: random.Random) -> Iterator[str]:
    """Yields a battle, its state after some turns, and its end."""
    core, longest = dice.choice([8, 12, 20, 41]), dice.choice([1, 2, 4])
    settings = {**random_contest(dice, core, longest, dice.choice([5, 30])), "distance": longest}
    count = 2
    if dice.random() < 0.7:
        settings |= {"read_limit": 0, "write_limit": 0}
    else:
        count = dice.randint(1, min(4, core // longest))
    warriors, bounds = random_fighters(dice, core, longest, count), parameters(definitions, settings)[1]
    places = [index * (core // count) for index in range(count)]
    if count == 2:
        places[1] = dice.randint(longest, core - longest)
    started = definitions("mars_core.Start.start_state", bounds, tuple(warriors), tuple(places))
    states, marks = end_of(definitions, started)
    turns = dice.randrange(len(states))
    state = states[turns]
    yield from settings_lines(settings)
    yield f"places {' '.join(map(str, places))}"
    yield from warrior_lines(definitions, core, warriors)
    yield from (f"pmars {mark}" for mark in sorted(marks | marks_of(bounds, count)))
    yield f"turns {turns}"
    yield from cell_lines(definitions, core, state["core"], "after")
    yield from (" ".join(["queue", *map(str, queue)]) for queue in state["queues"])
    yield f"next {state['next']}"
    yield f"cycle {state['cycle']}"
    yield f"end {states[-1]['turns']}"
    lives = definitions("mars_match.Battles.lives", states[-1])
    yield f"lives {' '.join(str(int(lives)) for lives in lives)}"


def source(definitions: Evaluator, dice: random.Random) -> Iterator[str]:
    """Yields a source, and its warrior or its first error."""
    core = dice.choice([80, 800, 8000])
    settings = {**random_contest(dice, core, min(core, 100), 80000), "read_limit": 0, "write_limit": 0, "rounds": 1}
    settings["distance"] = settings["longest"]
    made = dice.choice(examples()) if dice.random() < 0.1 else text_of(dice, "source")
    text = "".join(f"{line}\n" for line in mutated(dice, made).replace("\0", "@").split("\n"))
    bounds = parameters(definitions, settings)[1]
    result = definitions("redcode_asm.Assembly.assembly", bounds, 1, 1, tuple(text.encode("latin-1")))
    yield from settings_lines(settings)
    yield from (f"| {line}" for line in text.split("\n")[:-1])
    yield from ("pmars " + note for note in differences(text.encode("latin-1"), settings))
    if result[0] == "Err":
        yield f"error {result[1]['line']} {' '.join(names_in(result[1]['problem']))}"
        return
    for name in ("name", "author"):
        yield f"{name} {bytes(result[1][name]).decode('latin-1')}"
    yield from warrior_lines(definitions, core, [result[1]])


def names_in(value: Value) -> list[str]:
    """Returns the names of the constructors in a value."""
    return [value[0], *(name for part in value[1:] for name in names_in(part))]


def differences(data: bytes, settings: Value) -> list[str]:
    """Returns what pMARS reads differently in a source: the notes of `corewar explain --pmars`, and one on asserts."""
    sys.path.insert(0, os.path.join(TOP, "python"))
    from corewar.engine.calls import assemble
    from corewar.explain.pmars import pmars_differences
    from corewar.model.settings import Settings

    numbers = {name: settings[name] for name in ("core", "processes", "cycles", "longest", "distance")}
    notes = pmars_differences(data, lambda text: assemble(text, settings=Settings(**numbers), rounds=1, warriors=1))
    return notes + ["pMARS drops an assert that follows an EQU."] * has_assert_after_equ(data)


def has_assert_after_equ(data: bytes) -> bool:
    """Returns whether only comments and empty lines are between an EQU and an assert."""
    follows = False
    for line in data.split(b"\n"):
        if follows and re.match(rb"\s*;assert\b", line, re.I):
            return True
        if code := line.partition(b";")[0].strip():
            follows = bool(re.search(rb"\bequ\b", code, re.I))
    return False


def match(definitions: Evaluator, dice: random.Random) -> Iterator[str]:
    """Yields a match; for each round, where its warriors start and which are alive at its end; and the results."""
    core, longest = dice.choice([20, 31, 80]), dice.choice([2, 4, 8])
    settings = {**random_contest(dice, core, longest, dice.choice([30, 100])), "rounds": dice.randint(2, 5)}
    if dice.random() < 0.7:
        settings |= {"read_limit": 0, "write_limit": 0}
    count = dice.choice([2, 2, 2, 3])
    settings["distance"] = min(settings["distance"], core // count)
    warriors, bounds = random_fighters(dice, core, settings["longest"], count), parameters(definitions, settings)[1]
    numbers = ("None",), settings["rounds"], settings["seed"]
    scored = definitions("redcode_asm.Formula.formula_of", FORMULA)[1]
    rows = definitions("mars_match.Rounds.table_of", bounds, tuple(warriors), scored, *numbers)[1]
    fates = definitions("mars_match.Fates.fates_of", False, bounds, tuple(warriors), *numbers)[1]
    plan = {"rounds": settings["rounds"], "seed": settings["seed"], "fixed": ("None",)}
    marks = marks_of(bounds, count)
    for number in range(settings["rounds"]):
        setup = {"params": bounds, "plan": plan, "formula": scored}
        started = definitions("mars_c.Battles.round_start_state", setup, tuple(warriors), number)
        marks |= end_of(definitions, started[1])[1]
    yield from settings_lines(settings)
    yield f"seed {settings['seed']}"
    yield f"formula {bytes(FORMULA).decode()}"
    yield from warrior_lines(definitions, core, warriors)
    yield from (f"pmars {mark}" for mark in sorted(marks))
    for number in range(settings["rounds"]):
        own = fates[number * count : (number + 1) * count]
        yield f"round {' '.join(str(fate['start']) for fate in own)}"
        yield f"lives {' '.join(str(int(fate['survived'])) for fate in own)}"
    for row in rows:
        yield f"row {row['points']} {row['wins']} {row['ties']} {row['losses']}"


# For each kind of vectors, the number of vectors, and the function that yields the lines of one.
VECTORS: dict[str, tuple[int, Vector]] = {"battles": (1000, battle), "sources": (300, source), "matches": (100, match)}
