"""Compares what is read from sources and load files, their errors, and written load files."""
from __future__ import annotations

import glob
import os
import random
import re
from collections.abc import Iterator
from functools import lru_cache

from evaluating.base import Value
from evaluating.evaluator import Evaluator

from .comparison import Comparison
from .library import TOP, array, call, new, plain, read_text, room, rows_in
from .machine import random_cell
from .texts import mutated, text_of

# More cells than the maximum length of `random_settings`.
ROOM_FOR_CELLS = 400
# Parts of load files, right or wrong.
PARTS = [";load 3 80\n", ";", "-", "ORG 1", "END 0", "END", "x", ",", "99", "9" * 18, "9" * 19, "CMP", "nop"]


def random_settings(dice: random.Random) -> Value:
    """Returns settings, as the library takes them; a few of them are out of range."""
    core = dice.choice([1, 7, 20, 80, 800, 8000, 8000])
    longest = min(core, dice.choice([5, 20, 100, 100]))
    settings = {
        "core": core,
        "processes": dice.choice([1, 8, 8000]),
        "cycles": dice.choice([1, 80000]),
        "read_limit": dice.choice([0, 0, max(1, core // 3)]),
        "write_limit": dice.choice([0, 0, max(1, core // 2)]),
        "longest": longest,
        "distance": dice.randint(longest, core),
        "rounds": dice.choice([1, 10]),
        "seed": dice.randint(1, 2147483646),
        "position": 0,
    }
    if dice.random() < 0.03:
        settings[dice.choice(["core", "cycles", "read_limit", "longest", "distance"])] = dice.choice([0, core + 1])
    return settings


def refused(definitions: Evaluator, *refusal: Value) -> Value:
    """Returns the error that a caller gets for a refusal."""
    return definitions("mars_c.Codes.fault_of", refusal)


def parameters(definitions: Evaluator, settings: Value) -> Value:
    """Returns the parameters of settings, or the first error."""
    given = definitions("mars_c.Settings.parameters_in", settings)
    return definitions("mars_cell.ParameterFaults.checked_parameters", given)


def with_refusal(name: str, result: Value) -> Value:
    """Returns a result. If it is an error, the error becomes a refusal with this name."""
    return ("Err", (name, result[1])) if result[0] == "Err" else result


def read_program(name: str, *words: object) -> Value:
    """Returns the program and the cells that the library reads, or its error, without the lines of a source."""
    cells, program = room("MarsCell", ROOM_FOR_CELLS), new("MarsProgram *", {"name": [0]})
    unread = [*room("MarsLine", 0), *room("uint8_t", 0), new("size_t *", 0)] if name == "mars_assemble" else []
    fault = call(name, *words, *cells, program, *unread)
    return fault if fault["code"] else (plain(program[0]), rows_in(cells[0], program.warrior.length))


def read_lines(*words: object) -> Value:
    """Returns the lines and the labels of the cells of a source, or its error."""
    cells, program = room("MarsCell", ROOM_FOR_CELLS), new("MarsProgram *", {"name": [0]})
    lines = room("MarsLine", ROOM_FOR_CELLS)
    labels = read_text("mars_assemble", *words, *cells, program, *lines)
    if isinstance(labels, dict):
        # A record in place of the text is the error.
        return labels
    return {"lines": rows_in(lines[0], program.warrior.length), "labels": labels}


def compare_program(
    definitions: Evaluator, kind: str, given: Value, defined: Value, name: str, *words: object
) -> Comparison:
    """Compares a program that the library reads, or its error. `defined` is a result, whose error is a refusal."""
    computed = read_program(name, *words)
    if defined[0] == "Err":
        return Comparison(kind, given, refused(definitions, *defined[1]), computed)
    own_cells = tuple(map(definitions.get("mars_c.Cells.plain_cell"), defined[1]["cells"]))
    return Comparison(kind, given, (definitions("mars_c.Entrants.plain_program", defined[1]), own_cells), computed)


@lru_cache(maxsize=None)
def examples(most: int = 800) -> list[str]:
    """Returns the sources of the examples that have at most this many bytes."""
    files = sorted(glob.glob(os.path.join(TOP, "examples", "*.red")))
    texts = [open(file, encoding="latin-1").read() for file in files]
    return [text for text in texts if len(text) <= most]


def compare_sources(definitions: Evaluator, dice: random.Random) -> Iterator[Comparison]:
    """Compares the warrior of a source, or its first error, and the lines of its cells."""
    settings, warriors = random_settings(dice), dice.choice([1, 2, 9])
    made = dice.choice(examples()) if dice.random() < 0.1 else text_of(dice, "source")
    text = tuple(mutated(dice, made).encode("latin-1"))
    checked = parameters(definitions, settings)
    defined = lines = ("Err", ("Parameters", checked[1]))
    if checked[0] == "Ok":
        given = checked[1], settings["rounds"], warriors, text
        defined = with_refusal("Assembly", definitions("redcode_asm.Assembly.assembly", *given))
        lines = with_refusal("Assembly", definitions("redcode_asm.SourceLines.source_lines", *given))
    words = new("MarsSettings *", settings), warriors, *array("uint8_t", text)
    shown = settings, bytes(text)
    yield compare_program(definitions, "sources", shown, defined, "mars_assemble", *words)
    expected = refused(definitions, *lines[1]) if lines[0] == "Err" else lines[1]
    yield Comparison("lists of lines", shown, expected, read_lines(*words))


def random_warrior(dice: random.Random, core: int, longest: int) -> Value:
    """Returns a warrior of a core of this size."""
    count = dice.randint(1, min(longest, 8))
    names = [dice.choice(["Imp", "", "a;b", "No one"]), dice.choice(["A. K. Dewdney", " x "])]
    return {
        "name": tuple(names[0].encode()),
        "author": tuple(names[1].encode()),
        "cells": tuple(random_cell(dice, core) for _ in range(count)),
        "start": dice.randrange(count),
    }


def compare_written(definitions: Evaluator, dice: random.Random, settings: Value, warrior: Value) -> Comparison:
    """Compares the load file of a warrior, or the error of its names."""
    if dice.random() < 0.2:
        wrong = (dice.choice([31, 32, 65, 126, 127]),) * dice.choice([1, 59, 60, 61, 64])
        warrior = {**warrior, dice.choice(["name", "author"]): wrong}
    cells = tuple(map(definitions.get("mars_c.Cells.plain_cell"), warrior["cells"]))
    program = definitions("mars_c.Entrants.plain_program", warrior)
    given = new("MarsSettings *", settings), *array("MarsCell", cells), array("MarsProgram", [program])[0]
    named, is_name = definitions.get("mars_c.Entrants.named"), definitions.get("mars_c.Entrants.is_name")
    defined = definitions("mars_cell.Written.load_text", settings["core"], warrior)
    if not (is_name(named(program["name"])) and is_name(named(program["author"]))):
        defined = refused(definitions, "Warrior", 0, ("Name",))
    return Comparison("written load files", (settings, warrior), defined, read_text("mars_write_load", *given))


def changed_load(dice: random.Random, text: str) -> str:
    """Returns a load file without its header or its modifiers, with another start, with long numbers, or mutated."""
    if dice.random() < 0.3:
        text = text.partition("\n")[2].partition("\n")[2].partition("\n")[2]
    if dice.random() < 0.3:
        text = re.sub(r"\.[A-Z]+ ", " ", text)
    if dice.random() < 0.1:
        text = re.sub(r"^ORG .*", dice.choice(["ORG -1", "END 1", "ORG 1\nEND 0", "\t"]), text, flags=re.M)
    if dice.random() < 0.1:
        text = re.sub(r"\b\d+\b", dice.choice(["1" * 17, "1" * 18, "1" * 19]), text, count=dice.randint(1, 9))
    return mutated(dice, text, PARTS)


def compare_loads(definitions: Evaluator, dice: random.Random) -> Iterator[Comparison]:
    """Compares the load file of a warrior, and what is read from it: unchanged, in another core, without a header, or
    changed.
    """
    settings = random_settings(dice)
    warrior = random_warrior(dice, max(settings["core"], 1), max(settings["longest"], 1))
    if parameters(definitions, settings)[0] == "Ok":
        yield compare_written(definitions, dice, settings, warrior)
    text = definitions("mars_cell.Written.load_text", settings["core"], warrior)
    data = tuple(changed_load(dice, bytes(text).decode("latin-1")).encode("latin-1"))
    other = random_settings(dice) if dice.random() < 0.4 else settings
    bounds = parameters(definitions, other)
    defined = ("Err", ("Parameters", bounds[1]))
    if bounds[0] == "Ok":
        defined = with_refusal("Load", definitions("mars_cell.Load.load", other["core"], other["longest"], data))
    words = new("MarsSettings *", other), *array("uint8_t", data)
    yield compare_program(definitions, "load files", (other, bytes(data)), defined, "mars_read_load", *words)
