"""Compares what runs of the program `mars` with random options write, and their exit statuses."""
from __future__ import annotations

import os
import random
import subprocess
import sys
import tempfile
from collections.abc import Iterator

from evaluating.base import Value
from evaluating.evaluator import Evaluator

from .comparison import Comparison, some
from .debugging import transcript
from .library import TOP
from .programs import random_warrior
from .texts import debugger_lines, formula, text_of

sys.path.insert(0, os.path.join(TOP, "dev"))
from program import find_program  # noqa: E402

# The numbers of options, and those that may be left out.
NUMBERS = {"rounds": "-r", "core": "-s", "cycles": "-c", "processes": "-p", "longest": "-l", "distance": "-d"}
NUMBERS |= {"seed": "--seed", "history": "--history"}
OPTIONAL = {"fixed": "-F", "read_limit": "--read-limit", "write_limit": "--write-limit"}
FLAGS = {"debugger": "-e", "brief": "-b", "sorted": "-o", "league": "--league", "load": "--load"}


def random_options(dice: random.Random, files: list[str]) -> Value:
    """Returns options, most of them allowed. The values of OPTIONAL are none or some number, as in the definitions."""
    core, longest = dice.choice([8, 20, 31]), dice.choice([1, 4])
    options = {
        "rounds": dice.randint(1, 3),
        "core": core,
        "cycles": dice.choice([1, 5, 20]),
        "processes": dice.choice([1, 8]),
        "longest": longest,
        "distance": dice.randint(longest, longest + 3),
        "seed": dice.randint(1, 2147483646),
        "history": dice.choice([1, 50]),
        **{name: some(dice.randint(1, core) if dice.random() < 0.3 else None) for name in OPTIONAL},
        "score": tuple(one for one in formula(dice) if 0 < one < 128) if dice.random() < 0.3 else tuple(b"(W*W-1)/S"),
        "files": tuple(tuple(name.encode()) for name in files),
        **dict.fromkeys(FLAGS, False),
    }
    for name in dice.sample([*FLAGS], dice.choice([0, 1, 1, 2])):
        options[name] = True
    if dice.random() < 0.1:
        options[dice.choice(["rounds", "core", "cycles", "longest", "seed"])] = dice.choice([0, 100_001, 1 << 31])
    return options


def words_of(options: Value) -> list[str]:
    """Returns the arguments of the program for some options."""
    words = [part for name, word in NUMBERS.items() for part in (word, str(options[name]))]
    for name, word in OPTIONAL.items():
        words += [part for number in options[name][1:] for part in (word, str(number))]
    words += [word for name, word in FLAGS.items() if options[name]]
    score = bytes(options["score"]).decode("latin-1")
    return [*words, f"--score={score}", *(bytes(name).decode() for name in options["files"])]


def expected(definitions: Evaluator, options: Value, contents: list[bytes], lines: tuple[int, ...]) -> Value:
    """Returns the exit status and the output, by the definitions in the order in which the program uses them."""

    def failed(*fault: Value, output: Value = ()) -> Value:
        return definitions("mars_app.Status.status_of", fault), output

    if not definitions("mars_app.Options.are_allowed", options):
        return failed("Words")
    given = definitions("mars_app.Options.parameters_of", options)
    bounds = definitions("mars_cell.ParameterFaults.checked_parameters", given)
    if bounds[0] == "Err":
        return failed("Parameters", bounds[1])
    scored = definitions("redcode_asm.Formula.formula_of", options["score"])
    if scored[0] == "Err":
        return failed("Formula", ("Expression", scored[1]))
    count = definitions("mars_app.Contests.contest_size", options)
    warriors: Value = ()
    for name, content in zip(options["files"], contents):
        found = definitions(
            "mars_app.Loading.warrior_of_file", bounds[1], options["rounds"], count, name, tuple(content)
        )
        if found == ("None",):
            return failed("Load", None, None, None)
        warriors += (found[1],)
    if options["load"]:
        return 0, definitions("mars_cell.Written.load_text", options["core"], warriors[0])
    plan = {name: options[name] for name in ("rounds", "seed", "fixed")}
    setup = {"params": bounds[1], "plan": plan, "formula": scored[1]}
    if options["debugger"]:
        started, output = definitions("mars_app.Debugging.first_round", setup, warriors), ()
    else:
        started = definitions("mars_app.Contests.contest", options["league"], setup, warriors)
        output = definitions("mars_app.Contests.listing", options["core"], options["brief"], warriors)
    if started[0] == "Err":
        return failed(*definitions("mars_app.Contests.fault_of", started[1]), output=output)
    if options["debugger"]:
        session = definitions("mars_app.Debugging.session_at", options["history"], started[1])
        return 0, transcript(definitions, session, lines)
    return 0, output + definitions("mars_match.Results.results_text", started[1], options["sorted"])


def compare_runs(definitions: Evaluator, dice: random.Random) -> Iterator[Comparison]:
    """Compares a run of the program with random options over random warriors, as load files or sources."""
    count = dice.choice([1, 2, 2, 3])
    options = random_options(dice, [f"{index}.{dice.choice(['load', 'load', 'red'])}" for index in range(count)])
    core = min(max(options["core"], 1), 100)
    contents = []
    for _ in options["files"]:
        warrior = random_warrior(dice, core, max(options["longest"] % 9, 1))
        text = bytes(definitions("mars_cell.Written.load_text", core, warrior))
        contents.append(text_of(dice, "source").encode("latin-1") if dice.random() < 0.1 else text)
    lines = debugger_lines(dice, core, count)
    with tempfile.TemporaryDirectory() as folder:
        for name, content in zip(options["files"], contents):
            with open(os.path.join(folder, bytes(name).decode()), "wb") as file:
                file.write(content)
        words = [find_program(), *words_of(options)]
        done = subprocess.run(words, cwd=folder, input=bytes(lines), capture_output=True)
    defined = expected(definitions, options, contents, lines)
    yield Comparison("runs", (words[1:], contents, bytes(lines)), defined, (done.returncode, tuple(done.stdout)))
