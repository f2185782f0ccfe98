"""Tests mars.wasm, the proved library compiled to WebAssembly, and the JavaScript that calls it."""
from __future__ import annotations

import gzip
import itertools
import json
import os
import random
import shutil
import subprocess
from pathlib import Path
from typing import Any

import pytest
from battles import edit_of
from conftest import TOP
from counting import PROGRAM, skip
from test_explain import NEWCOMERS, SOURCES, line_to_correct, mutated

from corewar.battle.conditions import Condition, search
from corewar.battle.history import History
from corewar.battle.labels import Sources
from corewar.battle.runs import BY_HAND
from corewar.engine.calls import Match, assemble
from corewar.explain.errors import errors_of
from corewar.explain.instructions import describe_instruction
from corewar.explain.meanings import GREATER
from corewar.model.cells import MODES, MODIFIERS, OPCODES
from corewar.model.errors import RESULTS, MarsError
from corewar.web.contests import settings_of

WASM = TOP / "build" / "mars.wasm"
SITE = TOP / "site"


def run(*words: object, **variables: str) -> subprocess.CompletedProcess[str]:
    environment = {**os.environ, **variables}
    return subprocess.run(list(map(str, words)), cwd=TOP, env=environment, capture_output=True, text=True, timeout=600)


@pytest.fixture(autouse=True)
def node() -> None:
    if not shutil.which("node"):
        skip("JavaScript", "there is no node", "nodejs")


def test_it_is_the_native_machine() -> None:
    """The tests of Node pass: battles as the native program plays them, errors, lessons, links and workers."""
    if not WASM.is_file():
        skip("mars.wasm", "dev/library could not build it", "binaryen")
    done = run("node", "--test", SITE / "tests", MARS_WASM=str(WASM), MARS=str(PROGRAM))
    assert done.returncode == 0, done.stdout


def random_fights(count: int) -> list[dict[str, Any]]:
    """Returns fights of random warriors with edits, and questions about them."""
    chance = random.Random(74)
    number, pick = chance.randrange, chance.choice

    def cell() -> str:
        operands = [f"{pick(MODES)}{number(-9, 9)}" for _ in range(2)]
        return f"{pick([*OPCODES, 'MOV', 'SPL', 'JMP'])}.{pick([*MODIFIERS, 'I'])} {', '.join(operands)}"

    def edit() -> str:
        address = number(24)
        return pick([f"edit {address} {cell()}", f"fill {address} {min(23, address + 3)} {cell()}"])

    def process() -> str:
        return pick([f"kill {number(2)} 0", f"spawn {number(2)} {number(24)}", f"move {number(2)} 0 {number(24)}"])

    def question(core: int) -> dict[str, Any]:
        return {"condition": condition(core), "turn": number(80), "forward": bool(number(2))}

    def condition(core: int) -> dict[str, Any]:
        """Returns a condition; half of them have only what holds often, and some are joined."""
        more: dict[str, Any] = {
            "of": number(2),
            "origin": [number(core), number(core)],
            "was": pick(OPCODES),
            "becomes": pick(OPCODES),
        }
        given: dict[str, Any] = {"cells": [number(core), number(core)], "by": number(2)} | (more if number(2) else {})
        word = pick(["at", "changes", "reads", "splits", "ends", "dies", "moves"])
        found = {name: value for name, value in given.items() if not number(2)}
        return {"word": word, **found} | ({} if number(4) else {"and": condition(core)})

    def fight() -> dict[str, Any]:
        core = pick([24, 40, 61])
        settings = {"core": core, "processes": pick([1, 3, 8]), "cycles": pick([5, 40]), "longest": 8, "distance": 8}
        sources = ["".join(f"{cell()}\n" for _ in range(1 + number(8))) for _ in range(1 + number(3))]
        return {
            "settings": {**settings, "readLimit": pick([0, 0, 7]), "writeLimit": pick([0, 0, 5])},
            "warriors": [{"name": f"{index}.red", "text": text} for index, text in enumerate(sources)],
            "edits": sorted(
                ({"turn": number(60), "text": pick([edit, process])()} for _ in range(number(4))), key=turn_of
            ),
            "turns": [0, number(40), number(80), 10**6],
            "questions": [question(core) for _ in range(8)],
            "round": number(3),
            "seed": 1 + number(9999),
        }

    return [fight() for _ in range(count)]


def turn_of(edit: dict[str, Any]) -> int:
    turn: int = edit["turn"]
    return turn


def history_of(fight: dict[str, Any]) -> History:
    """Returns Python's history of a fight, without the edits that are impossible."""
    settings = settings_of(fight["settings"])
    rounds, texts = fight["round"] + 1, [one["text"] for one in fight["warriors"]]
    warriors = [assemble(text, settings=settings, rounds=rounds, warriors=len(texts)) for text in texts]
    history = History(Match(tuple(warriors), rounds=rounds, seed=fight["seed"], settings=settings), fight["round"])
    for edit in fight["edits"]:
        try:
            history = history.edited(min(edit["turn"], history.end), edit_of(edit["text"], history.core))
        except MarsError:
            pass
    return history


def joined_of(parts: dict[str, Any]) -> list[Condition]:
    """Returns Python's conditions for a condition of JavaScript and those that are joined to it."""
    values = {name: tuple(value) if isinstance(value, list) else value for name, value in parts.items()}
    rest = values.pop("and", None)
    return [Condition(**values), *(joined_of(rest) if rest else [])]


def test_its_history_is_that_of_python() -> None:
    """States, owners, source lines, births, deaths, conditions and the overview agree, also after edits."""
    if not WASM.is_file():
        skip("mars.wasm", "dev/library could not build it", "binaryen")
    fights = random_fights(60)
    done = subprocess.run(
        ["node", SITE / "tests" / "answers.mjs", WASM], input=json.dumps(fights), capture_output=True, text=True
    )
    assert done.returncode == 0, done.stderr
    for fight, answer in zip(fights, json.loads(done.stdout)):
        history = history_of(fight)
        sources = Sources(history)
        assert answer["end"] == history.end and answer["dead"] == [[*map(int, one)] for one in history.ending.deaths]
        for state in answer["states"]:
            turn, block = state["turn"], history.block(state["turn"])
            owners, written = history.written(turn)
            lines = [sources.line(history, address, turn) for address in range(history.core)]
            assert state["owner"] == owners.tolist() and state["written"] == written.tolist()
            # An edit is reported if no turn has changed the cell since.
            by_hand = [turn if owner == BY_HAND else None for owner, turn in zip(owners.tolist(), written.tolist())]
            assert state["edited"] == by_hand
            assert state["lines"] == [line.number if line else 0 for line in lines]
            assert (state["head"], state["cycle"]) == (history.head(turn), block.cycle(turn))
            queues = history.state(turn).queues
            assert state["queues"] == [int(one) for queue in queues for one in queue]
            processes = [(warrior, index) for warrior, queue in enumerate(queues) for index in range(len(queue))]
            born = [history.born(turn, *process) for process in processes]
            assert [(one["births"], one["added"]) for one in state["born"]] == born
        for question, found in zip(fight["questions"], answer["found"]):
            joined = joined_of(question["condition"])
            expected = search(history, [joined], min(question["turn"], history.end), question["forward"])
            assert found == (expected and expected[0]), (fight, question)
        count = len(history.warriors)
        for row, turn in enumerate(answer["moments"]):
            cells = [int((history.owners(turn) == warrior).sum()) for warrior in range(count)]
            # After a turn with an edit there is a moment before the edit and one after it.
            if turn not in [after for after, _ in history.edits]:
                assert answer["cells"][row * count : (row + 1) * count] == cells
                queues = history.state(turn).queues
                assert answer["processes"][row * count : (row + 1) * count] == [len(queue) for queue in queues]


def test_its_sentences_are_those_of_python(tmp_path: Path) -> None:
    """Instructions with each opcode, modifier and mode have the same sentences."""
    if not shutil.which("esbuild"):
        skip("JavaScript's sentences", "there is no esbuild", "esbuild")
    script = tmp_path / "sentences.js"
    bundled = run("esbuild", SITE / "tests" / "sentences.mjs", "--bundle", "--platform=node", f"--outfile={script}")
    assert bundled.returncode == 0, bundled.stderr
    numbers = itertools.cycle([0, 1, -1, 5, -2000])
    cells = [
        f"{opcode}.{modifier} {first}{next(numbers)}, {second}{next(numbers)}"
        for opcode, modifier, first, second in itertools.product(OPCODES, MODIFIERS, MODES, MODES)
    ]
    lines = "".join(f"{cell}\n" for cell in cells)
    done = subprocess.run(["node", script, "8000"], input=lines, capture_output=True, text=True)
    assert done.stdout.splitlines() == [describe_instruction(cell) for cell in cells], done.stderr


def test_the_site_is_light() -> None:
    """The files that a browser loads have at most 230 kB, compressed as by a server."""
    files = [file for file in (TOP / "build" / "site").glob("*") if file.name != "one.html"]
    if not files:
        skip("the weight of the site", "it is not built; `make site` builds it", "esbuild")
    assert sum(len(gzip.compress(file.read_bytes())) for file in files) <= 230_000


def test_its_types_are_sound() -> None:
    if not shutil.which("tsc"):
        skip("the types of JavaScript", "there is no tsc", "node-typescript")
    done = run("tsc", "-p", SITE)
    assert (done.stdout, done.returncode) == ("", 0)


def test_its_layout_is_that_of_the_header() -> None:
    done = run(SITE / "tools" / "layout.py")
    assert done.stdout == (SITE / "src" / "model" / "layout.js").read_text(), done.stderr


def test_its_errors_have_the_texts_of_python() -> None:
    """All results of calls, with all numbers of errors, also nested ones, have the same texts."""
    numbers = itertools.product([code for code in RESULTS.values() if code], range(11), (0, 3, 10), (0, 2), [4], [5])
    errors = [MarsError(*fields) for fields in numbers]
    fields = ("code", "number", "problem", "expression", "line", "warrior")
    given = json.dumps([{field: getattr(error, field) for field in fields} for error in errors])
    script = f"""import {{ errorText }} from {json.dumps(str(SITE / "src" / "engine" / "errors.js"))};
        console.log(JSON.stringify({given}.map(errorText)));"""
    assert json.loads(run("node", "--input-type=module", "--eval", script).stdout) == [str(error) for error in errors]


def test_its_errors_are_those_of_explain() -> None:
    """Errors have the same lines and sentences, also several in a source; but JavaScript has no names of characters."""
    if not WASM.is_file():
        skip("mars.wasm", "dev/library could not build it", "binaryen")
    texts = [text for text, fault, _ in SOURCES if "NotAscii" not in fault]
    texts += [text for text, _ in [*NEWCOMERS, *mutated(150)]]
    meanings = TOP / "python" / "corewar" / "explain" / "meanings.json"
    words = ["node", *map(str, (SITE / "tests" / "errors.mjs", WASM, meanings))]
    done = subprocess.run(words, input=json.dumps(texts), capture_output=True, text=True)
    assert done.returncode == 0, done.stderr
    for text, answer in zip(texts, json.loads(done.stdout), strict=True):
        found = list(errors_of(text.encode(), assemble))
        expected = []
        for error in found:
            number, sentences = line_to_correct(*error), " ".join(error[1])
            # The site has no options, and names the line before the sentences.
            expected.append([number, sentences.replace(f"; {GREATER}", "").removeprefix(f"In line {number}, ")])
        assert answer == expected, text
