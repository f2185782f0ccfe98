"""Compares score formulas, placement, matches, leagues, populations and outcomes."""
from __future__ import annotations

import random
from collections.abc import Callable, Iterator

from evaluating.base import Value
from evaluating.evaluator import Evaluator

from .comparison import Comparison, some
from .library import array, call, new, room, rows_in
from .machine import HEADER, random_cell
from .programs import examples, parameters, refused
from .texts import formula

FORMULA = tuple(b"(W*W-1)/S")
ROWS = {"match": "mars_c.Contests.plain_row", "league": "mars_c.Contests.plain_row"}
ROWS |= {"population": "mars_c.Contests.plain_sum"}
# An example has at most this many cells.
LONGEST = 85


def compare_formulas(definitions: Evaluator, dice: random.Random) -> Iterator[Comparison]:
    """Compares what a survivor gets by a score formula, or the error of the formula or of its value."""
    text, warriors = formula(dice), dice.choice([1, 2, 3, 16, 1 << 31])
    survivors = dice.choice([0, 1, 1, 2, 5, (1 << 32) - 1])
    value = new("int64_t *", 0)
    error = call("mars_score", *array("uint8_t", text), warriors, survivors, value)
    points = definitions("redcode_asm.Formula.formula_of", text)
    refusal = "Formula"
    if points[0] == "Ok":
        refusal, points = "Score", definitions("mars_c.Contests.points_each", points[1], warriors, survivors)
    defined = refused(definitions, refusal, points[1]) if points[0] == "Err" else points[1]
    given = bytes(text), warriors, survivors
    yield Comparison("formulas", given, defined, error if error["code"] else value[0])


def random_contest(dice: random.Random, core: int, longest: int, cycles: int) -> Value:
    """Returns settings of a contest, with a seed and few rounds."""
    limits = [0, 0] if dice.random() < 0.6 else [dice.randint(1, core) for _ in range(2)]
    return {
        "core": core,
        "processes": dice.choice([1, 2, 8]),
        "cycles": cycles,
        "read_limit": limits[0],
        "write_limit": limits[1],
        "longest": longest,
        "distance": dice.randint(longest, min(core, longest + 4)),
        "rounds": dice.randint(1, 3),
        "seed": dice.choice([1, 2147483646, dice.randint(1, 2147483646)]),
        "position": 0,
    }


def random_fighters(dice: random.Random, core: int, longest: int, count: int) -> list[Value]:
    """Returns warriors of random cells, without names."""
    warriors = []
    for _ in range(count):
        length = dice.randint(1, longest)
        cells = tuple(random_cell(dice, core) for _ in range(length))
        warriors.append({"name": (), "author": (), "cells": cells, "start": dice.randrange(length)})
    return warriors


class Contest:
    """Warriors and settings, as definitions and as the library takes them."""

    def __init__(self, definitions: Evaluator, settings: Value, warriors: list[Value]) -> None:
        self.definitions, self.settings, self.warriors = definitions, settings, warriors
        self.bounds = parameters(definitions, settings)[1]
        self.numbers = some(settings["position"] or None), settings["rounds"], settings["seed"]
        self.scored = definitions("redcode_asm.Formula.formula_of", FORMULA)[1]
        plan = {"rounds": settings["rounds"], "seed": settings["seed"], "fixed": self.numbers[0]}
        self.setup = {"params": self.bounds, "plan": plan, "formula": self.scored}
        plain_cell = definitions.get("mars_c.Cells.plain_cell")
        cells = [plain_cell(cell) for warrior in warriors for cell in warrior["cells"]]
        places = [{"length": len(warrior["cells"]), "start": warrior["start"]} for warrior in warriors]
        self.given = new("MarsSettings *", settings), *array("MarsCell", cells), *array("MarsWarrior", places)

    def comparison(
        self, kind: str, result: Value, row: Callable[[Value], Value], error: Value, computed: Value
    ) -> Comparison:
        """Returns the rows of a result, or the error that a caller gets, beside what the library computes."""
        if result[0] == "Ok":
            defined: Value = tuple(map(row, result[1]))
        else:
            defined = refused(self.definitions, *self.definitions("mars_c.Refusals.fight_refusal", result[1]))
        return Comparison(kind, (self.settings, self.warriors), defined, error if error["code"] else computed)

    def rows(self, kind: str, count: int) -> Comparison:
        """Compares the `count` rows of a match or a league, or the sums of a population with `count` candidates."""
        if kind == "population":
            result = self.definitions("mars_c.Contests.population", self.setup, count, tuple(self.warriors))
        else:
            name = {"match": "mars_match.Rounds.table_of", "league": "mars_match.Leagues.league_of"}[kind]
            result = self.definitions(name, self.bounds, tuple(self.warriors), self.scored, *self.numbers)
        rows = room("MarsRow", count)
        error = call(f"mars_{kind}", self.given[0], *array("uint8_t", FORMULA), *self.given[1:], *rows)
        return self.comparison(f"{kind} rows", result, self.definitions.get(ROWS[kind]), error, rows_in(*rows))

    def outcomes(self, counting: bool) -> Comparison:
        """Compares how each warrior fares in each round, and what it does, if that is counted."""
        count = len(self.warriors)
        fates = self.definitions(
            "mars_match.Fates.fates_of", counting, self.bounds, tuple(self.warriors), *self.numbers
        )
        lineup = {"seed": 0, "count": count, "warrior": tuple(range(16)), "counting": int(counting)}
        outcomes = room("MarsOutcome", self.settings["rounds"] * count)
        error = call("mars_outcomes", *self.given, *array("MarsLineup", [lineup]), *outcomes)
        return self.comparison(
            "outcomes", fates, self.definitions.get("mars_c.Outcomes.plain_fate"), error, rows_in(*outcomes)
        )

    def start(self, number: int) -> Comparison:
        """Compares the battle with which a round starts."""
        state = self.definitions("mars_c.Battles.round_start_state", self.setup, tuple(self.warriors), number)
        words = room("uint32_t", HEADER + 3 * self.settings["core"] + len(self.warriors) * self.settings["processes"])
        error = call("mars_start", *self.given, number, *words)
        result = ("Ok", self.definitions("mars_core.Block.block_of", state[1])) if state[0] == "Ok" else state
        computed = tuple(words[0][0 : len(result[1])]) if state[0] == "Ok" else ()
        return self.comparison("starts", result, int, error, computed)


def compare_starts(definitions: Evaluator, dice: random.Random) -> Iterator[Comparison]:
    """Compares the starting positions of up to 16 warriors in some rounds, if there is room for them."""
    count, core = dice.randint(1, 16), dice.choice([16, 17, 100, 8000])
    settings = {**random_contest(dice, core, 1, 1), "distance": dice.randint(1, max(1, core // count))}
    if dice.random() < 0.1:
        settings["distance"] = min(core, settings["distance"] + core // count)
    contest = Contest(definitions, settings, random_fighters(dice, core, 1, count))
    yield contest.outcomes(False)
    for number in range(settings["rounds"]):
        placed = definitions(
            "mars_c.Battles.placed_in", contest.bounds, count, contest.numbers[0], number, settings["seed"]
        )
        if placed[0] == "Ok":
            is_spaced = definitions("mars_match.Placement.IsSpaced", core, settings["distance"], placed[1])
            yield Comparison("distances", (settings, count, number), is_spaced, True)


def compare_contests(definitions: Evaluator, dice: random.Random) -> Iterator[Comparison]:
    """Compares a match, a league, a population and the outcomes of random warriors, and the start of a round."""
    core, longest, cycles = dice.choice([8, 12, 20, 31]), dice.choice([1, 2, 4]), dice.choice([1, 5, 30])
    settings = random_contest(dice, core, longest, cycles)
    warriors = random_fighters(dice, core, longest, dice.choice([1, 2, 2, 3, 4]))
    contest = Contest(definitions, settings, warriors)
    yield contest.rows("league", len(warriors))
    yield contest.rows("population", dice.randint(0, len(warriors)))
    if len(warriors) == 2 and 2 * settings["distance"] <= core and dice.random() < 0.5:
        position = dice.randint(settings["distance"], core - settings["distance"])
        contest = Contest(definitions, {**settings, "position": position}, warriors)
    yield contest.rows("match", len(warriors))
    yield contest.outcomes(dice.random() < 0.5)
    yield contest.start(dice.randrange(settings["rounds"]))


def compare_fights(definitions: Evaluator, dice: random.Random) -> Iterator[Comparison]:
    """Compares a match of two or three examples in a core that is large enough for long battles, and its last round."""
    core = dice.choice([200, 400, 800])
    settings = {**random_contest(dice, core, LONGEST, dice.choice([20, 100, 300])), "processes": dice.choice([8, 80])}
    settings |= {"rounds": dice.randint(1, 2), "distance": LONGEST}
    bounds = parameters(definitions, settings)[1]
    texts = dice.sample(examples(), 2 if core < 300 else dice.choice([2, 3]))
    assembled = [definitions("redcode_asm.Assembly.assembly", bounds, 1, 2, tuple(map(ord, text))) for text in texts]
    contest = Contest(definitions, settings, [result[1] for result in assembled if result[0] == "Ok"])
    yield contest.rows("match", len(contest.warriors))
    yield contest.start(settings["rounds"] - 1)
