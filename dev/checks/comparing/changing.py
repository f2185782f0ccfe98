"""Compares edits of battles, and battles that are followed: the past of each cell, turns that meet conditions, and
births.
"""
from __future__ import annotations

import random
from collections.abc import Iterator, Sequence

from evaluating.base import NONE, Value
from evaluating.evaluator import Evaluator

from .comparison import Comparison
from .library import array, call, new, room, rows_in
from .machine import block_words, compare_record, random_cell, random_state

# The number of edits of a battle; how often its turns are followed, and the limit of these turns each time.
EDITS, STEPS, TURNS = 6, 3, 8
WAYS = ("Executes", "Changes", "Reads")
NUMBERS = ("Warrior", "Queued", "Died", "Address", "Owner", "Turn", "Origin", "Opcode", "NewOpcode")
# An owner that is no warrior: the cell was edited.
BY_HAND = 16


def random_edit(definitions: Evaluator, dice: random.Random, state: Value) -> tuple[Value | None, Value]:
    """Returns an edit, which may be impossible, and the numbers that a call gets for it. If these numbers are those of
    no edit, as a few are, the edit is None.
    """
    core = state["params"]["core_size"]
    address = dice.randrange(core) if dice.random() < 0.9 else core + dice.randrange(3)
    warrior = dice.randrange(len(state["queues"]) + (dice.random() < 0.1))
    place, what = dice.randrange(3), dice.randrange(4)
    cell = random_cell(dice, core if dice.random() < 0.9 else core + 2)
    edits = [
        ("SetCell", address, cell),
        ("MoveProcess", warrior, place, address),
        ("KillProcess", warrior, place),
        ("Spawn", warrior, address),
    ]
    plain_cell = definitions("mars_c.Cells.plain_cell", cell)
    numbers = {"what": what + 1, "warrior": warrior, "place": place, "address": address, "cell": plain_cell}
    if dice.random() < 0.97:
        return edits[what], numbers
    return None, dice.choice([{**numbers, "what": 5}, {**numbers, "what": 1, "cell": {**plain_cell, "modifier": 7}}])


def made(definitions: Evaluator, state: Value, edits: Sequence[Value | None]) -> tuple[Value, Value]:
    """Returns the state after edits, one after another, and no error; or the same state and the first error."""

    def refused(*refusal: Value) -> tuple[Value, Value]:
        return state, definitions("mars_c.Codes.block_fault_of", refusal)

    if None in edits:
        return refused("NoSuchEdit", edits.index(None))
    after = state
    for index, edit in enumerate(edits):
        fault = definitions("mars_core.Edit.edit_fault", after, edit)
        if fault != NONE:
            return refused("Edit", index, fault[1])
        after = definitions("mars_core.Edit.edited", after, edit)
    return after, definitions("mars_c.Codes.numbered", 0, 0)


def compare_edits(definitions: Evaluator, dice: random.Random) -> Iterator[Comparison]:
    """Compares edits of a battle, some of them impossible, together and one by one; and their records."""
    state = random_state(dice)
    drawn = [random_edit(definitions, dice, state) for _ in range(EDITS)]
    some = drawn[: dice.randint(0, 3)]
    yield compare_call(definitions, "mars_edits", state, some, *array("MarsEdit", [numbers for _, numbers in some]))
    for edit, numbers in drawn:
        yield compare_call(definitions, "mars_edit", state, [(edit, numbers)], new("MarsEdit *", numbers))
        if edit is None:
            continue
        yield Comparison("meanings", numbers, definitions("mars_c.Blocks.Means", numbers, edit), True)
        after, error = made(definitions, state, [edit])
        if error["code"] == 0:
            record = definitions("mars_core.Edit.edit_record", state, edit)
            yield compare_record(definitions, "records", record, state, after)
        state = after


def compare_call(definitions: Evaluator, name: str, state: Value, edits: Sequence[Value], *given: object) -> Comparison:
    """Compares the words of a battle after a call with edits, each with its numbers, and the error of the call."""
    words = block_words(definitions, state)
    block = array("uint32_t", words)
    after, error = made(definitions, state, [edit for edit, _ in edits])
    found = call(name, *block, *given)
    is_written = definitions("mars_c.Blocks.IsWritten", after, words, tuple(block[0]))
    return Comparison(f"calls of {name}", (state, edits), (error, True), (found, is_written))


def random_pasts(dice: random.Random, core: int) -> list[Value]:
    """Returns a random past for each cell."""
    return [
        {"owner": dice.randrange(4), "turn": dice.randrange(3), "origin": dice.randrange(core + 2)} for _ in range(core)
    ]


def random_conditions(definitions: Evaluator, dice: random.Random, core: int) -> tuple[list[Value], list[Value]]:
    """Returns conditions, and the numbers that a call gets for them. A few of the numbers stand for no condition; then
    the conditions are only those before the first such numbers.
    """
    values, rows = [], []
    for _ in range(dice.choice([0, 1, 1, 2, 3])):
        way, number = (dice.choice(WAYS),), (dice.choice(NUMBERS),)
        first = dice.randrange(core if number == ("Address",) else 17)
        last = dice.choice([first, first + 1, first + core, max(first - 2, 0), 1 << 31])
        values.append({"way": way, "number": number, "first": first, "last": last})
        rows.append(definitions("mars_c.Following.plain_condition", values[-1]))
    if rows and dice.random() < 0.1:
        place = dice.randrange(len(rows))
        rows[place] |= dice.choice([{"way": 0}, {"way": 4}, {"number": 0}, {"number": 10}])
        del values[place:]
    return values, rows


def compare_follows(definitions: Evaluator, dice: random.Random) -> Iterator[Comparison]:
    """Compares turns of a battle that are followed, with edits between: pasts, turns that meet conditions, moments."""
    state = random_state(dice)
    core = state["params"]["core_size"]
    pasts = tuple(random_pasts(dice, core))
    for step in range(STEPS):
        turns = dice.randrange(TURNS)
        for compare in (compare_follow, compare_moments):
            yield compare(definitions, Followed(definitions, dice, state, pasts), turns)
        pasts = definitions("mars_core.Past.followed", turns, state, pasts)
        state = definitions("mars_core.Turn.after_turns", turns, state)
        edited, _ = made(definitions, state, [random_edit(definitions, dice, state)[0]])
        past = {"owner": BY_HAND, "turn": state["turns"], "origin": core + step}
        pasts = tuple(past if edited["core"][at] != state["core"][at] else pasts[at] for at in range(core))
        state = edited


class Followed:
    """A battle whose turns are followed: the arguments of a call, some of them wrong, as definitions and as the library
    take them, and the refusal of the call or None.
    """

    def __init__(self, definitions: Evaluator, dice: random.Random, state: Value, pasts: tuple[Value, ...]) -> None:
        self.state, self.dice = state, dice
        self.values, conditions = random_conditions(definitions, dice, len(pasts))
        self.words = block_words(definitions, state)
        is_short = dice.random() < 0.05 and self.words != definitions("mars_core.Block.block_of", state)
        self.pasts = pasts[1:] if dice.random() < 0.05 else pasts
        self.block = array("uint32_t", self.words[: len(self.words) - is_short])
        self.rows, self.conditions = array("MarsPast", self.pasts), array("MarsCondition", conditions)
        self.refusal: Value = None
        if len(self.values) < len(conditions):
            self.refusal = ("Condition", len(self.values))
        elif is_short or len(self.pasts) < state["params"]["core_size"]:
            self.refusal = ("Capacity",) if is_short else ("Pasts",)

    def compared(self, definitions: Evaluator, turns: int, defined: Value, error: Value, computed: Value) -> Comparison:
        """Compares the results of a call that executes turns, with its error, its battle and its pasts."""
        state, pasts = self.state, self.pasts
        expected = definitions("mars_c.Codes.numbered", 0, 0)
        if self.refusal:
            expected = definitions("mars_c.Codes.block_fault_of", self.refusal)
        else:
            state = definitions("mars_core.Turn.after_turns", turns, self.state)
            pasts = definitions("mars_core.Past.followed", turns, self.state, self.pasts)
        whole = tuple(self.block[0])
        written = definitions("mars_c.Blocks.IsWritten", state, self.words[: len(whole)], whole)
        return Comparison(
            "calls",
            (self.state, turns, self.values, self.pasts),
            {"error": expected, "written": True, "pasts": pasts, **defined},
            {"error": error, "written": written, "pasts": rows_in(*self.rows), **computed},
        )


def compare_follow(definitions: Evaluator, given: Followed, turns: int) -> Comparison:
    """Compares a call that follows turns: the battle, the pasts, and the turns that are found, or its error."""
    found, count = room("MarsFound", given.dice.randrange(TURNS)), new("uint32_t *", 0)
    rows = rows_in(*found)
    error = call("mars_follow", *given.block, turns, *given.rows, *given.conditions, *found, count)
    turns_found: tuple[Value, ...] = ()
    if not given.refusal:
        turns_found = definitions("mars_core.Search.found_in", tuple(given.values), turns, given.state, given.pasts)
    defined = {"found": definitions("mars_core.Search.filled", turns_found, rows), "count": len(turns_found)}
    return given.compared(definitions, turns, defined, error, {"found": rows_in(*found), "count": count[0]})


def compare_moments(definitions: Evaluator, given: Followed, step: int) -> Comparison:
    """Compares a call that follows steps of turns: the battle, the pasts, and the moments, or its error."""
    count = given.dice.randrange(STEPS)
    moments = room("MarsMoment", count)
    rows = rows_in(*moments)
    error = call("mars_moments", *given.block, step, *given.rows, *given.conditions, *moments)
    if not given.refusal:
        conditions = tuple(given.values)
        rows = definitions("mars_core.Moments.moments_after", count, step, conditions, given.state, given.pasts)
    return given.compared(definitions, count * step, {"moments": rows}, error, {"moments": rows_in(*moments)})


def compare_ancestors(definitions: Evaluator, dice: random.Random) -> Iterator[Comparison]:
    """Compares the turns in which a process and its ancestors were born; for some places there is no process."""
    state, turns, place = random_state(dice), dice.randrange(3 * TURNS), dice.randrange(5)
    warrior = dice.randrange(len(state["queues"]) + (dice.random() < 0.05))
    births, count, first = room("uint32_t", dice.randrange(4)), new("uint32_t *", 0), new("uint32_t *", 0)
    rows = rows_in(*births)
    block = array("uint32_t", block_words(definitions, state))
    error = call("mars_ancestors", *block, turns, warrior, place, *births, count, first)
    expected: Value = definitions("mars_c.Codes.block_fault_of", ("Process",))
    lineage: Value = {"births": (), "place": 0}
    if definitions("mars_core.Ancestors.HasProcess", turns, state, warrior, place):
        expected = definitions("mars_c.Codes.numbered", 0, 0)
        lineage = definitions("mars_core.Ancestors.lineage", turns, state, warrior, place)
    defined = {
        "error": expected,
        "births": definitions("mars_core.Search.filled", lineage["births"], rows),
        "count": len(lineage["births"]),
        "first": lineage["place"],
    }
    computed = {"error": error, "births": rows_in(*births), "count": count[0], "first": first[0]}
    yield Comparison("calls", (state, turns, warrior, place), defined, computed)
