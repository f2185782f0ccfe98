"""Compares battles: turns, their records and touched cells, and words that are or are not a battle."""
from __future__ import annotations

import random
from collections.abc import Callable, Iterator

from evaluating.base import Value
from evaluating.evaluator import Evaluator

from .comparison import Comparison
from .library import array, call, play

OPCODES = "Dat Mov Add Sub Mul Div Mod Jmp Jmz Jmn Djn Seq Sne Slt Spl Nop".split()
MODIFIERS = "A B Ab Ba F X I".split()
MODES = "Immediate Direct AIndirect BIndirect APredecrement BPredecrement APostincrement BPostincrement".split()
PARTS = {"op": OPCODES, "modifier": MODIFIERS, "a_mode": MODES, "b_mode": MODES}
# The maximum number of turns of an input.
TURNS = 24
# What fills words after a block.
SEVEN = 7
# The words of a block before the cells; where the lengths of the queues begin, and the deaths. The other words are the
# numbers of MarsBattle in mars.h, in its order.
HEADER, QUEUES, DEATHS = 64, 16, 32


def random_cell(dice: random.Random, core: int) -> Value:
    """Returns a cell of a core of this size."""
    cell: Value = {name: (dice.choice(names),) for name, names in PARTS.items()}
    if dice.random() < 0.3:
        # These opcodes are frequent, so that battles last longer.
        cell["op"] = (dice.choice(["Spl", "Mov", "Seq", "Djn"]),)
    return {**cell, "a": dice.randrange(core), "b": dice.randrange(core)}


def random_parameters(dice: random.Random) -> Value:
    """Returns parameters of a small battle. Half of the time its limits are the core size, otherwise random."""
    core = dice.choice([1, 2, 3, 5, 8, 8, 13, 20, 40])
    limits = [core, core] if dice.random() < 0.5 else [dice.randint(1, core) for _ in range(2)]
    longest = dice.randint(1, core)
    return {
        "core_size": core,
        "processes": dice.choice([1, 2, 3, 8]),
        "cycles": dice.choice([1, 2, 5, 100]),
        "read_limit": limits[0],
        "write_limit": limits[1],
        "max_length": longest,
        "distance": dice.randint(longest, core),
    }


def random_state(dice: random.Random, share: float = 0.85) -> Value:
    """Returns a valid state of a battle. Each warrior is alive with the probability `share`; at least one is alive
    unless `share` is 0.
    """
    parameters = random_parameters(dice)
    core, warriors = parameters["core_size"], dice.choice([1, 2, 2, 3, 5, 16])
    alive = [dice.random() < share for _ in range(warriors)]
    alive[dice.randrange(warriors)] = share > 0
    counts = [dice.randint(1, parameters["processes"]) if lives else 0 for lives in alive]
    first = alive.index(True) if any(alive) else 0
    cycle = dice.choice([0, 0, 1, parameters["cycles"]])
    last = cycle == parameters["cycles"]
    place = first if last else dice.choice([index for index, lives in enumerate(alive) if lives or not share])
    turns = dice.randint(0, cycle * warriors + place)
    dead = [index for index, lives in enumerate(alive) if not lives]
    dice.shuffle(dead)
    return {
        "params": parameters,
        "core": tuple(random_cell(dice, core) for _ in range(core)),
        "queues": tuple(tuple(dice.randrange(core) for _ in range(count)) for count in counts),
        "next": place,
        "cycle": cycle,
        "turns": turns,
        "deaths": tuple({"warrior": warrior, "turns": dice.randint(0, turns)} for warrior in dead),
    }


def block_words(definitions: Evaluator, state: Value) -> tuple[int, ...]:
    """Returns the words of a battle, with the capacity that it needs."""
    words: tuple[int, ...] = definitions("mars_core.Block.block_of", state)
    capacity: int = definitions("mars_c.Blocks.capacity_of", state)
    # Words other than 0 after the block show that a call leaves them as they are.
    return words + (SEVEN,) * (capacity - len(words))


def states_from(definitions: Evaluator, state: Value, turns: int) -> list[Value]:
    """Returns a state and the state after each of the next `turns` turns, or fewer states if the battle ends."""
    states = [state]
    while len(states) <= turns and not definitions("mars_core.State.is_over_of", states[-1]):
        states.append(definitions("mars_core.Turn.turn_of", states[-1]))
    return states


def compare_turns(
    definitions: Evaluator, dice: random.Random, played: Callable[..., Value] = play
) -> Iterator[Comparison]:
    """Compares some turns of a battle: the words after them, their records, and the cells that they touch; also, in the
    definitions, each turn as ReferenceCode executes it, and whether its record leads back and forth.
    """
    state, turns = random_state(dice), dice.choice([dice.randrange(TURNS), TURNS])
    words, states = block_words(definitions, state), states_from(definitions, state, turns)
    is_valid = definitions("mars_core.Validity.IsValid", state)
    yield Comparison("battles", state, (True, 0), (is_valid, call("mars_check", *array("uint32_t", words))["code"]))
    rows = {"MarsRecord": "mars_c.Records.turn_row", "MarsTouched": "mars_c.Touches.touched_row"}
    counts = {kind: dice.choice([dice.randrange(TURNS), TURNS]) for kind in rows}
    computed = played(words, turns, counts)
    defined = {"error": 0, "words": computed["words"]}
    for kind, row in rows.items():
        blank = tuple(nothing(one) for one in computed[kind])
        defined[kind] = definitions("mars_c.Blocks.played_rows", definitions.get(row), turns, state, blank)
    after = definitions("mars_core.Turn.after_turns", turns, state)
    is_written = definitions("mars_c.Blocks.IsWritten", after, words, computed["words"])
    yield Comparison("calls", (state, turns), {**defined, "written": True}, {**computed, "written": is_written})
    for before, following in zip(states, states[1:]):
        yield compare_second_definition(definitions, before)
        record = definitions("mars_core.Turn.turn_record", before)
        yield compare_record(definitions, "turns", record, before, following)


def nothing(row: Value) -> Value:
    """Returns a row of the same form, with each number 0."""
    if isinstance(row, dict):
        return {name: nothing(part) for name, part in row.items()}
    return tuple(map(nothing, row)) if isinstance(row, tuple) else 0


def compare_second_definition(definitions: Evaluator, state: Value) -> Comparison:
    """Compares the execution of a turn with that of EMI94's code, which ReferenceCode defines."""
    given = state["params"], state["core"], state["queues"][state["next"]][0]
    executed = definitions("mars_core.Turn.execution_of", *given)
    pair = {"core": executed["written"]["core"], "queued": executed["queued"]}
    return Comparison("executions", state, definitions("mars_core.ReferenceCode.emulated", *given), pair)


def compare_record(definitions: Evaluator, kind: str, record: Value, before: Value, after: Value) -> Comparison:
    """Compares where the record of a turn or an edit leads, back and forth, with the states before and after it."""
    back = definitions("mars_core.Record.reverted", record, after)
    forth = definitions("mars_core.Record.applied", record, before)
    return Comparison(kind, before, (back, forth), (before, after))


def state_in(definitions: Evaluator, words: tuple[int, ...]) -> Value:
    """Returns the only state whose block the words may begin with. Raises IndexError if there is none."""
    parameters = definitions("mars_core.Block.params_in", words)
    start, queues = HEADER + 3 * parameters["core_size"], []
    cells = tuple(cell_in(*words[place : place + 3]) for place in range(HEADER, start, 3))
    for count in words[QUEUES : QUEUES + words[9]]:
        queues.append(words[start : start + count])
        start += count
    deaths = zip(words[DEATHS:HEADER:2], words[DEATHS + 1 : HEADER : 2])
    return {
        "params": parameters,
        "core": cells,
        "queues": tuple(queues),
        "next": words[12],
        "cycle": words[11],
        "turns": words[10],
        "deaths": tuple({"warrior": warrior, "turns": turns} for warrior, turns in list(deaths)[: words[14]]),
    }


def cell_in(tags: int, a: int, b: int) -> Value:
    """Returns the cell with these words. Raises IndexError if there is none."""
    names = zip(PARTS.items(), tags.to_bytes(4, "little"))
    return {**{part: (names[tag],) for (part, names), tag in names}, "a": a, "b": b}


def begins_with_battle(definitions: Evaluator, words: tuple[int, ...]) -> bool:
    """Returns whether the words begin with the block of a valid state."""
    if len(words) < HEADER or words[2] > 1000 or len(words) < HEADER + 3 * words[2] + sum(words[QUEUES:DEATHS]):
        return False
    try:
        return bool(definitions("mars_core.Block.Spells", state_in(definitions, words), words))
    except IndexError:
        return False


def compare_blocks(definitions: Evaluator, dice: random.Random) -> Iterator[Comparison]:
    """Compares whether the words of a battle, with one or two of them changed, are still those of a valid battle."""
    words = list(definitions("mars_core.Block.block_of", random_state(dice, dice.choice([0.85, 0.85, 0]))))
    if dice.random() < 0.2:
        # A number of turns about the greatest that these cycles allow.
        words[10] = words[11] * words[9] + words[12] + dice.randrange(3)
    for _ in range(dice.choice([1, 1, 2])):
        place = dice.choice([dice.randrange(16), dice.randrange(HEADER), dice.randrange(len(words))])
        near = [words[place] + 1, max(words[place] - 1, 0), dice.choice(words)]
        words[place] = dice.choice([*near, 0, 1, 1 << dice.randrange(32)])
    del words[len(words) - dice.choice([0] * 8 + [1, dice.randrange(len(words))]) :]
    words += [SEVEN] * dice.choice([0, 0, 3])
    is_battle = call("mars_check", *array("uint32_t", words))["code"] == 0
    yield Comparison("blocks", tuple(words), begins_with_battle(definitions, tuple(words)), is_battle)
