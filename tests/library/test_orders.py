"""Of any two mistakes in the arguments of a call, the library for C returns the first one in the order of the header.

The other fields of the error are 0, and the caller's rows and battles stay as they were.
"""
from collections.abc import Callable, Sequence
from dataclasses import dataclass, field
from functools import partial
from itertools import combinations
from typing import Any

import numpy as np
import pytest
from numpy.typing import NDArray

from corewar.engine.binding import array, library, slice_of

SETTINGS = {
    "core": 800,
    "processes": 80,
    "cycles": 100,
    "read_limit": 0,
    "write_limit": 0,
    "longest": 20,
    "distance": 40,
    "rounds": 2,
    "seed": 1,
    "position": 100,
}
# The part of the arguments that a mistake changes, how, and its error: the code, the number and a warrior.
Mistake = tuple[str, Callable[[Any], object], tuple[int, int, int]]
# Makes a call. Returns its result and its output.
Run = Callable[[Any, Any], tuple[int, NDArray[Any]]]
# JMP.B $0, $0, of which each warrior has two: all survive.
CELL = (7, 1, 1, 1, 0, 0)
# Each byte of the output before a call, and after a call that fails.
UNTOUCHED = 0xA5


@dataclass
class Arguments:
    """The arguments of a call with two warriors; a mistake changes one of them."""

    settings: dict[str, int] = field(default_factory=lambda: dict(SETTINGS))
    formula: str = "(W*W-1)/S"
    cells: list[list[tuple[int, ...]]] = field(default_factory=lambda: [[CELL] * 2, [CELL] * 2])
    starts: list[int] = field(default_factory=lambda: [0, 0])
    further_cells: int = 0
    lineup: tuple[int, ...] = (0, 1)
    output: int | None = None
    round: int = 0

    def converted(self) -> tuple[Any, list[Any]]:
        """Returns the settings, the cells and the warriors as arguments of a call."""
        cells = [cell for warrior in self.cells for cell in warrior] + [CELL] * self.further_cells
        warriors = [(len(warrior), start) for warrior, start in zip(self.cells, self.starts)]
        settings = library()[0].new("MarsSettings *", self.settings)
        return settings, [*filled("MarsCell", cells), *filled("MarsWarrior", warriors)]


def filled(name: str, values: Sequence[object]) -> tuple[Any, int]:
    rows = array(name, len(values))
    rows[:] = values
    return slice_of(name, rows)


def text(formula: str) -> tuple[Any, int]:
    return slice_of("uint8_t", formula.encode())


def untouched(name: str, count: int) -> tuple[NDArray[Any], tuple[Any, int]]:
    """Returns an array for the output of a call, and the array as an argument."""
    output = array(name, count)
    output.view(np.uint8)[:] = UNTOUCHED
    return output, slice_of(name, output)


def setting(name: str, value: int, code: int, number: int) -> Mistake:
    return name, lambda arguments: arguments.settings.__setitem__(name, value), (code, number, 0)


def other(name: str, value: object, code: int, number: int, warrior: int = 0) -> Mistake:
    return name, lambda arguments: setattr(arguments, name, value), (code, number, warrior)


def wrong_cell(warrior: int, part: int, value: int, number: int) -> Mistake:
    def make(arguments: Arguments) -> None:
        arguments.cells[warrior][0] = (*CELL[:part], value, *CELL[part + 1 :])

    return f"cell {warrior}", make, (13, number, warrior)


def wrong_length(warrior: int) -> Mistake:
    return f"cell {warrior}", lambda arguments: arguments.cells[warrior].extend([CELL] * 19), (13, 1, warrior)


def wrong_start(warrior: int) -> Mistake:
    return f"start {warrior}", lambda arguments: arguments.starts.__setitem__(warrior, 2), (13, 2, warrior)


PARAMETERS = [
    setting("core", 0, 3, 1),
    setting("processes", 65537, 3, 2),
    setting("cycles", 0, 3, 3),
    setting("read_limit", 801, 3, 4),
    setting("longest", 801, 3, 5),
    setting("distance", 19, 3, 6),
]
NUMBERS = [setting("rounds", 100001, 2, 1), setting("seed", 0, 2, 2)]
POSITION = [setting("position", 39, 2, 3)]
FORMULA = [other("formula", "W+", 4, 1)]
WARRIORS = [
    wrong_length(0),
    wrong_start(0),
    wrong_cell(0, 0, 16, 3),
    wrong_cell(0, 4, 800, 4),
    wrong_length(1),
    wrong_start(1),
    wrong_cell(1, 3, 8, 3),
    wrong_cell(1, 5, 800, 4),
    other("further_cells", 1, 2, 5),
]
ROWS = [other("output", 1, 2, 7)]
SCORE = [other("formula", "W/(S-2)", 9, 3)]


def contest(name: str) -> Run:
    def run(arguments: Arguments, fault: Any) -> tuple[int, NDArray[Any]]:
        if name == "mars_league":
            arguments.settings["position"] = 0
        settings, warriors = arguments.converted()
        output, rows = untouched("MarsRow", 2 if arguments.output is None else arguments.output)
        return getattr(library()[1], name)(settings, *text(arguments.formula), *warriors, *rows, fault), output

    return run


def outcomes(arguments: Arguments, fault: Any) -> tuple[int, NDArray[Any]]:
    settings, warriors = arguments.converted()
    lineups = filled(
        "MarsLineup", [(0, len(arguments.lineup), arguments.lineup + (0,) * (16 - len(arguments.lineup)), 1)]
    )
    count = arguments.settings["rounds"] * len(arguments.lineup)
    output, rows = untouched("MarsOutcome", count if arguments.output is None else arguments.output)
    return library()[1].mars_outcomes(settings, *warriors, *lineups, *rows, fault), output


def start(arguments: Arguments, fault: Any) -> tuple[int, NDArray[Any]]:
    settings, warriors = arguments.converted()
    output, battle = untouched("uint32_t", 10000 if arguments.output is None else arguments.output)
    return library()[1].mars_start(settings, *warriors, arguments.round, *battle, fault), output


CALLS = {
    "mars_match": (contest("mars_match"), [*ROWS, *PARAMETERS, *NUMBERS, *POSITION, *FORMULA, *WARRIORS, *SCORE]),
    # A league has no position.
    "mars_league": (contest("mars_league"), [*ROWS, *PARAMETERS, *NUMBERS, *FORMULA, *WARRIORS, *SCORE]),
    "mars_population": (
        contest("mars_population"),
        [other("output", 3, 2, 7), *PARAMETERS, *NUMBERS, *POSITION, *FORMULA, *WARRIORS],
    ),
    "mars_outcomes": (outcomes, [other("lineup", (0, 2), 14, 2), *ROWS, *PARAMETERS, *WARRIORS, *NUMBERS, *POSITION]),
    "mars_start": (
        start,
        [*PARAMETERS, *NUMBERS, *POSITION, *WARRIORS, other("round", 2, 2, 8), other("output", 60, 10, 0)],
    ),
}


def check(run: Run, mistakes: Sequence[Mistake], expected: tuple[int, int, int]) -> None:
    arguments = Arguments()
    for _, make, _ in mistakes:
        make(arguments)
    fault = library()[0].new("MarsFault *")
    code, output = run(arguments, fault)
    number, warrior = expected[1:]
    assert code == fault.code == expected[0]
    assert (fault.number, fault.problem, fault.expression, fault.line, fault.warrior) == (number, 0, 0, 0, warrior)
    assert (output.view(np.uint8) == UNTOUCHED).all()


@pytest.mark.parametrize("name", CALLS)
def test_contests(name: str) -> None:
    run, mistakes = CALLS[name]
    for mistake in mistakes:
        check(run, [mistake], mistake[2])
    for first, second in combinations(mistakes, 2):
        if first[0] != second[0]:
            check(run, [first, second], first[2])


def test_first_wrong_cell() -> None:
    """Of several wrong cells of a warrior the first one is reported, whatever is wrong with it."""
    no_cell: tuple[int, ...] = (16, *CELL[1:])
    outside: tuple[int, ...] = (*CELL[:4], 800, 0)
    for cells, number in (([CELL, no_cell, outside, no_cell], 3), ([CELL, outside, no_cell, outside], 4)):
        for name in ("mars_match", "mars_outcomes", "mars_start"):
            arguments, fault = Arguments(), library()[0].new("MarsFault *")
            arguments.cells[1] = cells
            assert CALLS[name][0](arguments, fault)[0] == 13
            assert (fault.number, fault.warrior, fault.line) == (number, 1, 1), name


def test_first_wrong_lineup() -> None:
    """Of several wrong lineups the first one is reported, also if another mistake has a smaller number."""
    settings, warriors = Arguments().converted()
    lineups = filled("MarsLineup", [(0, 2, (0, 1, *[0] * 14), 0), (0, 2, (0, 2, *[0] * 14), 0), (0, 0, (0,) * 16, 0)])
    fault = library()[0].new("MarsFault *")
    assert library()[1].mars_outcomes(settings, *warriors, *lineups, *filled("MarsOutcome", []), fault) == 14
    assert (fault.number, fault.warrior) == (2, 1)


def test_length_after_errors() -> None:
    """The length of a text is only written if there is a text."""
    (ffi, calls), (settings, _) = library(), Arguments().converted()
    length, fault, buffer = ffi.new("size_t *", 12345), ffi.new("MarsFault *"), untouched("uint8_t", 100)[1]
    nothing, zeros = filled("MarsCell", []), slice_of("uint32_t", array("uint32_t", 9))
    program, lines = ffi.new("MarsProgram *"), filled("MarsLine", [])
    assert calls.mars_assemble(settings, 2, *text("MOV"), *nothing, program, *lines, *buffer, length, fault) == 5
    assert calls.mars_write_load(settings, *nothing, ffi.new("MarsProgram *"), *buffer, length, fault) == 13
    assert calls.mars_debug(*zeros, 1, *text("show\n"), *buffer, length, fault) == 11
    assert length[0] == 12345


@dataclass
class Battle:
    """The arguments of a call on a battle; a mistake changes one of them."""

    mark: int = 0
    words: int | None = None
    history: int = 10
    what: int = 1
    address: int = 0
    buffer: int = 1000
    way: int = 1
    pasts: int = 800
    process: int = 0


def battle(arguments: Battle) -> tuple[NDArray[Any], tuple[Any, int]]:
    """Returns a battle of two warriors, with room for its maximum length, and the battle as an argument."""
    settings, warriors = Arguments().converted()
    longest = library()[1].mars_words(settings, 2)
    words = array("uint32_t", longest)
    pointer, _ = slice_of("uint32_t", words)
    assert library()[1].mars_start(settings, *warriors, 0, pointer, longest, library()[0].new("MarsFault *")) == 0
    words[0] ^= arguments.mark
    return words, (pointer, longest if arguments.words is None else arguments.words)


def play(arguments: Battle, fault: Any) -> tuple[int, NDArray[Any]]:
    words, block = battle(arguments)
    return library()[1].mars_play(*block, 1, *filled("MarsRecord", []), *filled("MarsTouched", []), fault), words


def edit(arguments: Battle, fault: Any) -> tuple[int, NDArray[Any]]:
    words, block = battle(arguments)
    change = library()[0].new("MarsEdit *", {"what": arguments.what, "address": arguments.address})
    return library()[1].mars_edit(*block, change, fault), words


def edits(arguments: Battle, fault: Any) -> tuple[int, NDArray[Any]]:
    words, block = battle(arguments)
    cell = (0, 0, 0, 0, 0, 0)
    changes = filled("MarsEdit", [(1, 0, 0, 7, cell), (arguments.what, 0, 0, arguments.address, cell)])
    return library()[1].mars_edits(*block, *changes, fault), words


def follow(arguments: Battle, fault: Any, rows: str = "MarsFound") -> tuple[int, NDArray[Any]]:
    words, block = battle(arguments)
    pasts, found = array("MarsPast", arguments.pasts), array(rows, 1)
    conditions = filled("MarsCondition", [(1, 4, 0, 0), (arguments.way, 9, 0, 0)])
    given = [*block, 1, *slice_of("MarsPast", pasts), *conditions, *slice_of(rows, found)]
    count = [] if rows == "MarsMoment" else [library()[0].new("uint32_t *")]
    call = library()[1].mars_follow if count else library()[1].mars_moments
    code = call(*given, *count, fault)
    assert not pasts.view(np.uint32).any() and not found.view(np.uint32).any()
    return code, words


def ancestors(arguments: Battle, fault: Any) -> tuple[int, NDArray[Any]]:
    words, block = battle(arguments)
    output, (births, _) = untouched("uint32_t", 5)
    code = library()[1].mars_ancestors(*block, 1, 0, arguments.process, births, 3, births + 3, births + 4, fault)
    assert (output.view(np.uint8) == UNTOUCHED).all()
    return code, words


def debug(arguments: Battle, fault: Any) -> tuple[int, NDArray[Any]]:
    words, block = battle(arguments)
    _, buffer = untouched("uint8_t", arguments.buffer)
    length = library()[0].new("size_t *")
    return library()[1].mars_debug(*block, arguments.history, *text("show\n"), *buffer, length, fault), words


# A battle as it starts needs fewer words than its maximum length.
BLOCK = [other("mark", 1, 11, 2), other("words", 2500, 10, 0)]
FOLLOWING = [other("way", 4, 15, 0, 1), *BLOCK, other("pasts", 799, 2, 7)]
ON_BATTLES: dict[str, tuple[Callable[[Battle, Any], tuple[int, NDArray[Any]]], list[Mistake]]] = {
    "mars_play": (play, BLOCK),
    "mars_follow": (follow, FOLLOWING),
    "mars_moments": (partial(follow, rows="MarsMoment"), FOLLOWING),
    "mars_edit": (edit, [other("what", 5, 12, 1), *BLOCK, other("address", 800, 12, 2)]),
    "mars_edits": (edits, [other("what", 5, 12, 1, 1), *BLOCK, other("address", 800, 12, 2, 1)]),
    "mars_ancestors": (ancestors, [BLOCK[0], other("process", 1, 16, 0)]),
    "mars_debug": (debug, [other("history", 0, 2, 6), BLOCK[0], other("buffer", 10, 10, 0)]),
}


@pytest.mark.parametrize("name", ON_BATTLES)
def test_battles(name: str) -> None:
    run, mistakes = ON_BATTLES[name]
    for first, second in [*((mistake, mistake) for mistake in mistakes), *combinations(mistakes, 2)]:
        arguments, fault = Battle(), library()[0].new("MarsFault *")
        for _, make, _ in (first, second):
            make(arguments)
        before, _ = battle(arguments)
        code, words = run(arguments, fault)
        number, warrior = first[2][1:]
        assert code == fault.code == first[2][0]
        assert (fault.number, fault.problem, fault.line, fault.warrior) == (number, 0, 0, warrior)
        assert (words == before).all()


def test_what_is_wrong_with_a_block() -> None:
    """Of several things that are wrong with words the first one is reported, and repaired before the next."""
    words, (pointer, _) = battle(Battle())
    right, fault, whole = words.copy(), library()[0].new("MarsFault *"), int(words[1])
    last = whole - 1
    for place, value in {0: 1, 3: 0, 9: 17, 14: 17, 64: 16, last: 800, 12: 2, 15: 1}.items():
        words[place] = value
    # The number of the error, how many words are given, and the word that is repaired; one death is as wrong as 17.
    for number, given, place, repaired in [
        (1, 63, 0, 1),
        (2, last, 0, right[0]),
        (3, last, 3, right[3]),
        (4, last, 9, right[9]),
        (1, last, 14, 17),
        (7, whole, 14, 1),
        (5, whole, 64, right[64]),
        (6, whole, last, right[last]),
        (7, whole, 14, 0),
        (8, whole, 12, right[12]),
        (9, whole, 15, 0),
        (0, whole, 15, 0),
    ]:
        assert library()[1].mars_check(pointer, given, fault) == (11 if number else 0)
        assert fault.number == number
        words[place] = repaired
    assert (words == right).all()
