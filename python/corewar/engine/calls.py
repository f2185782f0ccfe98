"""Assembles sources and runs matches. Modules with other calls of the library use its matches, rows, seeds and arrays.
"""
from __future__ import annotations

import os
from collections.abc import Iterable, Iterator, Sequence
from dataclasses import astuple, dataclass, replace
from typing import Any

import numpy as np

from ..model.errors import RANGE, SCORE, CorewarError, MarsError
from ..model.settings import FORMULA, MAX_WARRIORS, Settings, settings_of
from .binding import array, call, check_size, clamp, settings_struct, slice_of
from .parts import TURNS
from .warriors import Warrior, program

# The generator of seeds: each seed is the previous seed times MULTIPLIER, modulo the prime MODULUS.
MULTIPLIER, MODULUS = 16807, 2**31 - 1
# The number of rounds, the seed and the position of a match.
MatchNumbers = tuple[int, int, int | None]


@dataclass(frozen=True, init=False, repr=False)
class Match:
    """The warriors of a match in the order of their files, and how they are placed in the core.

    - `warriors`: 1 to 16 warriors
    - `settings`: the parameters of the core, or the name of a hill
    - `rounds`: the number of rounds, 1 to 100,000
    - `seed`: the seed for the starting positions, 1 to 2,147,483,646
    - `position`: the address of the second of two warriors, from the minimum distance to the core size minus it; None
      draws the positions from the seed

    The ranges are checked by the calls that use the match.
    """

    warriors: tuple[Warrior, ...]
    settings: Settings
    rounds: int
    seed: int
    position: int | None

    def __init__(
        self,
        warriors: Sequence[Warrior],
        *,
        settings: Settings | str = "94nop",
        rounds: int = 1,
        seed: int = 1,
        position: int | None = None,
    ) -> None:
        given = {"settings": settings_of(settings), "rounds": rounds, "seed": seed, "position": position}
        vars(self).update(given, warriors=tuple(warriors))

    def __repr__(self) -> str:
        return f"<Match of {', '.join(warrior.called for warrior in self.warriors)}>"


@dataclass(frozen=True)
class Row:
    """The result of a warrior.

    - `points`: the sum of its scores
    - `wins`: the number of rounds that it survived as the only warrior
    - `ties`: the number of rounds that it survived with others
    - `losses`: the number of rounds in which it died
    """

    points: int
    wins: int
    ties: int
    losses: int


def assemble(
    source: str | bytes,
    *,
    settings: Settings | str = "94nop",
    rounds: int = 1,
    warriors: int = 2,
    file: str | os.PathLike[str] = "",
) -> Warrior:
    """Assembles a source and returns the warrior.

    - `source`: Redcode as text or bytes
    - `settings`: the parameters of the core, or the name of a hill; predefined names and the maximum length depend on
      them
    - `rounds`, `warriors`: the values of the predefined names ROUNDS and WARRIORS, 0 to 4,294,967,295
    - `file`: the name that the warrior has if its source gives none

    Raises `MarsError` with the line of an error in the source, or if the settings are invalid or memory runs out, and
    `CorewarError` for other values of ROUNDS and WARRIORS. There is no limit of time and memory: use an `Assembler` for
    the sources of strangers.
    """
    data = encode_source(source)
    result = program("mars_assemble", settings, check_size(rounds), [check_size(warriors)], data)
    return replace(result, file=os.fsdecode(file), source=data)


def encode_source(source: str | bytes) -> bytes:
    """Returns a source as bytes. In a text, bytes that are not UTF-8 may occur as `surrogateescape` decodes them."""
    # `bytes` would turn a number into zeros; a memoryview rejects it.
    return source.encode(errors="surrogateescape") if isinstance(source, str) else bytes(memoryview(source))


def match(
    warriors: Sequence[Warrior],
    *,
    settings: Settings | str = "94nop",
    rounds: int = 1,
    seed: int = 1,
    position: int | None = None,
    formula: str = FORMULA,
) -> list[Row]:
    """Runs a match of 1 to 16 warriors and returns the row of each, in their order.

    - `settings`: the parameters of the core, or the name of a hill
    - `rounds`: the number of rounds, 1 to 100,000
    - `seed`: the seed for the starting positions, 1 to 2,147,483,646
    - `position`: the address of the second of two warriors in each round, from the minimum distance to the core size
      minus it; None draws the positions from the seed
    - `formula`: the score of each survivor of a round, an expression in W (warriors) and S (survivors) of at most 256
      bytes

    Raises `CorewarError` for more than 16 warriors, and `MarsError` if a number or a warrior is invalid, if the core is
    too small for the warriors, if the formula has no value for a round or a sum of points does not fit in 64 bits, or
    if memory runs out.
    """
    check_count(len(warriors))
    given, numbers = settings_of(settings), (rounds, seed, position)
    count, sums = len(warriors), []
    size = TURNS // max(1, given.cycles * count)
    if rounds > size:
        # The portions are computed from the number of rounds and the seed; each call checks the position.
        check_numbers(given, rounds, seed, None)
        # Python raises Ctrl-C between two calls.
        for part in portions(numbers, count, size):
            sums.append([astuple(row) for row in rows("mars_match", given, part, formula, warriors, count)])
        found = [Row(*map(sum, zip(*own))) for own in zip(*sums)]
        if all(fits(row.points) for row in found):
            return found
        # The call of the whole match raises the error of a sum that does not fit.
    return rows("mars_match", given, numbers, formula, warriors, count)


def check_numbers(settings: Settings, rounds: int, seed: int, position: int | None) -> None:
    """Raises MarsError if the library rejects the settings or one of these numbers."""
    # Without candidates no match is run.
    rows("mars_population", settings, (rounds, seed, position), FORMULA, [], 0)


def portions(numbers: MatchNumbers, warriors: int, size: int) -> Iterator[MatchNumbers]:
    """Yields the numbers of shorter matches, of about `size` rounds each, that together have the rounds of a match, in
    order.
    """
    rounds, seed, position = numbers
    # Rounded up to a multiple of `warriors`, so that the same warrior begins each portion.
    size = max(1, -(-size // warriors)) * warriors
    # A round of w warriors draws w - 1 seeds to place them, and w - 2 to put them in another order.
    draws = max(0, 2 * warriors - 3) if not position else 0
    for first in range(0, rounds, size):
        yield min(size, rounds - first), seed_after(seed, draws * first), position


def seed_after(seed: int, draws: int) -> int:
    """Returns the seed after a number of draws. If the number is negative, `seed` is the seed after that many draws,
    and the seed before them is returned.
    """
    return seed * pow(MULTIPLIER, draws, MODULUS) % MODULUS


def fits(points: int) -> bool:
    """Returns whether a sum of points fits in 64 bits."""
    return -(2**63) <= points < 2**63


def check_points(points: Iterable[int]) -> None:
    """Raises MarsError if a sum of points does not fit in 64 bits."""
    if not all(map(fits, points)):
        raise MarsError(SCORE, RANGE)


def check_count(warriors: int) -> None:
    """Raises CorewarError for more warriors than a match can have."""
    if warriors > MAX_WARRIORS:
        raise CorewarError(f"a match has at most {MAX_WARRIORS} warriors, not {warriors}")


def warrior_arrays(warriors: Sequence[Warrior], core: int) -> tuple[Any, ...]:
    """Returns arguments of a call: the cells of all warriors, one after another, as a core of this size reads them, and
    the length and start of each warrior. Raises MarsError, and TypeError for anything that is not a warrior.
    """
    cells, numbers = list[bytes](), list[int]()
    for index, warrior in enumerate(warriors):
        if not isinstance(warrior, Warrior):
            raise TypeError(f"expected a warrior, as assemble and read return it, not {warrior!r}")
        try:
            cells.append(warrior.cells_in(core))
        except MarsError as fault:
            raise MarsError(fault.code, fault.number, line=fault.line, warrior=index) from None
        numbers += len(warrior), clamp(warrior.start)
    return *slice_of("MarsCell", b"".join(cells)), *slice_of("MarsWarrior", np.array(numbers, np.uint32))


def rows(
    name: str,
    settings: Settings | str,
    numbers: MatchNumbers,
    formula: str,
    warriors: Sequence[Warrior],
    count: int,
) -> list[Row]:
    """Returns the rows that the library's call `name` makes, one for each of the first `count` warriors."""
    given, result = settings_of(settings), array("MarsRow", count)
    words = settings_struct(given, *numbers), *slice_of("uint8_t", encode_source(formula))
    call(name, *words, *warrior_arrays(warriors, given.core), *slice_of("MarsRow", result))
    return [Row(*row) for row in result.tolist()]
