"""How each warrior fares in each round of many matches, as an array."""
from __future__ import annotations

import math
from collections.abc import Callable, Iterator, Sequence, Sized
from concurrent.futures import Executor, ThreadPoolExecutor
from dataclasses import dataclass, replace
from functools import partial
from threading import Event
from typing import Any

import numpy as np
from numpy.typing import ArrayLike, NDArray

from ..model.errors import CorewarError, MarsError
from ..model.settings import MAX_WARRIORS, NUMBERS, Settings, settings_of
from .binding import MAX_UINT32, array, call, settings_struct, slice_of
from .calls import check_count, check_numbers, portions, warrior_arrays
from .parts import DISTANT_TURNS, TURNS, Stopped, run_parts
from .rewards import cycles_of
from .warriors import Warrior

# The fields of a warrior in a round; the names of the fields that `counts` adds; and all fields. `outcomes` describes
# them.
OUTCOME = np.dtype([("survived", "?"), ("turns", "u4"), ("cycles", "u4"), ("start", "u4")])
COUNTS = ("own_turns", "spawned", "executed", "written", "touched")
COUNTED = np.dtype([*OUTCOME.descr, *((name, "u4") for name in COUNTS)])
# The number of parts for each thread, so that all threads end at about the same time; and the maximum number of rows of
# a part, 17 MB.
PARTS, MAX_ROWS = 4, 1 << 19
# The maximum number of matches that are listed at a time, 20 MB of lineups.
BLOCK = 1 << 18
# The maximum factor by which a turn takes longer if it is counted.
COUNTING = 8

Array = NDArray[Any]


def outcomes(
    warriors: Sequence[Warrior],
    lineups: ArrayLike | Sequence[Sequence[int]] | None = None,
    *,
    settings: Settings | str = "94nop",
    rounds: int = 1,
    seeds: ArrayLike = 1,
    position: int | None = None,
    counts: bool = False,
    jobs: int = 1,
    executor: Executor | None = None,
    reduce: Callable[[NDArray[Any]], NDArray[Any]] | None = None,
) -> NDArray[Any]:
    """Runs a match of each lineup, and returns how each of its warriors fares in each round.

    - `lineups`: for each match the indices of its 1 to 16 warriors, in their order; None for one match of all warriors
    - `settings`, `position`: as for `match`; a position requires lineups of two
    - `rounds`: the number of rounds of each match, 1 to 100,000
    - `seeds`: the seed of all matches, or one for each, 1 to 2,147,483,646
    - `counts`: whether to count what each warrior does, which takes several times as long
    - `jobs`: the number of threads, 1 or more
    - `executor`: an executor of `concurrent.futures` that runs the matches instead, such as one of threads, processes,
      Dask or MPI. Its workers need the same version of the package; results do not depend on how matches are split
    - `reduce`: a function of the outcomes of some lineups that returns an array with a row for each lineup, such as
      `partial(corewar.shares, cycles=800)`; the rows of all lineups are returned in place of the outcomes. It runs
      where the matches run, so that the outcomes of only a few lineups are in memory; other processes require a
      function that can be pickled

    Returns an array of the shape (lineups, rounds, warriors of a lineup) with these fields:

    - `survived`: whether the warrior lives at the end of the round
    - `turns`: the number of turns that all warriors had made when it died, including its last one; or the number of
      all turns if it survived
    - `cycles`: the number of complete cycles when it died; the cycle limit if it survived
    - `start`: the address of its first cell

    If `counts`, also with these:

    - `own_turns`: the number of its own turns
    - `spawned`: the number of its turns that queued two processes
    - `executed`, `written`: the number of cells at which it executed an instruction, and that it wrote
    - `touched`: the number of cells that it executed, read or wrote; operands count as read even if the opcode
      does not use them

    In a lineup that is shorter than others the last rows have no warrior: all their fields are 0, also `turns`, which
    is 1 or more for a warrior. The rows of `match` count these outcomes over the rounds. Raises ValueError for more or
    fewer seeds than lineups, and for numbers that are not whole; `CorewarError` for more than 16 warriors in a match,
    for no thread, for another number of rows from `reduce` and for errors of an executor; and `MarsError` if a number,
    a lineup or a warrior is invalid, if the core is too small, or if memory runs out.
    """
    check_jobs(jobs)
    given = settings_of(settings)
    table = table_of([range(len(warriors))] if lineups is None else lineups, seeds)
    table["counting"] = counts
    if not len(table):
        # With no lineup the library does not check these numbers.
        check_numbers(given, rounds, seeds if isinstance(seeds, int) else 1, position)
    run = Run(given, rounds, position, int(table["count"].max(initial=0)))
    finish = partial(found_of, counts=counts, cycles=given.cycles, reduce=reduce)
    found: Array | None = None
    for part, rows in run_lineups(warriors, table, run, finish, jobs, executor):
        if found is None:
            found = np.empty((len(table), *rows.shape[1:]), rows.dtype)
        found[part] = rows
    return finish(np.zeros((0, rounds, run.width), array("MarsOutcome", 0).dtype)) if found is None else found


def check_jobs(jobs: int) -> None:
    """Raises CorewarError for no thread."""
    if jobs < 1:
        raise CorewarError(f"expected 1 or more jobs, not {jobs}")


def found_of(rows: Array, counts: bool, cycles: int, reduce: Callable[[Array], Array] | None) -> Array:
    """Returns the outcomes for rows of the library, or the rows that `reduce` returns for them. Raises CorewarError."""
    found = np.empty(rows.shape, COUNTED if counts else OUTCOME)
    for field in ("survived", "turns", "start", *(COUNTS if counts else ())):
        found[field] = rows[field]
    found["cycles"] = cycles_of(found["turns"], found["survived"], cycles)
    if reduce is None:
        return found
    reduced = np.asarray(reduce(found))
    if reduced.shape[:1] != rows.shape[:1]:
        raise CorewarError(f"expected an array with {len(rows)} rows from `reduce`, not of the shape {reduced.shape}")
    return reduced


@dataclass(frozen=True)
class Run:
    """What all matches have in common. `width` is the number of warriors of the longest lineup, and so the number of
    columns in the results of each match.
    """

    settings: Settings
    rounds: int
    position: int | None = None
    width: int = 2


def turns_of(run: Run, table: Array) -> int:
    """Returns the maximum number of turns of a round, times COUNTING if they are counted, since counting takes time."""
    return run.settings.cycles * run.width * (COUNTING if table["counting"].any() else 1)


def run_lineups(
    warriors: Sequence[Warrior],
    table: Array,
    run: Run,
    finish: Callable[[Array], Array],
    jobs: int = 1,
    executor: Executor | None = None,
) -> Iterator[tuple[slice, Array]]:
    """Runs the matches of a table of lineups in parts. Yields for each part, as it ends, its slice of the table, and
    what `finish` returns for its rows of the library, which have the shape (lineups, rounds, warriors). Raises
    MarsError and CorewarError.
    """
    is_here = executor is None or isinstance(executor, ThreadPoolExecutor)
    turns = max(1, run.rounds * turns_of(run, table))
    size = max(1, min((TURNS if is_here else DISTANT_TURNS) // turns, MAX_ROWS // max(1, run.rounds * run.width)))
    if executor is None and jobs > 1:
        size = min(size, max(1, -(-len(table) // (jobs * PARTS))))
    if executor is None and size >= len(table):
        if len(table):
            yield slice(0, len(table)), play(warriors, table, run, finish)
        return
    # A part has other indices than the table. So a wrong lineup is looked for before, and if there is none, a wrong
    # warrior.
    is_used = np.arange(MAX_WARRIORS) < table["count"][:, None]
    wrong = (table["count"] < 1) | (np.where(is_used, table["warrior"], 0).max(axis=1) >= len(warriors))
    first = np.flatnonzero(wrong)[:1]
    try:
        play(warriors, table[first], run, np.asarray)
    except MarsError as fault:
        index = int(first[0]) if len(first) else fault.warrior
        raise MarsError(fault.code, fault.number, line=fault.line, warrior=index) from None
    starts = range(0, len(table), size)
    parts = ((*part_of(warriors, table[at : at + size], run.width, is_here), run, finish) for at in starts)
    for number, found in run_parts(play, parts, jobs, executor):
        yield slice(starts[number], starts[number] + size), found


def part_of(warriors: Sequence[Warrior], table: Array, width: int, is_here: bool) -> tuple[list[Warrior], Array]:
    """Returns the warriors that occur in some lineups, and these lineups with the indices of the returned warriors. If
    the part does not run in this process, the warriors have no sources, which would be sent in vain.
    """
    indices = table["warrior"][:, :width]
    # An entry without a warrior has the index 0.
    used = np.flatnonzero(np.bincount(indices.ravel(), minlength=len(warriors)))
    new = np.zeros(len(warriors), np.uint32)
    new[used] = np.arange(len(used))
    part, table = [warriors[number] for number in used.tolist()], table.copy()
    table["warrior"][:, :width] = new[indices]
    return part if is_here else [replace(one, source=None) for one in part], table


def play(
    warriors: Sequence[Warrior], table: Array, run: Run, finish: Callable[[Array], Array], stop: Event | None = None
) -> Array:
    """Runs the matches of a table, and returns what `finish` makes of their rows. A table of one match, which may take
    long, is run in portions, between which `stop` ends it.
    """
    # The library rejects 0 with the same error as any number out of the range, and 0 rounds need no memory.
    rounds = run.rounds if 0 < run.rounds <= NUMBERS["rounds"].maximum else 0
    fixed, size = warrior_arrays(warriors, run.settings.core), TURNS // max(1, turns_of(run, table))
    given, parts = [(rounds, 0, run.position)], []
    if len(table) == 1 and rounds > size and table["count"][0] and table["seed"][0] <= NUMBERS["seed"].maximum:
        given = [*portions((rounds, int(table["seed"][0]), run.position), int(table["count"][0]), size)]
    for count, seed, position in given:
        if stop is not None and stop.is_set():
            raise Stopped
        if seed:
            table = table.copy()
            table["seed"] = seed
        # The library rejects a seed that is out of its range, but takes 0 in a lineup for the seed of the settings.
        settings = settings_struct(run.settings, count, int(table["seed"].min(initial=1)), position)
        rows = array("MarsOutcome", count * int(table["count"].sum()))
        call("mars_outcomes", settings, *fixed, *slice_of("MarsLineup", table), *slice_of("MarsOutcome", rows))
        parts.append(shaped(rows, table["count"], (len(table), count, run.width)))
    return finish(parts[0] if len(parts) == 1 else np.concatenate(parts, axis=1))


def shaped(rows: Array, counts: NDArray[np.uint32], shape: tuple[int, int, int]) -> Array:
    """Returns the rows of the library as an array of the shape (lineups, rounds, warriors), with zeros in the places
    that have no warrior.
    """
    if len(rows) == math.prod(shape):
        return rows.reshape(shape)
    found = np.zeros(shape, rows.dtype)
    found[np.broadcast_to((np.arange(shape[2]) < counts[:, None])[:, None], shape)] = rows
    return found


def table_of(lineups: Any, seeds: ArrayLike) -> Array:
    """Returns lineups in the form that the library expects. Raises ValueError and CorewarError."""
    lengths = [len(one) for one in lineups if isinstance(one, Sized)] if isinstance(lineups, Sequence) else []
    if len({*lengths}) > 1 and len(lengths) == len(lineups):
        lineups = [[*one, *[0] * (max(lengths) - len(one))] for one in lineups]
    indices = clamped(lineups, "lineups of whole numbers")
    # An empty list has one dimension, and stands for no lineups.
    if indices.shape == (0,):
        indices = indices.reshape(0, 0)
    if indices.ndim != 2:
        raise ValueError(f"expected an array of lineups, with 2 dimensions and not {indices.ndim}")
    check_count(indices.shape[1])
    table = array("MarsLineup", len(indices))
    table["count"] = lengths if len(lengths) == len(table) else indices.shape[1]
    table["warrior"][:, : indices.shape[1]] = indices
    table["seed"] = clamped(seeds, "whole numbers as seeds")
    return table


def clamped(given: ArrayLike, wanted: str) -> NDArray[np.int64]:
    """Returns whole numbers, with MAX_UINT32, which the library rejects, in place of each that does not fit in 32 bits.
    Raises ValueError.
    """
    try:
        numbers = np.asarray(given)
        fits = (numbers >= 0) & (numbers <= MAX_UINT32)
    except (ValueError, TypeError):
        raise ValueError(f"expected {wanted}") from None
    # The array of an empty list has the type float, and numbers of more than 64 bits are objects.
    if numbers.size and numbers.dtype.kind not in "biuO":
        raise ValueError(f"expected {wanted}")
    return np.where(fits, numbers, np.int64(MAX_UINT32)).astype(np.int64)
