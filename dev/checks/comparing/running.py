"""Compares random inputs of the areas up to the first difference, also with a mistake in a definition."""
from __future__ import annotations

import random
from collections import Counter
from collections.abc import Callable, Mapping
from dataclasses import dataclass, field
from functools import lru_cache, partial

from evaluating.evaluator import Evaluator, NoCase
from evaluating.words import NotReadable

from .changing import compare_ancestors, compare_edits, compare_follows
from .comparison import Area, Comparison, shown, where_different
from .contests import compare_contests, compare_fights, compare_formulas, compare_starts
from .debugging import compare_transcripts
from .examples import compare_examples
from .library import TOP, has_wasm, play_in_wasm
from .machine import compare_blocks, compare_turns
from .pmars import compare_pmars, has_pmars
from .program import compare_runs
from .programs import compare_loads, compare_sources

AREAS = {
    area.name: area
    for area in (
        Area("examples", 1, compare_examples),
        Area("machine", 600, compare_turns),
        Area("edits", 600, compare_edits),
        Area("follows", 300, compare_follows),
        Area("ancestors", 600, compare_ancestors),
        Area("blocks", 1000, compare_blocks),
        Area("loads", 600, compare_loads),
        Area("sources", 1200, compare_sources),
        Area("formulas", 3000, compare_formulas),
        Area("placement", 300, compare_starts),
        Area("contests", 150, compare_contests),
        Area("fights", 40, compare_fights),
        Area("debugger", 400, compare_transcripts),
        Area("program", 300, compare_runs),
        Area("wasm", 300, partial(compare_turns, played=play_in_wasm)),
        Area("pmars", 300, compare_pmars),
    )
}
# What an area needs besides the library, and why it may be missing.
NEEDS: dict[str, tuple[Callable[[], bool], str]] = {
    "wasm": (has_wasm, "mars.wasm: it is not built, or there is no node (package nodejs)"),
    "pmars": (has_pmars, "pMARS: `dev/bench/pmars build/pmars` builds it (package pmars)"),
}
# Errors that an evaluation raises only if a definition has a mistake, and errors of what computes the other value.
ERRORS = (NoCase, ArithmeticError, LookupError, RecursionError, RuntimeError, TypeError, ValueError)


@dataclass
class Result:
    """The number of comparisons of each kind, of inputs, and the first difference as text."""

    counts: Counter[str] = field(default_factory=Counter)
    inputs: int = 0
    difference: str = ""

    def summary(self) -> str:
        """Returns the counts, and the first difference."""
        counts = ", ".join(f"{count:,} {kind}" for kind, count in self.counts.items())
        return f"{self.inputs:,} inputs: {counts}: {self.difference or 'equal'}"

    def add(self, other: Result) -> None:
        """Adds the result of other inputs."""
        self.counts += other.counts
        self.inputs += other.inputs
        self.difference = self.difference or other.difference


@lru_cache(maxsize=None)
def unchanged() -> Evaluator:
    """Returns the definitions as they are, the same for all inputs of a process."""
    return Evaluator(TOP)


def compare(name: str, seed: int, first: int, count: int, changes: Mapping[str, str] | None = None) -> Result:
    """Compares some inputs of an area up to the first difference. Input number N is the same in each run of a seed."""
    definitions, result = Evaluator(TOP, changes) if changes else unchanged(), Result()
    for number in range(first, first + count):
        result.inputs += 1
        try:
            for comparison in AREAS[name].compare(definitions, random.Random(f"{seed} {name} {number}")):
                result.counts[comparison.kind] += 1
                if comparison.defined != comparison.computed:
                    result.difference = report(name, seed, number, comparison)
                    return result
        except (*ERRORS, NotReadable) as fault:
            result.difference = f"DIFFERENT in input {number} of seed {seed}: {fault!r}"
            return result
    return result


def report(name: str, seed: int, number: int, comparison: Comparison) -> str:
    """Returns the text of a difference."""
    place = where_different(comparison.defined, comparison.computed)
    return "\n".join(
        [
            f"DIFFERENT in {comparison.kind}, input {number} of seed {seed}:",
            f"  by the definitions, and as computed: {place}",
            f"  given: {shown(comparison.given, 2000)}",
            f"  again: dev/checks/evaluate --only {name} --seed {seed} --first {number} --count 1",
        ]
    )
