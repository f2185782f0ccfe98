"""Patterns as Python: the tests of a value, and the parts of it that variables name."""
from __future__ import annotations

from collections.abc import Callable
from dataclasses import dataclass, field

from .terms import Constructed, Field, Name, Pattern, Term, Variable
from .words import NotReadable

# For each constructor of the library: the test whether a value `{0}` has it, and the parts of the value, as Python.
CONSTRUCTORS: dict[str, tuple[str, list[str]]] = {
    "[]": ("not {0}", []),
    "◌∷◌": ("{0}", ["{0}[0]", "{0}[1:]"]),
    "zero": ("{0} == 0", []),
    "suc": ("{0} > 0", ["({0} - 1)"]),
    "pos": ("{0} >= 0", ["{0}"]),
    "negsuc": ("{0} < 0", ["(-1 - {0})"]),
    "true": ("{0}", []),
    "false": ("not {0}", []),
    "tt": ("True", []),
}
# The value that each constructor of the library makes of its arguments, as Python; `translator` writes lists itself.
VALUES = {
    "[]": "()",
    "zero": "0",
    "suc": "({0} + 1)",
    "pos": "{0}",
    "negsuc": "(-1 - {0})",
    "true": "True",
    "false": "False",
    "tt": "()",
}


@dataclass
class Match:
    """What a value must pass to match a pattern, and the part of it that each variable names, as Python."""

    tests: list[str] = field(default_factory=list)
    parts: dict[str, str] = field(default_factory=dict)

    @property
    def test(self) -> str:
        """Returns the condition of all tests."""
        return " and ".join(self.tests) or "True"


class Arities:
    """The number of values of each constructor, which must be the same everywhere."""

    def __init__(self) -> None:
        self.counts: dict[str, int] = {}

    def check(self, constructor: str, count: int) -> None:
        """Raises NotReadable if a constructor has another number of values elsewhere."""
        if self.counts.setdefault(constructor, count) != count:
            raise NotReadable(f"{constructor} has {count} values, and elsewhere {self.counts[constructor]}")


def match_pattern(
    pattern: Pattern, value: str, constructor_of: Callable[[Term], str | None], found: Match | None = None
) -> Match:
    """Returns what a value, given as Python, must pass to match a pattern. `constructor_of` returns the constructor
    that a name means, if it is one.
    """
    found = found or Match()
    if isinstance(pattern, Variable):
        constructor = constructor_of(Name(pattern.name))
        if constructor:
            add_constructor(constructor, (), value, constructor_of, found)
        elif pattern.name != "_":
            found.parts[pattern.name] = value
    elif isinstance(pattern, Constructed):
        constructor = constructor_of(pattern.constructor)
        if not constructor:
            raise NotReadable(f"{shown(pattern.constructor)} is no constructor")
        add_constructor(constructor, pattern.parts, value, constructor_of, found)
    else:
        for index, part in enumerate(pattern.parts):
            match_pattern(part, f"{value}[{index}]", constructor_of, found)
    return found


def add_constructor(
    constructor: str,
    patterns: tuple[Pattern, ...],
    value: str,
    constructor_of: Callable[[Term], str | None],
    found: Match,
) -> None:
    """Adds the test and the parts of a constructor."""
    if constructor in CONSTRUCTORS:
        test, parts = CONSTRUCTORS[constructor]
    else:
        test = '{0}[0] == "' + constructor.rpartition(":")[2] + '"'
        parts = ["{0}[" + str(index + 1) + "]" for index in range(len(patterns))]
    if len(parts) != len(patterns):
        raise NotReadable(f"{constructor} has {len(parts)} values, not {len(patterns)}")
    if test != "True":
        found.tests.append(test.format(value))
    for pattern, part in zip(patterns, parts):
        match_pattern(pattern, part.format(value), constructor_of, found)


def shown(term: Term) -> str:
    """Returns a name as it is written."""
    if isinstance(term, Field):
        return f"{shown(term.of)}.{term.name}"
    return term.name if isinstance(term, Name) else str(term)
