"""The terms and the patterns of definitions, which `parser` makes and `translator` writes as Python."""
from __future__ import annotations

from dataclasses import dataclass
from typing import Union


@dataclass(frozen=True)
class Number:
    """A numeral."""

    value: int


@dataclass(frozen=True)
class Text:
    """A quoted text."""

    value: str


@dataclass(frozen=True)
class Name:
    """A variable, a definition, a constructor or an operation."""

    name: str


@dataclass(frozen=True)
class Field:
    """A field of a record or of a tuple, or an item of a module."""

    of: Term
    name: str


@dataclass(frozen=True)
class Apply:
    """A function with arguments; also a constructor with its values, and an operator with its operands."""

    function: Term
    arguments: tuple[Term, ...]


@dataclass(frozen=True)
class Lambda:
    """`λ x y. body`"""

    patterns: tuple[Pattern, ...]
    body: Term


@dataclass(frozen=True)
class Let:
    """`let x = value in body`"""

    pattern: Pattern
    value: Term
    body: Term


@dataclass(frozen=True)
class If:
    """`if test then one else other`"""

    test: Term
    one: Term
    other: Term


@dataclass(frozen=True)
class Elim:
    """`elim value [ pattern ↦ term | .. ]`"""

    value: Term
    cases: tuple[tuple[Pattern, Term], ...]


@dataclass(frozen=True)
class Tuple:
    """`(a, b, c)`"""

    items: tuple[Term, ...]


@dataclass(frozen=True)
class Record:
    """`record { a = x }`, or `record base { a = x }`"""

    base: Term | None
    fields: tuple[tuple[str, Term], ...]


@dataclass(frozen=True)
class Every:
    """`(x y : domain) → body`: the body holds for all values."""

    names: tuple[str, ...]
    domain: Term
    body: Term


@dataclass(frozen=True)
class Some:
    """`(x : domain) × body`: there is a value for which the body holds."""

    names: tuple[str, ...]
    domain: Term
    body: Term


@dataclass(frozen=True)
class Variable:
    """A pattern that any value matches; `_` gives the value no name."""

    name: str


@dataclass(frozen=True)
class Constructed:
    """A pattern of a constructor with patterns of its values."""

    constructor: Term
    parts: tuple[Pattern, ...]


@dataclass(frozen=True)
class Parts:
    """A pattern of a tuple."""

    parts: tuple[Pattern, ...]


Term = Union[Number, Text, Name, Field, Apply, Lambda, Let, If, Elim, Tuple, Record, Every, Some]
Pattern = Union[Variable, Constructed, Parts]
