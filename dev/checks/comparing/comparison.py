"""What comparisons share: a value by its definition beside the computed one, and where the two differ."""
from __future__ import annotations

import random
from collections.abc import Callable, Iterator
from dataclasses import dataclass
from typing import Any

from evaluating.base import Value
from evaluating.evaluator import Evaluator


@dataclass
class Comparison:
    """A value by its definition, and the value that was computed.

    - `kind`: what is compared, in the plural, such as `turns`
    - `given`: the input
    """

    kind: str
    given: Value
    defined: Value
    computed: Value


@dataclass(frozen=True)
class Area:
    """A part of the definitions.

    - `compare`: yields comparisons of one random input
    - `usual`: the number of inputs of a check
    """

    name: str
    usual: int
    compare: Callable[[Evaluator, random.Random], Iterator[Comparison]]


def shown(value: Value, width: int = 600) -> str:
    """Returns a value in a few lines."""
    text = repr(value)
    return text if len(text) <= width else f"{text[: width // 2]} .. {text[-width // 2 :]}"


def where_different(one: Value, other: Value, place: str = "") -> str:
    """Returns the first place at which two values differ, with both parts."""
    if isinstance(one, dict) and isinstance(other, dict) and one.keys() == other.keys():
        name = next(name for name in one if one[name] != other[name])
        return where_different(one[name], other[name], f"{place}.{name}")
    if isinstance(one, tuple) and isinstance(other, tuple) and len(one) == len(other):
        index = next(index for index, part in enumerate(one) if part != other[index])
        return where_different(one[index], other[index], f"{place}[{index}]")
    return f"{place or 'the value'}: {shown(one)}, not {shown(other)}"


def some(value: Any) -> Value:
    """Returns a value as an option of the definitions, which is none for None."""
    return ("None",) if value is None else ("Some", value)
