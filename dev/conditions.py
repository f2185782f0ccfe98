"""Drops the conditions of definitions one by one, for `dev/bench/definitions --dropped`: a condition is a field of a
record or a factor of a product.
"""
from __future__ import annotations

import re
from collections.abc import Iterator
from typing import NamedTuple

# A record of conditions: it has parameters, which the conditions are about.
RECORD = re.compile(r"^pub record (\w+) \(.* : Type 0 where\n((?:  .*\n)+)", re.M)
# A definition of a condition, with the lines of its cases.
CONDITION = re.compile(r"^(?:abbrev|unfoldable) (?:pub )?(\w+) : .*Type 0\n((?:(?:\1\b|  ).*\n)+)", re.M)
# The factor that names a value that exists, such as `(s : State)`: the factors after it are conditions on the value.
VALUE = re.compile(r"\([\w\s]+ : .*\)$", re.S)


class Dropped(NamedTuple):
    """A condition of a definition, the text of the definition, and this text without the condition."""

    definition: str
    condition: str
    before: str
    after: str


def without_each(text: str) -> Iterator[Dropped]:
    """Yields each condition of the definitions in the text of a file."""
    for record in RECORD.finditer(text):
        fields = re.split("^(?=  pub )", record[2], flags=re.M)
        for dropped in filter(str.strip, fields):
            condition = " ".join(dropped.split(" : ")[0].split()[1:])
            rest = "".join(other for other in fields if other != dropped)
            yield Dropped(record[1], condition, record[0], record[0].replace(record[2], rest))
    for found in CONDITION.finditer(text):
        whole = found[0]
        for start, end, factor in factors_in(whole, len(whole) - len(found[2]), len(whole)):
            yield Dropped(found[1], " ".join(factor.split()), whole, whole[:start] + whole[end:])


def factors_in(text: str, start: int, end: int) -> Iterator[tuple[int, int, str]]:
    """Yields for each factor of the products in `text[start:end]` where it starts and ends, with one `×` beside it, and
    its text.
    """
    for first, last in split(text, start, end, r"[⊎→]|=(?= |\n)|\n(?=\w)| in |(?<=\w)\. "):
        parts = list(split(text, first, last, "×"))
        values = [bool(VALUE.match(text[a:b].strip())) for a, b in parts]
        for n, (a, b) in enumerate(parts):
            inner = text[a:b].strip()
            if not values[n] and inner.startswith("(") and inner.endswith(")"):
                opened = text.index("(", a)
                yield from factors_in(text, opened + 1, opened + len(inner) - 1)
            if values[n] or len(parts) == 1:
                continue
            if n < len(parts) - 1:
                yield a, b + 1, inner
            elif not values[n - 1]:
                yield len(text[: parts[n - 1][1]].rstrip()), a + len(text[a:b].rstrip()), inner


def split(text: str, start: int, end: int, sign: str) -> Iterator[tuple[int, int]]:
    """Yields where each piece of `text[start:end]` starts and ends, between the signs that no parentheses enclose."""
    depth, last = 0, start
    for found in re.compile(rf"[(\[{{]|[)\]}}]|{sign}").finditer(text, start, end):
        if found[0] in "([{":
            depth += 1
        elif found[0] in ")]}":
            depth -= 1
        elif depth == 0:
            yield last, found.start()
            last = found.end()
    yield last, end
