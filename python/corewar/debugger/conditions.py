"""Reads and writes conditions in the words of the table of commands."""
from __future__ import annotations

import re
from dataclasses import replace
from typing import Any

from ..battle.conditions import Condition, Joined
from ..model.cells import OPCODES
from ..model.errors import CorewarError
from .session import Session
from .table import TABLE

WORDS: dict[str, list[str]] = TABLE["conditions"]
# The words that can follow an argument of a condition.
FOLLOWING = (*WORDS["more"], "and")


def read_conditions(session: Session, text: str) -> Joined:
    """Returns the conditions of a text, all of which one turn must meet. Raises CorewarError."""
    rest, found, is_joined = text.split(), list[Condition](), True
    while rest:
        word = rest.pop(0)
        if word == "and" and not is_joined and rest:
            is_joined = True
            continue
        if word in WORDS["more"] and found:
            found[-1] = with_more(session, found[-1], word, rest)
        elif word in (*WORDS["cells"], *WORDS["warriors"]) and is_joined:
            found.append(Condition(word))
            if has_argument(session, word, rest):
                found[-1] = with_more(session, found[-1], "cells" if word in WORDS["cells"] else "by", rest)
        else:
            raise CorewarError(WORDS["expected"])
        is_joined = False
    if not found:
        raise CorewarError(WORDS["expected"])
    return found


def has_argument(session: Session, word: str, rest: list[str]) -> bool:
    """Returns whether an argument follows a condition's first word. A word of FOLLOWING is one if it is the name of a
    warrior and no other argument can follow it, as in `dies of`.
    """
    if not rest or rest[0] not in FOLLOWING:
        return bool(rest)
    is_name = word in WORDS["warriors"] and rest[0] in map(str.lower, session.names)
    return is_name and (len(rest) == 1 or (len(rest) > 2 and rest[1] in FOLLOWING))


def with_more(session: Session, condition: Condition, word: str, rest: list[str]) -> Condition:
    """Returns a condition to which a word and its argument are added, and removes the argument from `rest`. Raises
    CorewarError.
    """
    name = {"from": "origin"}.get(word, word)
    if not rest or getattr(condition, name) is not None:
        raise CorewarError(WORDS["expected"])
    value: Any
    if word in ("of", "by"):
        value = read_warrior(session, rest)
    elif word in ("was", "becomes"):
        value = rest.pop(0).upper()
        if value not in OPCODES:
            raise CorewarError(f"expected an opcode, not `{value.lower()}`")
    else:
        first, _, last = rest.pop(0).partition("..")
        value = session.address(first), session.address(last or first)
    return replace(condition, **{name: value})


def read_warrior(session: Session, rest: list[str]) -> int:
    """Returns the warrior that as many words as possible name, which may contain `and`, and removes these words."""
    for count in range(len(rest), 0, -1):
        try:
            number = session.warrior(" ".join(rest[:count]))
        except CorewarError:
            continue
        del rest[:count]
        return number
    named = next((place for place, word in enumerate(rest) if word in FOLLOWING), len(rest))
    return session.warrior(" ".join(rest[:named]))


def is_of_any_warrior(joined: Joined) -> bool:
    """Returns whether conditions ask what happened to a warrior, but not to which one."""
    return any(one.word in WORDS["warriors"] for one in joined) and all(one.by is None for one in joined)


def describe_conditions(session: Session, joined: Joined) -> str:
    """Returns conditions as text."""

    def cells(given: tuple[int, int] | None) -> str:
        first, last = map(session.formatter.where, given or (0, 0))
        return first if first == last else f"{first}..{last}"

    def parts(one: Condition) -> list[str]:
        by = "" if one.by is None else session.names[one.by]
        if one.word in WORDS["warriors"]:
            one, start = replace(one, by=None), f"{one.word} {by}"
        else:
            start = f"{one.word} {cells(one.cells)}" if one.cells else one.word
        more = [f"of {session.names[one.of]}"] if one.of is not None else []
        more += [f"from {cells(one.origin)}"] if one.origin else []
        more += [f"{word} {value}" for word, value in (("was", one.was), ("becomes", one.becomes)) if value]
        return [start.strip(), *more, *([f"by {by}"] if one.by is not None else [])]

    return " and ".join(" ".join(parts(one)) for one in joined)


def renumbered(text: str, shift: int, count: int) -> str:
    """Returns a condition for another round, in which another warrior begins: each number of one of the `count`
    warriors is moved by `shift`.
    """

    def other(found: re.Match[str]) -> str:
        number = int(found[0])
        return str((number + shift) % count) if number < count else found[0]

    before = "|".join(f"(?<= {word} )" for word in ("of", "by", *WORDS["warriors"]))
    return re.sub(rf"\b\d+(?=\.[A-Za-z_])|(?:{before})\d+(?!\S)", other, " " + " ".join(text.split()))
