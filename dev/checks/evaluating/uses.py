"""Finds the variables that each evaluation of a term needs, so that their values may be computed before the term."""
from __future__ import annotations

from .terms import Apply, Elim, Every, Field, If, Lambda, Let, Name, Number, Record, Some, Term, Text, Tuple

# Operators whose right operand is computed only if the left one does not decide.
LAZY = {"◌&&◌", "◌||◌", "◌→◌", "◌×◌", "◌⊎◌"}


def always_uses(term: Term, name: str) -> bool:
    """Returns whether each evaluation of a term needs the variable of this name. Another variable of the same name
    inside the term counts as well, which costs only time.
    """
    if isinstance(term, Name):
        return term.name == name
    if isinstance(term, Field):
        return always_uses(term.of, name)
    if isinstance(term, If):
        return always_uses(term.test, name) or (always_uses(term.one, name) and always_uses(term.other, name))
    if isinstance(term, Elim):
        return always_uses(term.value, name) or all(always_uses(body, name) for _, body in term.cases)
    if isinstance(term, Apply):
        if isinstance(term.function, Name) and term.function.name in LAZY:
            return always_uses(term.arguments[0], name)
        return any(always_uses(part, name) for part in (term.function, *term.arguments))
    return any(always_uses(part, name) for part in parts_of(term))


def parts_of(term: Term) -> list[Term]:
    """Returns the parts of a term that are always evaluated with it."""
    if isinstance(term, Let):
        return [term.value, term.body]
    if isinstance(term, Tuple):
        return list(term.items)
    if isinstance(term, Record):
        return [value for _, value in term.fields] + ([term.base] if term.base else [])
    return []


def mentions(term: Term, names: set[str]) -> bool:
    """Returns whether one of the names occurs in a term."""
    if isinstance(term, Name):
        return term.name in names
    if isinstance(term, Field):
        return mentions(term.of, names)
    inside: list[Term] = parts_of(term)
    if isinstance(term, Apply):
        inside = [term.function, *term.arguments]
    elif isinstance(term, If):
        inside = [term.test, term.one, term.other]
    elif isinstance(term, Elim):
        inside = [term.value, *(body for _, body in term.cases)]
    elif isinstance(term, Lambda):
        inside = [term.body]
    elif isinstance(term, (Every, Some)):
        inside = [term.domain, term.body]
    return any(mentions(part, names) for part in inside)


def is_cheap(term: Term) -> bool:
    """Returns whether a term only names a value, or is a function, so that no work is saved by keeping its value."""
    return isinstance(term, (Name, Number, Text, Lambda)) or isinstance(term, Field) and is_cheap(term.of)
