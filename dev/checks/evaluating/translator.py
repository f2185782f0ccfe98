"""Writes terms as Python: expressions, and the statements of a function that returns the value of a term."""
from __future__ import annotations

from collections.abc import Callable, Mapping
from dataclasses import dataclass
from typing import Any, Protocol

from .patterns import VALUES, Arities, Match, match_pattern
from .terms import (
    Apply,
    Elim,
    Every,
    Field,
    If,
    Lambda,
    Let,
    Name,
    Number,
    Pattern,
    Record,
    Term,
    Text,
    Tuple,
)
from .uses import is_cheap, mentions
from .words import NotReadable

# Operators that Python has, too.
INLINE = {
    "◌+◌": "({} + {})",
    "◌*◌": "({} * {})",
    "◌^◌": "({} ** {})",
    "◌++◌": "({} + {})",
    "◌+ℤ◌": "({} + {})",
    "◌-ℤ◌": "({} - {})",
    "◌*ℤ◌": "({} * {})",
    "◌==◌": "({} == {})",
    "◌≡◌": "({} == {})",
    "◌≢◌": "({} != {})",
    "◌≤◌": "({} <= {})",
    "◌<◌": "({} < {})",
    "◌&&◌": "({} and {})",
    "◌×◌": "({} and {})",
    "◌||◌": "({} or {})",
    "◌⊎◌": "({} or {})",
    "◌→◌": "(not {} or {})",
    "◌↔◌": "({} == {})",
}
# Statements that hold always, or never.
PLAIN = {"⊤": "True", "Unit": "True", "⊥": "False"}
# The constructors that may be passed as functions, each with its number of values.
FUNCTIONS = {"suc": 1, "pos": 1, "negsuc": 1, "Some": 1, "Ok": 1, "Err": 1}


@dataclass(frozen=True)
class Meaning:
    """What a name means: its kind (constructor, operation or function), its name in Python or that of the constructor,
    the number of its arguments, and which of these are given as functions that compute them when they are needed.
    """

    kind: str
    name: str
    count: int = 0
    later: tuple[bool, ...] = ()


class Resolver(Protocol):
    """Finds the meaning of a name that is no variable."""

    def meaning(self, term: Term) -> Meaning:
        """Returns the meaning of a name, or of an item of a module. Raises NotReadable if it has none."""

    def constructor(self, term: Term) -> str | None:
        """Returns the constructor that a name means, if it is one."""


@dataclass(frozen=True)
class Scope:
    """The variables: `names` has the Python name of each, and `later` has those whose Python name is a function that
    computes the value.
    """

    names: Mapping[str, str]
    later: frozenset[str] = frozenset()

    def with_names(self, names: Mapping[str, str], later: frozenset[str] = frozenset()) -> Scope:
        """Returns the scope with more variables, those in `later` as functions."""
        return Scope({**self.names, **names}, (self.later - set(names)) | later)


class Translator:
    """Writes the terms of a definition as Python.

    - `waits`: for each argument of the definition, whether it is given as a function
    - `own`: the definition's name, if its last call of itself is written as the next iteration of a loop
    """

    def __init__(
        self, resolver: Resolver, arities: Arities, waits: tuple[bool, ...] = (), own: Name | None = None
    ) -> None:
        self.resolver, self.arities, self.waits, self.own, self.count = resolver, arities, waits, own, 0
        self.ways: dict[type, Callable[[Any, Scope], str]] = {
            Number: self.number,
            Text: self.text,
            Name: self.named,
            Field: self.field,
            Apply: self.application,
            Lambda: self.function,
            Let: self.binding,
            If: self.condition,
            Elim: self.elimination,
            Tuple: self.tuple,
            Record: self.record,
            Every: self.every,
        }

    def fresh(self, name: str) -> str:
        """Returns a name of Python for a variable, another one each time."""
        self.count += 1
        return "".join(letter if letter.isalnum() and letter.isascii() else "_" for letter in name) + f"_{self.count}"

    # ---- Expressions: each method returns the text of one in Python

    def value(self, term: Term, scope: Scope) -> str:
        """Returns the expression for a term."""
        if type(term) in self.ways:
            return self.ways[type(term)](term, scope)
        raise NotReadable("that there is a value is not computed")

    def number(self, term: Number, scope: Scope) -> str:
        """Returns a numeral."""
        return str(term.value)

    def text(self, term: Text, scope: Scope) -> str:
        """Returns a quoted text."""
        return repr(term.value)

    def named(self, term: Name, scope: Scope) -> str:
        """Returns a variable, or the meaning of another name."""
        if term.name in scope.names:
            return scope.names[term.name] + ("()" if term.name in scope.later else "")
        return PLAIN.get(term.name) or self.meant(self.resolver.meaning(term))

    def meant(self, meaning: Meaning) -> str:
        """Returns a name as a value: a constant, or a function of one argument after the other."""
        if meaning.kind == "constructor":
            count = FUNCTIONS.get(meaning.name, 0)
            return (
                f"(lambda x: {self.constructed(meaning.name, ['x'])})" if count else self.constructed(meaning.name, [])
            )
        return f"{meaning.name}()" if meaning.kind == "function" and not meaning.count else f"each_{meaning.name}"

    def constructed(self, constructor: str, values: list[str]) -> str:
        """Returns a value of a constructor."""
        if constructor in VALUES:
            return VALUES[constructor].format(*values)
        self.arities.check(constructor, len(values))
        name = constructor.rpartition(":")[2]
        return f'("{name}", {", ".join(values)})' if values else f'("{name}",)'

    def field(self, term: Field, scope: Scope) -> str:
        """Returns a field of a value, or an item of a module."""
        root = term.of
        while isinstance(root, Field):
            root = root.of
        if isinstance(root, Name) and root.name not in scope.names:
            try:
                return self.meant(self.resolver.meaning(term))
            except KeyError:
                pass
        key = term.name if term.name.isdigit() else repr(term.name)
        return f"{self.value(term.of, scope)}[{key}]"

    def application(self, term: Apply, scope: Scope) -> str:
        """Returns a call, with as many arguments at once as the function takes."""
        head, arguments = term.function, term.arguments
        if isinstance(head, Name) and head.name in INLINE and len(arguments) == 2:
            return INLINE[head.name].format(*(self.value(part, scope) for part in arguments))
        if isinstance(head, Name) and head.name == "◌∷◌" and len(arguments) == 2:
            return self.cons(arguments, scope)
        if isinstance(head, Name) and head.name in scope.names or not isinstance(head, (Name, Field)):
            return self.called(self.value(head, scope), arguments, scope)
        try:
            meaning = self.resolver.meaning(head)
        except KeyError:
            return self.called(self.value(head, scope), arguments, scope)
        if meaning.kind == "constructor":
            return self.constructed(meaning.name, [self.value(part, scope) for part in arguments])
        if len(arguments) < meaning.count:
            return self.called(f"each_{meaning.name}", arguments, scope)
        later = meaning.later or (False,) * meaning.count
        given = [self.argument(part, wait, scope) for part, wait in zip(arguments, later)]
        return self.called(f"{meaning.name}({', '.join(given)})", arguments[meaning.count :], scope)

    def called(self, function: str, arguments: tuple[Term, ...], scope: Scope) -> str:
        """Returns the call of a function with one argument after the other."""
        return function + "".join(f"({self.value(part, scope)})" for part in arguments)

    def argument(self, term: Term, waits: bool, scope: Scope) -> str:
        """Returns an argument, or the function that computes it when it is needed."""
        if not waits:
            return self.value(term, scope)
        if isinstance(term, Name) and term.name in scope.later:
            return scope.names[term.name]
        return f"{'cheap' if is_cheap(term) else 'later'}(lambda: {self.value(term, scope)})"

    def cons(self, arguments: tuple[Term, ...], scope: Scope) -> str:
        """Returns a list of some items and the rest."""
        items, rest = [arguments[0]], arguments[1]
        while isinstance(rest, Apply) and rest.function == Name("◌∷◌") and len(rest.arguments) == 2:
            items.append(rest.arguments[0])
            rest = rest.arguments[1]
        values = [self.value(item, scope) for item in items]
        if rest != Name("[]"):
            values.append(f"*{self.value(rest, scope)}")
        return f"({', '.join(values)},)"

    def function(self, term: Lambda, scope: Scope) -> str:
        """Returns a function of one argument after the other."""
        names, inner = [], scope
        for pattern in term.patterns:
            names.append(self.fresh("x"))
            inner = inner.with_names(self.match(pattern, names[-1]).parts)
        body = self.value(term.body, inner)
        return f"({''.join(f'lambda {name}: ' for name in names)}{body})"

    def match(self, pattern: Pattern, value: str) -> Match:
        """Returns the tests and the parts of a pattern."""
        return match_pattern(pattern, value, self.resolver.constructor)

    def binding(self, term: Let, scope: Scope) -> str:
        """Returns a term with a value bound to a pattern."""
        name = self.fresh("let")
        body = self.value(term.body, scope.with_names(self.match(term.pattern, name).parts))
        return f"(lambda {name}: {body})({self.value(term.value, scope)})"

    def condition(self, term: If, scope: Scope) -> str:
        """Returns one of two terms."""
        test, one, other = (self.value(part, scope) for part in (term.test, term.one, term.other))
        return f"({one} if {test} else {other})"

    def elimination(self, term: Elim, scope: Scope) -> str:
        """Returns the term of the first case that matches."""
        name, result = self.fresh("value"), "no_case()"
        for pattern, body in reversed(term.cases):
            match = self.match(pattern, name)
            value = self.value(body, scope.with_names(match.parts))
            result = value if match.test == "True" else f"{value} if {match.test} else {result}"
        return f"(lambda {name}: {result})({self.value(term.value, scope)})"

    def tuple(self, term: Tuple, scope: Scope) -> str:
        """Returns a tuple."""
        return f"({', '.join(self.value(item, scope) for item in term.items)})"

    def record(self, term: Record, scope: Scope) -> str:
        """Returns a dictionary."""
        fields = [f"{name!r}: {self.value(value, scope)}" for name, value in term.fields]
        base = [f"**{self.value(term.base, scope)}"] if term.base else []
        return f"{{{', '.join(base + fields)}}}"

    # ---- Statements for all numbers below a bound

    def every(self, term: Every, scope: Scope) -> str:
        """Returns the expression that tests a statement for all numbers below their bounds."""
        if term.domain != Name("ℕ"):
            raise NotReadable("what holds for all values of a type is not computed")
        names = {name: self.fresh(name) for name in term.names}
        loops = [f"for {names[name]} in range({self.bound(name, term, scope)})" for name in term.names]
        return f"all({self.value(term.body, scope.with_names(names))} {' '.join(loops)})"

    def bound(self, name: str, term: Every, scope: Scope) -> str:
        """Returns the number below which a statement is to hold, from its premise `name < bound`."""
        body = term.body
        while isinstance(body, Apply) and body.function == Name("◌→◌"):
            premise, body = body.arguments
            if isinstance(premise, Apply) and premise.function == Name("◌<◌") and premise.arguments[0] == Name(name):
                if not mentions(premise.arguments[1], set(term.names)):
                    return self.value(premise.arguments[1], scope)
        raise NotReadable(f"{name} has no bound: what holds for all numbers is not computed")

    # ---- Statements of Python

    def returned(self, term: Term, scope: Scope, margin: str) -> list[str]:
        """Returns the lines that return the value of a term. A last call of the definition itself is a `continue`."""
        if isinstance(term, If):
            lines = [f"{margin}if {self.value(term.test, scope)}:"]
            lines += self.returned(term.one, scope, f"{margin}    ")
            return lines + self.returned(term.other, scope, margin)
        if isinstance(term, Let):
            name = self.fresh("let")
            inner = scope.with_names(self.match(term.pattern, name).parts)
            return [f"{margin}{name} = {self.value(term.value, scope)}", *self.returned(term.body, inner, margin)]
        if isinstance(term, Elim):
            return self.returned_case(term, scope, margin)
        if isinstance(term, Apply) and term.function == self.own and len(term.arguments) == len(self.waits):
            given = [self.argument(part, wait, scope) for part, wait in zip(term.arguments, self.waits)]
            places = [f"a{index}" for index in range(len(given))]
            return [f"{margin}{', '.join(places)} = {', '.join(given)}", f"{margin}continue"]
        return [f"{margin}return {self.value(term, scope)}"]

    def returned_case(self, term: Elim, scope: Scope, margin: str) -> list[str]:
        """Returns the lines for the first case that matches."""
        name = self.fresh("value")
        lines = [f"{margin}{name} = {self.value(term.value, scope)}"]
        for pattern, body in term.cases:
            match = self.match(pattern, name)
            lines.append(f"{margin}if {match.test}:")
            lines += self.returned(body, scope.with_names(match.parts), f"{margin}    ")
        return lines + [f"{margin}no_case()"]
