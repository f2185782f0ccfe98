"""Evaluates definitions: each is written as a Python function when it is first needed."""
from __future__ import annotations

import os
import re
import sys
from collections.abc import Callable, Mapping
from typing import Any

from .base import OPERATIONS, Value
from .files import Clause, File, path_of, read_file
from .patterns import CONSTRUCTORS, VALUES, Arities, shown
from .terms import Field, Name, Term, Variable
from .translator import Meaning, Scope, Translator
from .uses import always_uses
from .words import NoStatement, NotReadable

# The constructors of the toolchain's library.
STANDARD = {*CONSTRUCTORS, *VALUES, "Some", "None", "Ok", "Err"}
# Modules of the toolchain, whose items are operations.
LIBRARY = re.compile(r"Rattle\.(std|clap)\.|Prim\.|lib\.|mathlib\.")
TYPES = {"ℕ", "ℤ", "Bool", "List", "Option", "Result", "String", "Vec", "Global", "Type"}
# The recursion limit of Python during evaluations.
DEPTH = 1_000_000


class NoCase(Exception):
    """No clause of a definition matches its arguments. The type of the definition excludes this."""


def no_case() -> Value:
    """Raises NoCase in an expression, in which `raise` is not allowed."""
    raise NoCase


def cheap(compute: Callable[[], Value]) -> Callable[[], Value]:
    """Returns `compute` itself. This function replaces `later` if the value takes no time to compute again."""
    return compute


def later(compute: Callable[[], Value]) -> Callable[[], Value]:
    """Returns a function that computes a value in its first call, and returns the same value in later ones."""
    values: list[Value] = []

    def value() -> Value:
        if not values:
            values.append(compute())
        return values[0]

    return value


def delayed(value: Value) -> Callable[[], Value]:
    """Returns a function that returns the value."""
    return lambda: value


def one_by_one(function: Callable[..., Value], waits: tuple[bool, ...], given: tuple[Value, ...] = ()) -> Value:
    """Returns a function that takes one argument after the other, as values.

    - `waits`: for each argument, whether `function` takes it as a function that computes the value when it is needed
    - `given`: the arguments so far, in the form that `function` takes
    """
    if len(given) == len(waits):
        return function(*given)

    def take(value: Value) -> Value:
        return one_by_one(function, waits, (*given, delayed(value) if waits[len(given)] else value))

    return take


def of_values(function: Callable[..., Value], waits: tuple[bool, ...]) -> Callable[..., Value]:
    """Returns a function that takes all arguments as values; `waits` is as for `one_by_one`."""
    if not any(waits):
        return function
    return lambda *values: function(*(delayed(value) if wait else value for value, wait in zip(values, waits)))


class Evaluator:
    """The definitions of a repository, as Python functions.

    - `top`: the folder of the repository
    - `changes`: texts that replace those of files, by the path of the file from `top`
    """

    def __init__(self, top: str, changes: Mapping[str, str] | None = None) -> None:
        self.top, self.changes = top, dict(changes or {})
        self.files: dict[str, File] = {}
        self.known: dict[tuple[str, str], Meaning] = {}
        self.arities = Arities()
        # What the names in the written functions stand for, and the source of each function by its name.
        self.space: dict[str, Any] = {"cheap": cheap, "later": later, "no_case": no_case}
        self.sources: dict[str, str] = {}
        self.functions: dict[str, Callable[..., Value]] = {}
        for operation in OPERATIONS.values():
            self.space[operation.name] = operation.function
            self.space[f"each_{operation.name}"] = one_by_one(operation.function, (False,) * operation.arity)
        sys.setrecursionlimit(DEPTH)

    def get(self, name: str) -> Callable[..., Value]:
        """Returns a definition as a Python function, by its name as in `mars_core.Turn.turn_of`."""
        if name not in self.functions:
            meaning = self.meaning_of(name)
            self.functions[name] = of_values(self.space[meaning.name], meaning.later)
        return self.functions[name]

    def __call__(self, name: str, *arguments: Value) -> Value:
        """Returns the value of a definition for some arguments."""
        return self.get(name)(*arguments)

    def source(self, name: str) -> str:
        """Returns the Python function of a definition as text."""
        return self.sources[self.meaning_of(name).name]

    def meaning_of(self, name: str) -> Meaning:
        """Returns the meaning of a definition, by its name as in `mars_core.Turn.turn_of`."""
        crate, _, rest = name.partition(".")
        module, _, own = rest.rpartition(".")
        return self.meaning_in(f"Rattle.{crate}.specs.{module}", own)

    def file(self, module: str) -> File:
        """Returns the file of a module."""
        if module not in self.files:
            path = path_of(self.top, module)
            if path is None:
                raise NoStatement(f"{module} declares a type of values")
            with open(path) as file:
                text = self.changes.get(os.path.relpath(path, self.top)) or file.read()
            self.files[module] = read_file(path, text)
        return self.files[module]

    def meaning_in(self, module: str, name: str) -> Meaning:
        """Returns the meaning of a name in a module. Raises NotReadable if it has no value that is computed."""
        if (module, name) in self.known:
            return self.known[module, name]
        if LIBRARY.match(module):
            return library_meaning(name)
        if module.endswith("TheVariants"):
            return Meaning("constructor", f"{module.split('.')[-2]}:{name}")
        file = self.file(module)
        if name in file.constructors:
            return Meaning("constructor", f"{module}:{name}")
        if name in file.clauses or name in file.records:
            try:
                return (self.define if name in file.clauses else self.define_record)(module, file, name)
            except NotReadable:
                self.known.pop((module, name), None)
                raise
        if name in file.items:
            return self.meaning_in(*file.items[name])
        if name in STANDARD:
            return Meaning("constructor", name)
        if name in file.data or name in TYPES:
            raise NoStatement(f"{name} is a type of values")
        raise NotReadable(f"{name} has no meaning in {module}")

    def define(self, module: str, file: File, name: str) -> Meaning:
        """Writes a definition as a Python function."""
        clauses = file.definition(name)
        count = len(clauses[0].patterns)
        waits = tuple(may_wait(clauses, index) for index in range(count))
        waits = tuple(wait and not Names(self, module).constructor_at(clauses, i) for i, wait in enumerate(waits))
        meaning = Meaning("function", python_name(module, name), count, waits)
        self.known[module, name] = meaning
        lines = self.body(module, clauses, meaning, Name(name))
        if any("lambda" in line for line in lines) or not any(line.endswith("continue") for line in lines):
            # A function that is made in one iteration of the loop would see the variables of a later one.
            lines = self.body(module, clauses, meaning, None)
        self.add(meaning, lines)
        return meaning

    def body(self, module: str, clauses: list[Clause], meaning: Meaning, own: Name | None) -> list[str]:
        """Returns the lines of the function of a definition: one clause after the other."""
        translator = Translator(Names(self, module), self.arities, meaning.later, own)
        parameters = [f"a{index}" for index in range(meaning.count)]
        lines = [f"def {meaning.name}({', '.join(parameters)}):"]
        margin = "        " if own else "    "
        lines += ["    while True:"] if own else []
        for clause in clauses:
            scope, tests = Scope({}), list[str]()
            for place, pattern, waits in zip(parameters, clause.patterns, meaning.later):
                match = translator.match(pattern, place)
                tests += match.tests
                scope = scope.with_names(match.parts, frozenset(match.parts) if waits else frozenset())
            inner = f"{margin}    " if tests else margin
            lines += [f"{margin}if {' and '.join(tests)}:"] if tests else []
            lines += translator.returned(clause.body, scope, inner)
            if not tests:
                return lines
        return lines + [f"{margin}no_case()"]

    def define_record(self, module: str, file: File, name: str) -> Meaning:
        """Writes a type of records as the statement that each of its fields holds."""
        declared = file.record_type(name)
        count = len(declared.parameters)
        meaning = Meaning("function", python_name(module, name), count, (False,) * count)
        self.known[module, name] = meaning
        translator = Translator(Names(self, module), self.arities)
        scope = Scope({name: f"a{index}" for index, name in enumerate(declared.parameters)})
        statements = [translator.value(statement, scope) for _, statement in declared.fields]
        places = ", ".join(f"a{index}" for index in range(count))
        self.add(meaning, [f"def {meaning.name}({places}):", f"    return {' and '.join(statements)}"])
        return meaning

    def add(self, meaning: Meaning, lines: list[str]) -> None:
        """Adds a function, given by the lines of its source. A constant is computed when it is first needed."""
        self.sources[meaning.name] = source = "\n".join(lines)
        exec(compile(source, meaning.name, "exec"), self.space)
        function = self.space[meaning.name]
        if not meaning.count:
            self.space[meaning.name] = later(function)
        self.space[f"each_{meaning.name}"] = one_by_one(function, meaning.later) if meaning.count else None

    def statement(self, module: str, name: str) -> bool:
        """Returns the truth value of the statement that a definition proves."""
        term = self.file(module).statement(name)
        source = Translator(Names(self, module), self.arities).value(term, Scope({}))
        return bool(eval(source, self.space))


class Names:
    """What names mean in a module."""

    def __init__(self, evaluator: Evaluator, module: str) -> None:
        self.evaluator, self.module = evaluator, module

    def meaning(self, term: Term) -> Meaning:
        """Returns the meaning of a name, or of an item of a module. Raises KeyError for a field of a value."""
        if isinstance(term, Name):
            return self.evaluator.meaning_in(self.module, term.name)
        assert isinstance(term, Field)
        path = shown(term).split(".")
        aliases = self.evaluator.file(self.module).aliases
        if path[0] not in aliases:
            raise KeyError(path[0])
        module = aliases[path[0]]
        if module.endswith("TheImpl") and path[1:] == ["ghosts", "eq"]:
            return library_meaning("eq")
        return self.evaluator.meaning_in(module, path[-1])

    def constructor(self, term: Term) -> str | None:
        """Returns the constructor that a name means, if it is one."""
        if isinstance(term, Name):
            file = self.evaluator.file(self.module)
            if term.name in file.constructors:
                return f"{self.module}:{term.name}"
            if term.name not in file.items:
                return term.name if term.name in STANDARD else None
            module, name = file.items[term.name]
            if LIBRARY.match(module):
                return name if name in STANDARD else None
            if not module.endswith("TheVariants") and (path_of(self.evaluator.top, module) is None):
                return None
            if not module.endswith("TheVariants") and name not in self.evaluator.file(module).constructors:
                return None
        meaning = self.meaning(term)
        return meaning.name if meaning.kind == "constructor" else None

    def constructor_at(self, clauses: list[Clause], index: int) -> bool:
        """Returns whether the pattern of some clause for this argument is a constructor without values."""
        patterns = [clause.patterns[index] for clause in clauses]
        return any(isinstance(one, Variable) and self.constructor(Name(one.name)) for one in patterns)


def may_wait(clauses: list[Clause], index: int) -> bool:
    """Returns whether an argument is to be computed only when it is needed: some clause does not always use it, and its
    pattern in each clause is a name.
    """
    patterns = [clause.patterns[index] for clause in clauses]
    return all(isinstance(one, Variable) for one in patterns) and not all(
        isinstance(one, Variable) and always_uses(clause.body, one.name) for one, clause in zip(patterns, clauses)
    )


def library_meaning(name: str) -> Meaning:
    """Returns the meaning of a name of the toolchain's library."""
    if name in STANDARD:
        return Meaning("constructor", name)
    if name in TYPES:
        raise NoStatement(f"{name} is a type of values")
    if name not in OPERATIONS:
        raise NotReadable(f"the toolchain's {name} has no operation in `base`")
    return Meaning("operation", OPERATIONS[name].name, OPERATIONS[name].arity)


def python_name(module: str, name: str) -> str:
    """Returns a name of Python for a definition, such as mars_core__Turn__turn_of."""
    path = module.removeprefix("Rattle.").replace(".specs.", ".").replace(".", "__")
    return f"{path}__" + "".join(
        one if one.isalnum() and one.isascii() or one == "_" else f"_{ord(one):x}" for one in name
    )
