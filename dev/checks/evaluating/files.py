"""Reads the files of definitions: what each declares, and where the names that it imports come from."""
from __future__ import annotations

import os
import re
from collections.abc import Sequence
from dataclasses import dataclass, field

from .parser import OPERATORS, Parser
from .terms import Pattern, Term
from .words import NotReadable, Word, paragraphs_of

# The words before the name in a declaration.
MARKS = {"pattern", "unfoldable", "abbrev", "pub"}
USE = re.compile(r"([\w.'◌×ℕ]+?)(?:\.\{(.*)\})?(?: as (\S+))?$", re.S)
SPECS = re.compile(r"Rattle\.(\w+)\.specs\.(.+)")


@dataclass(frozen=True)
class Clause:
    """A clause of a definition: its patterns, and its term."""

    patterns: tuple[Pattern, ...]
    body: Term


@dataclass(frozen=True)
class RecordType:
    """A type of records: its parameters, and its fields, each with its type."""

    parameters: tuple[str, ...]
    fields: tuple[tuple[str, Term], ...]


@dataclass
class File:
    """A file of definitions: what its paragraphs declare. A paragraph is parsed when it is first needed."""

    path: str
    # The module of each imported item, with the item's name there; and the module of each alias.
    items: dict[str, tuple[str, str]] = field(default_factory=dict)
    aliases: dict[str, str] = field(default_factory=dict)
    clauses: dict[str, list[Sequence[Word]]] = field(default_factory=dict)
    types: dict[str, Sequence[Word]] = field(default_factory=dict)
    records: dict[str, Sequence[Word]] = field(default_factory=dict)
    constructors: set[str] = field(default_factory=set)
    data: set[str] = field(default_factory=set)

    def definition(self, name: str) -> list[Clause]:
        """Parses the clauses of a definition."""
        return [parse_clause(words) for words in self.clauses[name]]

    def statement(self, name: str) -> Term:
        """Parses the type of a definition. If the definition is a proof, its type is the statement that it proves."""
        return Parser(self.types[name]).whole_term()

    def record_type(self, name: str) -> RecordType:
        """Parses the declaration of a type of records."""
        parser, parameters = Parser(self.records[name]), list[str]()
        while not parser.has(":"):
            names, _ = parse_parameter(parser)
            parameters += names
        while not parser.has("where"):
            parser.take()
        lines: list[list[Word]] = []
        for word in parser.words[parser.at :]:
            if word.text == "pub" or not lines:
                lines.append([])
            lines[-1].append(word)
        fields = []
        for line in lines:
            one = Parser(line)
            one.take("pub")
            name = one.take().text
            one.take(":")
            fields.append((name, one.whole_term()))
        return RecordType(tuple(parameters), tuple(fields))


def parse_parameter(parser: Parser) -> tuple[list[str], Term]:
    """Parses `(x y : A)` or `{x y : A}`. Returns the names, or none if they are implicit (in braces), and the type."""
    closing = "}" if parser.next.text == "{" else ")"
    parser.take()
    names = []
    while not parser.has(":"):
        names.append(parser.take().text)
    domain = parser.term()
    parser.take(closing)
    return ([] if closing == "}" else names), domain


def parse_clause(words: Sequence[Word]) -> Clause:
    """Parses a clause: `name pattern .. = term`, or `pattern operator pattern = term`."""
    parser, patterns = Parser(words), []
    if parser.look(1) == "=" or not is_infix(words):
        parser.take()
    while not parser.has("="):
        if parser.next.text in OPERATORS:
            parser.take()
        elif parser.next.text == "{":
            parser.skip_braces()
        else:
            patterns.append(parser.pattern_atom())
    return Clause(tuple(patterns), parser.whole_term())


def is_infix(words: Sequence[Word]) -> bool:
    """Returns whether a clause defines an operator between its patterns."""
    return infix_name(words) is not None


def infix_name(words: Sequence[Word]) -> str | None:
    """Returns the name of the operator that a clause defines between its patterns, or None if it defines none."""
    depth = 0
    for word in words:
        depth += {"(": 1, ")": -1}.get(word.text, 0)
        if depth == 0 and word.kind == "name":
            if word.text == "=":
                return None
            if word.text in OPERATORS:
                return f"◌{word.text}◌"
    return None


def read_file(path: str, text: str) -> File:
    """Returns what a file of definitions declares."""
    file = File(path)
    for words in paragraphs_of(text):
        first = words[0].text
        rest = [word.text for word in words]
        if first == "use" or rest[:2] == ["pub", "use"]:
            add_imports(file, text_of(words[rest.index("use") + 1 :]))
        elif first.startswith("infix"):
            check_fixity(words)
        elif rest[:2] == ["pub", "record"]:
            file.records[rest[2]] = words[3:]
        elif rest[:2] == ["pub", "data"]:
            file.constructors |= constructors_in(words)
            file.data.add(rest[2])
        elif first not in {"unfolding", "module", "open", "where", "mutual", "mod"} and rest[:2] != ["pub", "mod"]:
            add_declaration(file, words)
    return file


def add_declaration(file: File, words: Sequence[Word]) -> None:
    """Adds a type or a clause of a definition to a file."""
    at = 0
    while words[at].text in MARKS:
        at += 1
    if at + 1 < len(words) and words[at + 1].text in {":", "{"} and (at or words[at + 1].text == ":"):
        start = next(place for place, word in enumerate(words) if word.text == ":")
        file.types[words[at].text] = words[start + 1 :]
        return
    name = infix_name(words) or words[at].text
    file.clauses.setdefault(name, []).append(words[at:])


def text_of(words: Sequence[Word]) -> str:
    """Returns some words as one text."""
    return "".join(word.text if word.is_joined else f" {word.text}" for word in words).strip()


def add_imports(file: File, text: str) -> None:
    """Adds the names of a `use` line."""
    found = USE.match(text)
    if not found:
        raise NotReadable(f"{file.path}: use {text}")
    module, items, alias = found.groups()
    if items is None:
        file.aliases[alias or module.rpartition(".")[2]] = module
        return
    for item in items.split(","):
        name, _, own = item.strip().partition(" as ")
        file.items[own or name] = (module, name)


def check_fixity(words: Sequence[Word]) -> None:
    """Checks that an operator binds as the parser takes it to bind."""
    side = {"infixl": "left", "infixr": "right", "infix": "none"}[words[0].text]
    for word in words[2:]:
        if OPERATORS.get(word.text.strip("◌")) != (int(words[1].text), side):
            raise NotReadable(f"line {word.line}: {word.text} binds in another way")


def constructors_in(words: Sequence[Word]) -> set[str]:
    """Returns the constructors of a declaration of a type: the names before a colon at the margin of the block."""
    start = next(place for place, word in enumerate(words) if word.text == "where") + 1
    margin = words[start].column if start < len(words) else 0
    return {
        word.text
        for word, after in zip(words[start:], words[start + 1 :])
        if word.column == margin and after.text == ":"
    }


def path_of(top: str, module: str) -> str | None:
    """Returns the file of a module of this repository's definitions, or None for any other module."""
    found = SPECS.fullmatch(module)
    path = os.path.join(top, "crates", found[1], "specs", *found[2].split(".")) + ".antt" if found else ""
    return path if os.path.isfile(path) else None
