"""Divides a file of definitions into words and paragraphs."""
from __future__ import annotations

import re
from collections.abc import Iterator
from dataclasses import dataclass

# A comment, a text, a mark, or a word: any other characters up to a space, a mark or a text.
PATTERN = re.compile(
    r"""\s+ | --[^\n]* | \{-.*?-\} | (?P<text>"(?:[^"\\\n]|\\.)*") | (?P<mark>[(){}.;,@])
    | (?P<word>[^\s(){}.;,@"]+)""",
    re.X | re.S,
)
NUMBER = re.compile(r"0x[0-9a-fA-F_]+|0b[01_]+|0o[0-7_]+|[0-9][0-9_]*")


class NotReadable(Exception):
    """A definition has no value that is computed here; the text says why."""


class NoStatement(NotReadable):
    """A name is a type of values, and no statement that may hold."""


@dataclass(frozen=True)
class Word:
    """A word, its place, and whether it directly follows the word before it, without a space."""

    text: str
    kind: str
    line: int
    column: int
    is_joined: bool


def words_of(text: str) -> Iterator[Word]:
    """Yields the words of a file, without its comments. The kinds are name, number, text and mark."""
    at, line, begins, ended = 0, 1, 0, -1
    while at < len(text):
        found = PATTERN.match(text, at)
        if not found:
            raise NotReadable(f"line {line}: {text[at : at + 20]!r}")
        kind = found.lastgroup
        if kind:
            if kind == "word":
                kind = "number" if NUMBER.fullmatch(found[0]) else "name"
            yield Word(found[0], kind, line, at - begins, at == ended)
            ended = found.end()
        if "\n" in found[0]:
            line += found[0].count("\n")
            begins = at + found[0].rindex("\n") + 1
        at = found.end()


def paragraphs_of(text: str) -> Iterator[list[Word]]:
    """Yields the paragraphs of a file. Each begins at the left margin, but not with a closing bracket."""
    paragraph: list[Word] = []
    for word in words_of(text):
        if word.column == 0 and word.text not in "])}" and paragraph:
            yield paragraph
            paragraph = []
        paragraph.append(word)
    if paragraph:
        yield paragraph
