"""Text to print: without control characters, with distinct names, and with lines that fit into the terminal."""
from __future__ import annotations

import re
from collections.abc import Iterable
from itertools import count
from shutil import get_terminal_size
from textwrap import wrap
from typing import TextIO

# The sequences that colour a text on a terminal.
COLOUR = re.compile(r"\033\[[\d;]*m")
# The spaces before a column of a table, and how many more spaces than a line its continuation begins with.
COLUMN, INDENT = re.compile(r"(?<=\S)  +"), 4


def printable(text: str) -> str:
    """Returns the text with `?` for each character that is not printable or controls a terminal."""
    return "".join(letter if letter.isprintable() else "?" for letter in text)


def make_distinct(names: list[str]) -> list[str]:
    """Returns distinct names: equal ones are followed by numbers, so that no two are the same."""
    found: list[str] = []
    for name in names:
        new, numbers = name, count(1)
        while names.count(name) > 1 and new in (*names, *found):
            new = f"{name} {next(numbers)}"
        found.append(new)
    return found


def cut(text: str, width: int) -> str:
    """Returns a text, cut to `width` letters with `..` at its end if it is longer. `width` is 2 or more."""
    return text if len(text) <= width else f"{text[: width - 2]}.."


def lines_for(stream: TextIO, lines: Iterable[str]) -> str:
    """Returns lines as one text. If the stream is a terminal, those that are too long for it are broken at spaces."""
    width = get_terminal_size().columns if stream.isatty() else 0
    return "\n".join(broken(line, width) if width and len(COLOUR.sub("", line)) > width else line for line in lines)


def broken(line: str, width: int) -> str:
    """Returns a line that is broken at spaces into parts of at most this width, unless a word is longer.

    The parts after the first one are indented: to the start of one of the line's columns, or by INDENT more than the
    line. The indent that makes the fewest parts is taken, or the greatest if several make equally few.
    """
    least = min(len(line) - len(line.lstrip(" ")) + INDENT, width // 2)
    starts = {least, *(found.end() for found in COLUMN.finditer(line) if least < found.end() <= width // 2)}
    made = [
        wrap(line, width, subsequent_indent=" " * start, break_long_words=False, break_on_hyphens=False)
        for start in sorted(starts, reverse=True)
    ]
    fewest = min(made, key=len)
    return "\n".join(fewest)
