"""Finds the errors of a source. The library reports the first one, so it is called again with that line replaced."""
from __future__ import annotations

import re
from collections.abc import Callable, Iterator, Sequence
from dataclasses import dataclass
from typing import Any

from ..engine.calls import encode_source
from ..engine.deadline import deadline
from ..engine.sources import Assembler, Limit
from ..model.errors import ASSEMBLY, MarsError
from ..model.settings import Settings
from .meanings import explain_error
from .sentences import Advice, Misspelt
from .source import Line, Place, Source, column_of, place_of, read_source

# The maximum number of errors that are reported for a source.
MAX_ERRORS = 10
# After these errors the rest of the source cannot be read.
LAST = ("1 Text 9 TooLong", "7 Empty", "8 TooLong")
UNCLOSED = "1 Text 3 UnclosedFor"


def kind_of(fault: MarsError) -> str:
    """Returns the text of an error without its line."""
    return re.sub(r"^line \d+: ", "", str(fault))


def errors_of(data: bytes, load: Callable[[bytes], object]) -> Iterator[tuple[MarsError, list[str]]]:
    """Yields the errors of a source, each with its explanation.

    - `load`: assembles a source; any exception that it raises besides `MarsError` is passed on
    """
    source, given, lines, seen = read_source(data), data.split(b"\n"), data.split(b"\n"), set[int]()
    for _ in range(MAX_ERRORS):
        text = b"\n".join(lines)
        try:
            load(text)
            return
        except MarsError as fault:
            sentences = explain_error(fault, text)
            if fault.end:
                # The position is in `text`, in which earlier lines are replaced; it becomes the position in `data`.
                before = text.count(b"\n", 0, fault.begin)
                moved = sum(map(len, given[:before])) - sum(map(len, lines[:before]))
                fault.begin, fault.end = fault.begin + moved, fault.end + moved
            # The cause may be in an earlier line, and be a misspelt word.
            advice = next((one for one in sentences[:1] if isinstance(one, Advice)), Advice(""))
            number, misspelt = advice.line or fault.line, advice.old if isinstance(advice, Misspelt) else ""
            # A line that is still wrong after it was replaced has names that are wrong elsewhere.
            if number not in seen:
                yield fault, sentences
            if not 0 < number <= len(source.lines) or number in seen or kind_of(fault) in LAST:
                return
            seen.add(number)
            if kind_of(fault) == UNCLOSED:
                close(lines, source)
            lines[number - 1] = replaced(source.lines[number - 1], source, misspelt).encode()
            user = source.lines[(fault.line or number) - 1]
            if user.number != number and user.operation in source.equates:
                # The line that replaces an EQU may not be an instruction.
                lines[user.number - 1] = replaced(user, source, "").encode()
            if misspelt and advice.new == "EQU":
                correct(lines, source, misspelt)


@dataclass(frozen=True)
class Problem:
    """An error of a source.

    - `line`: the number of the line, from 1, or 0 if the error has no line
    - `error`: the error as `mars` prints it after the line, such as `2 Operation`
    - `source`: the text of the line
    - `advice`: sentences on what is wrong and what to do
    - `word`, `replacement`: the wrong word of the line, and what to write in its place; each is "" if it is not known
    - `column`: where the word begins in the line, from 0
    """

    line: int
    error: str
    source: str
    advice: tuple[str, ...]
    word: str = ""
    replacement: str = ""
    column: int = 0

    def __str__(self) -> str:
        return "\n".join([f"line {self.line}: {self.error}" if self.line else self.error, *self.advice])


def problem_of(kind: str, number: int, source: bytes, sentences: Sequence[str], place: Place | None = None) -> Problem:
    """Returns an error with its explanation; `place` is where the library reports it, or None."""
    lines = source.split(b"\n")
    text = lines[number - 1].decode("utf-8", "replace").rstrip("\r") if 0 < number <= len(lines) else ""
    return Problem(number, kind, text, tuple(map(str, sentences)), *wrong_word(number, text, sentences, place))


def wrong_word(number: int, text: str, sentences: Sequence[str], place: Place | None) -> tuple[str, str, int]:
    """Returns the wrong word of a line, what to write in its place, and the word's column; "" and 0 if not known."""
    advice = next((one for one in sentences if isinstance(one, Advice)), None)
    here = place if place and place.number == number else None
    if advice and advice.line in (0, number):
        columns = [column_of(advice.old, text, last) for last in (here.column if here else 0, 0)]
        if (column := next((one for one in columns if one is not None), None)) is not None:
            return advice.old, advice.new, column
    return (here.word, "", here.column) if here else ("", "", 0)


def problems(
    source: str | bytes,
    *,
    settings: Settings | str = "94nop",
    rounds: int = 1,
    warriors: int = 2,
    limit: Limit = Limit(),
) -> list[Problem]:
    """Returns the errors of a source, at most ten, each with what `corewar explain` says; none if it is right.

    - `settings`, `rounds`, `warriors`: as for `assemble`
    - `limit`: the limits for assembling it; explaining it has the same limit of time, but only in the main thread

    Raises `Overrun` if a limit is exceeded, and `MarsError` if the settings are invalid.
    """
    data, given = encode_source(source), dict[str, Any](settings=settings, rounds=rounds, warriors=warriors)
    with Assembler(limit, is_total=True) as assembler, deadline(limit):
        found = [*errors_of(data, lambda text: assembler.assemble(text, **given))]
    for fault, _ in found:
        if fault.code != ASSEMBLY:
            raise fault
    return [
        problem_of(kind_of(fault), fault.line, data, sentences, place_of(data, fault.begin, fault.end))
        for fault, sentences in found
    ]


def correct(lines: list[bytes], source: Source, misspelt: str) -> None:
    """Writes EQU in place of a misspelt one, in all lines that have it, since the names that they define are used."""
    for line in source.lines:
        if misspelt in line.labels[1:] and not line.unread:
            lines[line.number - 1] = re.sub(rf"\b{misspelt}\b", "EQU", line.code, count=1).encode()


def close(lines: list[bytes], source: Source) -> None:
    """Closes a FOR: the line of END becomes `ROF` and `END`; without an END, `ROF` is added after the last line."""
    end = next((line.number for line in source.lines if line.word == "END" and not line.unread), None)
    if end is None:
        lines.append(b"ROF")
    else:
        lines[end - 1 : end] = [b"ROF", b"END"]


def replaced(line: Line, source: Source, misspelt: str) -> str:
    """Returns a valid line to read in place of a faulty one, such that the lines after it are read as before. Neither a
    misspelt opcode nor the words after it are labels.
    """
    known = {**source.equates, **source.labels()}
    labels = line.labels[: line.labels.index(misspelt)] if misspelt in line.labels else line.labels
    # A word in the place of an operation is not a label.
    labels = labels if line.operation or misspelt else labels[:-1]
    own = [name for name in labels if known.get(name, line) is line]
    if line.word == "FOR":
        return " ".join([*line.labels[-1:], "FOR 1"])
    if line.word == "EQU":
        # A name of another line would be an error again.
        return " ".join([*own[-1:], "EQU 1"]) if own[-1:] == line.labels[-1:] else ""
    if line.word in ("ROF", "ORG") or not line.code.strip():
        return ""
    return "END" if line.word == "END" else " ".join([*own, "DAT 0, 0"])
