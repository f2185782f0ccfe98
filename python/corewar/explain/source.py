"""Splits sources without assembling them: into lines with labels, operation and operands, EQU names and loops. Also
finds misspelt operations, and the place of an error.
"""
from __future__ import annotations

import re
from collections.abc import Callable, Sequence
from dataclasses import dataclass, field
from difflib import SequenceMatcher, get_close_matches
from operator import itemgetter

from . import words
from ..engine.warriors import Warrior
from ..model.printing import printable
from .sentences import Misspelt, cause_sentence

OPCODES, MODIFIERS, PREDEFINED = [*words.OPCODES], [*words.MODIFIERS], [*words.PREDEFINED]
OPERATIONS = [*words.OPCODES, *words.DIRECTIVES]
# Operations of pMARS that this kit lacks, and opcodes of other dialects.
EXTENSIONS = ["LDP", "STP", "PIN"]
ELSEWHERE = [*EXTENSIONS, "XCH", "PCT", "STS"]
# What assembles a source.
Load = Callable[[bytes], Warrior]
# A name with its joins, a number, or punctuation, even if the language does not use it; bytes up to 32 are spaces.
TOKEN = re.compile(r"(?:\w|&(?=[A-Za-z_]))+|==|!=|<=|>=|&&|\|\||[^\0- ]", re.ASCII)
NAME = re.compile(r"[A-Za-z_][\w&]*\Z", re.ASCII)
ASSERT = re.compile(r"\s*;assert\b(.*)", re.I)
# An opcode and a name with no space between them.
GLUED = re.compile(rf"({'|'.join(OPCODES)})([A-Z_]\w*)\Z", re.I | re.ASCII)
# How many names are compared with a word; a comparison takes 10 to 20 microseconds for each letter.
MAX_CHOICES = 1000
# The maximum number of loops around a line that are looked at, of which the innermost ones are taken.
MAX_LOOPS = 32
# How many words of a line are compared with the names of operations.
FIRST_WORDS = 20


@dataclass
class Line:
    """A line. `rest` has the tokens after the labels and the operation, `unread` is the reason why the line is not
    read, or "" if it is, and `skipped` is whether it is in a loop whose count is 0.
    """

    number: int
    text: str
    labels: list[str] = field(default_factory=list)
    operation: str = ""
    rest: list[str] = field(default_factory=list)
    unread: str = ""
    skipped: bool = False

    @property
    def word(self) -> str:
        """The operation in capitals."""
        return self.operation.upper()

    @property
    def code(self) -> str:
        """The text before the comment."""
        return self.text.partition(";")[0]

    @property
    def is_label(self) -> bool:
        """Whether the line has only labels."""
        return bool(self.labels) and not self.operation and not self.rest

    @property
    def uses(self) -> set[str]:
        """The names that it uses, as operation and after it, and not as modifiers."""
        return {self.operation, *(word for before, word in zip(["", *self.rest], self.rest) if before != ".")}

    @property
    def is_continued(self) -> bool:
        """Whether pMARS joins the next line to it."""
        return self.text.rstrip().endswith("\\") and ";" not in self.text

    @property
    def operands(self) -> list[str]:
        """The tokens of the operands, or of an assert."""
        if ASSERT.match(self.text):
            return TOKEN.findall(self.text.split(";")[1])[1:]
        return self.rest[2:] if self.rest[:1] == ["."] else self.rest


@dataclass
class Loop:
    """A loop: the line of its FOR, its counter or "", and the number of the line of its ROF; without a ROF, one more
    than the number of lines.
    """

    head: Line
    counter: str
    last: int


@dataclass
class Source:
    """A source: its bytes and its lines, the first line of each EQU name, and the loops."""

    data: bytes
    lines: list[Line]
    equates: dict[str, Line]
    loops: list[Loop]

    def read_lines(self) -> list[Line]:
        """Returns the lines that are read."""
        return [line for line in self.lines if not line.unread and not line.skipped]

    def labels(self) -> dict[str, Line]:
        """Returns the first line of each label."""
        found: dict[str, Line] = {}
        for line in self.read_lines():
            if line.word not in ("EQU", "FOR"):
                for label in line.labels:
                    found.setdefault(label, line)
        return found

    def is_operand(self, name: str) -> bool:
        """Returns whether an operand of a line has this name. Then it is not a misspelt opcode."""
        return any(name in line.rest for line in self.lines)

    def equate(self, head: Line) -> list[Line]:
        """Returns the lines of an EQU: the first one, and those without a name that follow. Empty lines may be between
        them.
        """
        found = [head]
        for line in self.lines[head.number :]:
            if line.word == "EQU" and not line.labels:
                found.append(line)
            elif line.code.strip():
                break
        return found

    def around(self) -> dict[int, list[Loop]]:
        """Returns the loops around each line, by its number, at most `MAX_LOOPS`."""
        heads, open_loops, found = (
            {loop.head.number: loop for loop in self.loops},
            list[Loop](),
            dict[int, list[Loop]](),
        )
        for line in self.lines:
            while open_loops and open_loops[-1].last <= line.number:
                open_loops.pop()
            found[line.number] = open_loops[-MAX_LOOPS:]
            if line.number in heads:
                open_loops.append(heads[line.number])
        return found

    def loops_around(self, number: int) -> list[Loop]:
        return [loop for loop in self.loops if loop.head.number < number < loop.last]


def parse_line(number: int, text: str, names: dict[str, Line]) -> Line:
    """Splits a line: words are labels until one is an operation, which may be an EQU name."""
    line, at = Line(number, text), 0
    tokens = TOKEN.findall(line.code)
    while at < len(tokens) and NAME.match(tokens[at]):
        word, following = tokens[at], "".join(tokens[at + 1 : at + 2])
        at += 1
        is_operation = word.upper() in OPERATIONS or word in names
        # An opcode before EQU or FOR is a name, but after a name EQU is the operation, whatever its text begins with.
        if is_operation and (following.upper() not in ("EQU", "FOR") or word.upper() == "EQU" and line.labels):
            line.operation = word
            break
        line.labels.append(word)
        at += following == ":"
    line.rest = tokens[at:]
    return line


def read_source(data: bytes) -> Source:
    """Splits the lines of a source. Each line of a loop is read once, and not in each iteration."""
    texts = [text.decode("utf-8", "replace").rstrip("\r") for text in data.removesuffix(b"\n").split(b"\n")]
    first = next((number for number, text in enumerate(texts, 1) if re.match(r"\s*;redcode", text, re.I)), 1)
    source, open_loops, end, zeros = Source(data, [], {}, []), list[Loop](), 0, 0
    for number, text in enumerate(texts, 1):
        line = parse_line(number, text, source.equates)
        source.lines.append(line)
        line.skipped = zeros > 0
        if number < first:
            line.unread = cause_sentence("before redcode", line=first)
        elif end:
            line.unread = cause_sentence("after end", line=end)
        elif line.skipped and (line.word not in ("FOR", "ROF") or len(line.labels) > 1):
            # In a loop that is skipped, only a FOR that is the first or second word begins another loop.
            continue
        elif line.word == "END":
            end = number
        elif line.word == "EQU" and line.labels:
            source.equates.setdefault(line.labels[-1], line)
        elif line.word == "FOR":
            open_loops.append(Loop(line, "".join(line.labels[-1:]), len(texts) + 1))
            source.loops.append(open_loops[-1])
            zeros += line.rest == ["0"]
        elif line.word == "ROF" and open_loops:
            zeros -= open_loops[-1].head.rest == ["0"]
            open_loops.pop().last = number
    return source


def most_similar(word: str, choices: Sequence[str]) -> str | None:
    """Returns the choice that is most similar to a word, or None if none is similar. A choice with the same letters in
    another order comes first and, of equally similar choices, one with the same first letter.
    """
    upper = {choice.upper(): choice for choice in choices[:MAX_CHOICES]}
    same = [choice for choice in upper if sorted(choice) == sorted(word.upper())]
    close = same or [choice for choice in get_close_matches(word.upper(), upper) if not is_other(word.upper(), choice)]
    best = [choice for choice in close if likeness(word, choice) == likeness(word, close[0])]
    return upper[max(best, key=lambda choice: choice[:1] == word[:1].upper())] if best else None


def is_other(word: str, choice: str) -> bool:
    """Returns whether two words of three letters differ in two places, as LDA and DAT do."""
    return len(word) == len(choice) == 3 and sum(one != other for one, other in zip(word, choice)) > 1


def glued(source: Source, word: str) -> str:
    """Returns an opcode and a name of the source in place of a word that consists of both, as in `JMPstart`, or ""."""
    found = GLUED.match(word)
    is_name = found and (found[2] in source.labels() or found[2] in source.equates)
    return f"{found[1]} {found[2]}" if found and is_name and not source.is_operand(word) else ""


def likeness(word: str, choice: str) -> float:
    """Returns how similar two words are: 1 if they have the same letters, otherwise less."""
    same = sorted(word.upper()) == sorted(choice)
    return 1.0 if same else SequenceMatcher(None, word.upper(), choice).ratio()


def misspelt(source: Source, line: Line) -> Misspelt | None:
    """Returns a sentence on a word in place of an operation, or None without such a word. The word is similar to an
    operation, lacks the space after an operation, or is an operation of another dialect.
    """
    for word in [] if line.word in OPERATIONS else line.labels[:FIRST_WORDS]:
        if pair := glued(source, word):
            return Misspelt.of("misspelt", word=word, new=pair)
    # An EQU name in place of the operation may be the operand of a misspelt one.
    if line.operation.upper() in OPERATIONS or not (line.rest or line.operation or len(line.labels) > 1):
        return None
    labels = [word for word in line.labels[:FIRST_WORDS] if not source.is_operand(word)]
    for word in labels:
        if word.upper() in ELSEWHERE:
            return Misspelt.of("elsewhere", word=word)
    found = [(likeness(word, meant), word, meant) for word in labels if (meant := most_similar(word, OPERATIONS))]
    if not found:
        return None
    _, word, meant = max(found, key=itemgetter(0))
    return Misspelt.of("misspelt", word=word, new=meant)


@dataclass(frozen=True)
class Place:
    """A word or sign of a source: the number of its line, and its first column, from 0 and in characters."""

    number: int
    column: int
    word: str


def place_of(data: bytes, begin: int, end: int) -> Place | None:
    """Returns the word or sign that consists of some bytes of a source, or None if there are none. A byte that is not
    ASCII stands for its character.
    """
    start = data.rfind(b"\n", 0, begin) + 1
    while begin < end < len(data) and 0x80 <= data[end] < 0xC0:
        end += 1
    before, word = (part.decode("utf-8", "replace") for part in (data[start:begin], data[begin:end]))
    return Place(data.count(b"\n", 0, begin) + 1, len(before), word) if word else None


def column_of(word: str, line: str, last: int = 0) -> int | None:
    """Returns the column of the first occurrence of a word, in the code of a line, that ends after the column `last`,
    or None if there is none.
    """
    pattern = rf"(?<![\w&]){word}(?![\w&])" if NAME.match(word) else re.escape(word)
    found = re.finditer(pattern, line.partition(";")[0]) if word else ()
    return next((one.start() for one in found if one.end() > last), None)


def excerpt(data: bytes, number: int, column: int = 0, word: str = "") -> list[str]:
    """Returns a line of a source with its neighbours and a mark below a word at one of its columns, or nothing if there
    is no such line.
    """
    lines = data.decode("utf-8", "replace").removesuffix("\n").split("\n")
    found = list[str]()
    for at in range(max(1, number - 1), min(len(lines), number + 1) + 1) if 0 < number <= len(lines) else ():
        shown = lines[at - 1].expandtabs()
        found.append(f"{'>' if at == number else ' '} {at:4} | {shown}".rstrip())
        if word and at == number and printable(shown) == shown:
            found.append(f"       | {' ' * len(lines[at - 1][:column].expandtabs())}{'^' * len(word)}")
    return found
