"""Splits lines into operands with their EQU names replaced, as both programs compute them."""
from __future__ import annotations

import re
from collections.abc import Sequence
from dataclasses import dataclass

from ..model.cells import MODES
from .arithmetic import MAX_TOKENS, regrouped
from .source import ASSERT, OPCODES, Line, Source

# The maximum depth to which EQU names in the texts of other EQUs are replaced.
MAX_DEPTH = 32


@dataclass
class Instruction:
    """An instruction, ORG, END, FOR or assert, and the tokens of its operands. It is `written` if the line has its
    operation, and not only an EQU name for it: then the operands can be written there in another way.
    """

    line: Line
    word: str
    operands: list[list[str]]
    written: bool = True

    def split(self, text: str) -> tuple[str, list[str], str]:
        """Returns what is before the operands in the text of the line, the texts of the operands, and the comment. All
        are empty if the text does not have the operation.
        """
        if self.word == "ASSERT":
            found = re.match(r"(\s*;assert\b\s*)([^;]*)(.*)", text, re.I | re.S)
        else:
            equ = r".*?\bEQU\s+" if self.line.word == "EQU" else r".*?(?<![\w.&])"
            found = re.match(rf"({equ}{self.word}\b(?:\s*\.\s*\w+)?\s*)([^;]*)(.*)", text, re.I | re.S)
        if not found:
            return "", [], ""
        operands, space = found[2].rstrip(), found[2][len(found[2].rstrip()) :]
        return found[1], [one.strip() for one in operands.split(",")] if operands else [], space + found[3]

    def regrouped(self) -> list[str | None]:
        """Returns each operand as pMARS reads it: with parentheses if it computes in another order, or with a 0 after a
        mode without a number. It is "" if both programs read the same, and None if only pMARS rejects it.
        """
        found = list[str | None]()
        for tokens in self.operands:
            mode = tokens[0] if self.word in OPCODES and tokens and tokens[0] in MODES else ""
            text = regrouped(tokens[1:] if mode else tokens)
            if mode and len(tokens) == 1 and len(self.operands) == 2 and not found:
                text = "0"
            found.append(mode + text if text else text)
        return found


class Expansion:
    """Replaces the EQU names of a source that stand for one line."""

    def __init__(self, source: Source) -> None:
        self.source, self.several = source, set[str]()
        name = ""
        for line in source.lines:
            if line.word == "EQU" and line.labels:
                name = line.labels[-1]
            elif line.word == "EQU" and name:
                self.several.add(name)
            elif line.code.strip():
                name = ""

    def tokens(self, tokens: Sequence[str]) -> list[str]:
        """Returns tokens with these EQU names replaced: at most one token more than an expression may have."""
        left, found = [(token, 0) for token in reversed(tokens[: MAX_TOKENS + 1])], list[str]()
        while left and len(found) <= MAX_TOKENS:
            token, depth = left.pop()
            head = self.source.equates.get(token) if token not in self.several else None
            if head and depth < MAX_DEPTH:
                left += [(one, depth + 1) for one in reversed(head.rest[: MAX_TOKENS + 1])]
            else:
                found.append(token)
        return found


def split_operands(tokens: Sequence[str]) -> list[list[str]]:
    """Returns the tokens of each operand."""
    found: list[list[str]] = [[]] if tokens else []
    for token in tokens:
        if token == ",":
            found.append([])
        else:
            found[-1].append(token)
    return found


def instructions_of(source: Source) -> list[Instruction]:
    """Returns what has operands in the lines that are read, also in the text of an EQU that is used as an operation."""
    expansion, found, name = Expansion(source), list[Instruction](), ""
    # What follows the name of such an EQU belongs to its text, so the instruction is found where the name is used.
    continued = {line.operation for line in source.lines if line.rest}

    def add(line: Line, word: str, tokens: list[str], written: bool = True) -> None:
        tokens = tokens[2:] if tokens[:1] == ["."] else tokens
        found.append(Instruction(line, word.upper(), split_operands(expansion.tokens(tokens)), written))

    for line in source.read_lines():
        if ASSERT.match(line.text):
            add(line, "ASSERT", line.operands)
        elif line.word in OPCODES or line.word in ("ORG", "END", "FOR"):
            add(line, line.word, line.rest)
        elif line.word == "EQU":
            name = (line.labels or [name])[-1]
            if line.rest and line.rest[0].upper() in OPCODES and name not in continued:
                add(line, line.rest[0], line.rest[1:])
        elif line.operation and line.rest:
            tokens = expansion.tokens([line.operation, *line.rest])
            if tokens[0].upper() in OPCODES:
                add(line, tokens[0], tokens[1:], written=False)
    return found
