"""Rewrites what this kit and pMARS both accept but read differently, so that the kit reads it as pMARS does."""
from __future__ import annotations

import re

from .operands import instructions_of
from .pmars import DIRECTIVE, lone_labels_of
from .source import ASSERT, Line, Load, Source


def replace_in_code(line: Line, lines: list[str], pattern: str, new: str) -> None:
    """Replaces a pattern in the code of a line, or in the expression of an assert."""
    text, found = lines[line.number - 1], ASSERT.match(line.text)
    start = found.start(1) if found else 0
    code, mark, comment = text[start:].partition(";")
    lines[line.number - 1] = text[:start] + re.sub(pattern, new, code) + mark + comment


def commented(text: str) -> str:
    """Returns a line as a comment that is no directive, not even in pMARS."""
    return f";; {text}" if DIRECTIVE.match(f"; {text}") else f"; {text}"


def take_lone_labels(source: Source, lines: list[str], _: Load) -> None:
    """Writes labels in lines of their own before the EQU or FOR to which pMARS adds them."""
    for alone, line in [*lone_labels_of(source)][::-1]:
        if line.number:
            lines[line.number - 1] = f"{' '.join(alone.labels)} {lines[line.number - 1].lstrip()}"
            comment = lines[alone.number - 1][len(alone.code) :]
            lines[alone.number - 1] = commented(comment) if comment else ""


def write_operands(source: Source, lines: list[str], _: Load) -> None:
    """Writes the missing operand of ORG or DAT, and operands as pMARS reads them: with parentheses if it computes in
    another order, or with a 0 after a mode without a number.
    """
    for one in instructions_of(source):
        at, new = one.line.number - 1, one.regrouped()
        is_short = one.word == "DAT" and len(one.operands) == 1 or one.word == "ORG" and not one.operands
        if not one.written or None in new or not (any(new) or is_short):
            continue
        head, texts, end = one.split(lines[at])
        if len(texts) != len(one.operands):
            # An EQU name stands for several operands.
            texts = ["".join(tokens) for tokens in one.operands]
        texts = [text or old for text, old in zip(new, texts)]
        if is_short:
            texts = ["#0", *texts] if one.word == "DAT" else ["0"]
        lines[at] = f"{head.rstrip()} {', '.join(texts)}{end}" if head else lines[at]


def write_version(source: Source, lines: list[str], _: Load) -> None:
    """Writes 92, the version of pMARS, in place of VERSION."""
    for line in source.read_lines():
        if "VERSION" in [*line.operands, *line.rest]:
            replace_in_code(line, lines, r"(?<![\w.&])VERSION(?![\w&])", "92")


def write_seq(source: Source, lines: list[str], _: Load) -> None:
    """Writes SEQ for CMP if the warrior has no SEQ: for pMARS they are different opcodes."""
    kept = source.read_lines()
    if not any("SEQ" in (word.upper() for word in (line.operation, *line.rest[:1])) for line in kept):
        for line in kept:
            replace_in_code(line, lines, r"(?<![\w.&])CMP(?![\w&])", "SEQ")
            replace_in_code(line, lines, r"(?i)(?<![\w.&])cmp(?![\w&])", "seq")


def obey_directives(source: Source, lines: list[str], _: Load) -> None:
    """Removes the space before the name of a directive, and ends the source at a second `;redcode`."""
    seen = 0
    for line in source.lines:
        if not line.unread:
            if not (line.skipped and "assert" in line.text.lower()):
                lines[line.number - 1] = DIRECTIVE.sub(r"\1\2", lines[line.number - 1])
            seen += bool(re.match(r"\s*;redcode\b", line.text, re.I))
            if seen == 2 and not source.loops_around(line.number):
                lines[line.number - 1] = f"END\n{lines[line.number - 1]}"
                return
