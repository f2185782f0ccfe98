"""Fixes a source that pMARS accepts so that this kit reads it in the same way. Comments stay."""
from __future__ import annotations

import re
from collections.abc import Callable

from ..model.cells import signed
from ..model.errors import CorewarError, MarsError
from .errors import kind_of, replaced
from .definitions import definitions_of
from .equates import move_equates, replace_name
from .operands import instructions_of
from .pmars import is_unchecked, loops_of_modifiers, names_of_assert, opens_in_pmars
from .rewrites import commented, obey_directives, take_lone_labels, write_operands, write_seq, write_version
from .source import ASSERT, OPCODES, Line, Load, Source, read_source

# A fix changes the lines of a source; a line may become several, separated by ends of lines.
Fix = Callable[[Source, list[str], Load], None]
# The greatest count of a loop.
MAX_ITERATIONS = 10_000
# The maximum number of counts that are computed in a source, each by the assembler, and of counts that are bounded.
MAX_COUNTS = 20


def fix(data: bytes, load: Load, is_rejected: bool = False) -> bytes:
    """Returns the source with each construct replaced that is known to be read differently by pMARS.

    - `load`: assembles a source, from which counts are computed
    - `is_rejected`: whether to replace only what this kit rejects
    """
    source = read_source(data)
    for one in [one for one in FIXES if not (is_rejected and one in READ_DIFFERENTLY)]:
        lines = data.decode("latin-1").split("\n")
        one(source, lines, load)
        changed = "\n".join(lines).encode("latin-1")
        # Most fixes change nothing, and a large source takes seconds to read.
        if changed != data:
            data, source = changed, read_source(changed)
    return data


def join_lines(source: Source, lines: list[str], _: Load) -> None:
    """Joins each line that ends in a backslash with the next one."""
    unread = {line.number - 1 for line in source.lines if line.unread}
    for at in reversed(range(len(lines) - 1)):
        text = lines[at].rstrip()
        if text.endswith("\\") and ";" not in text and at not in unread:
            lines[at : at + 2] = [f"{text[:-1].rstrip()} {lines[at + 1].lstrip()}"]


def rename_counters(source: Source, lines: list[str], _: Load) -> None:
    """Renames each counter that has the name of a modifier of its loop."""
    words = {*re.findall(r"\w+", "\n".join(lines))}
    for loop in loops_of_modifiers(source):
        name = f"{loop.counter}_"
        while name in words:
            name += "_"
        for at in range(loop.head.number - 1, min(loop.last, len(lines))):
            code, mark, comment = lines[at].partition(";")
            lines[at] = re.sub(rf"(?<![\w.]){loop.counter}(?!\w)", name, code) + mark + comment


def separate_labels(source: Source, lines: list[str], _: Load) -> None:
    """Writes all labels before a FOR, except its counter, in lines of their own, and an EQU with several labels as an
    EQU for each.
    """
    for line, following in zip(source.lines, [*source.lines[1:], Line(0, "")]):
        if len(line.labels) < 2 or line.word not in ("FOR", "EQU") or line.skipped:
            continue
        found = re.match(rf"[\s\w&:]*?\b({line.operation}\b.*)", lines[line.number - 1], re.S)
        if found and line.word == "FOR":
            lines[line.number - 1] = "\n".join([*line.labels[:-1], f"{line.labels[-1]} {found[1]}"])
        elif found and not (following.word == "EQU" and not following.labels):
            lines[line.number - 1] = "\n".join(f"{label} {found[1]}" for label in line.labels)


def drop_lines(source: Source, lines: list[str], _: Load) -> None:
    """Drops what pMARS drops: each line with a name that an earlier line has, from that name on, and each EQU without a
    name that follows no other EQU. The labels before the name stay.
    """
    found = definitions_of(source)
    for line, name in found.repeated:
        text = re.sub(rf"(?<![\w.&]){name}(?![\w&]):?\s*", "", lines[line.number - 1], 1)
        # What is left may be a comment, which must not become a directive.
        lines[line.number - 1] = text if text.partition(";")[0].strip() or not text else commented(text)
    for line, kept, _name in found.dropped:
        lines[line.number - 1] = " ".join([*kept, commented(lines[line.number - 1])])


def remove_asserts(source: Source, lines: list[str], _: Load) -> None:
    """Replaces an assert that pMARS doesn't check by one that holds, and a register in others by 0."""
    for one in instructions_of(source):
        found = ASSERT.match(lines[one.line.number - 1]) if one.word == "ASSERT" else None
        if found and is_unchecked(source, one):
            lines[one.line.number - 1] = f"{lines[one.line.number - 1][:found.start(1)]} 1"
        elif found:
            text = found[1]
            for name in names_of_assert(source, one)[1]:
                text = replace_name(text, name, "0")
            lines[one.line.number - 1] = lines[one.line.number - 1][: found.start(1)] + text


def comment_prose(source: Source, lines: list[str], _: Load) -> None:
    """Makes a comment of each line in a skipped loop that begins a loop in this kit but not in pMARS."""
    for line in source.lines:
        if line.skipped and line.word == "FOR" and len(line.labels) < 2 and not opens_in_pmars(line):
            lines[line.number - 1] = commented(lines[line.number - 1])


def compute_counts(source: Source, lines: list[str], load: Load) -> None:
    """Replaces each count that has labels by its number, if the labels are before it and no loop is around it."""
    labels, left = source.labels(), MAX_COUNTS
    for loop in source.loops:
        number, expression = loop.head.number, "".join(loop.head.rest)
        used = [labels[name].number for name in loop.head.rest if name in labels]
        if used and max(used) < number and left and not source.loops_around(number):
            left -= 1
            count = value_of(source, number, expression, load)
            if count is not None:
                code, mark, comment = lines[number - 1].partition(";")
                head = re.match(r"(.*?\bFOR\b)", code, re.I)
                lines[number - 1] = f"{head[1] if head else 'FOR'} {count} {mark}{comment}".rstrip()


def bound_counts(source: Source, lines: list[str], load: Load) -> None:
    """Writes `(count)*((count)>0)` for each count below 0, which is then 0, as long as such a count is the error of the
    source.
    """
    for _number in range(MAX_COUNTS):
        try:
            load("\n".join(lines).encode("latin-1"))
            return
        except CorewarError as fault:
            # Assembling may also exceed a limit, which is no MarsError.
            if not isinstance(fault, MarsError):
                return
            line = source.lines[fault.line - 1] if 0 < fault.line <= len(source.lines) else Line(0, "")
            count = "".join(line.rest)
            if kind_of(fault) != "1 Text 5 BadCount" or line.word != "FOR" or lines[line.number - 1] != line.text:
                return
            lines[line.number - 1] = f"{' '.join([*line.labels[-1:], line.operation])} ({count})*(({count})>0)"


def value_of(source: Source, number: int, expression: str, load: Load) -> int | None:
    """Returns the value of a count at a line, at least 0, or None if it cannot be computed or is above MAX_ITERATIONS.
    The instructions before it are replaced, since their operands may have names that are defined later.
    """
    before = [replaced(line, source, "") if line.word in OPCODES else line.text for line in source.lines[: number - 1]]

    def probe(text: str) -> int:
        warrior = load("\n".join([*before, f"DAT.F #({text}), #0", ""]).encode("latin-1", "replace"))
        return signed(int(warrior.cells[-1]["a"]), warrior.core)

    try:
        value = max(0, probe(expression))
        is_exact = probe(f"({expression})=={value} || ({expression})<0 && {value}==0") == 1
    except (CorewarError, ValueError):
        return None
    return value if is_exact and value <= MAX_ITERATIONS else None


FIXES: list[Fix] = [
    join_lines,
    obey_directives,
    drop_lines,
    take_lone_labels,
    separate_labels,
    remove_asserts,
    comment_prose,
    write_version,
    write_seq,
    write_operands,
    move_equates,
    rename_counters,
    compute_counts,
    bound_counts,
]
# The fixes of what this kit accepts as well, but reads in another way.
READ_DIFFERENTLY = [obey_directives, take_lone_labels, write_version, write_seq, write_operands]
