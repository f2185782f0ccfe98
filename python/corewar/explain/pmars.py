"""Finds what pMARS reads differently, by the look of a source. Together the functions look for each row of the table in
LANGUAGE.md that a source can show.
"""
from __future__ import annotations

import re
from collections.abc import Callable, Iterator

from ..model.errors import CorewarError
from .errors import errors_of, kind_of
from .arithmetic import is_read
from .definitions import definitions_of
from .equates import uses_of
from .operands import Instruction, instructions_of
from .source import EXTENSIONS, MODIFIERS, NAME, OPCODES, PREDEFINED, Line, Load, Loop, Source, read_source

DIRECTIVE = re.compile(r"(\s*;)\s+((name|author|assert)\b)", re.I)
NO_WORD = re.compile(r"\d+[A-Za-z_]")
COMMENTED = re.compile(r"\s*;(name|author)\s*(.*)", re.I)
OPTIONAL = ("DAT", "JMP", "SPL", "NOP")
# The longest name or author, and line, that both programs read in the same way.
MAX_NAME_LENGTH, MAX_LINE_LENGTH = 60, 255
# The differences that are found in a source, each with the number of its line and a sentence.
Found = Iterator[tuple[int, str]]
CHECKS: list[Callable[[Source], Found]] = []
# What pMARS makes of an error of this kit.
FAILED, DUPLICATE, UNKNOWN = "5 AssertFailed", "1 Text 7 Duplicate", "4 Expression 2 Unknown"
ACCEPTED = {
    "1 Text 5 BadCount": "pMARS reads a count below 0 as 0; write `(count)*(count>0)`.",
    "6 BadOrigin": "pMARS only warns about this start.",
    "7 Empty": "pMARS only warns about a source without instructions.",
    FAILED: "In pMARS this assert holds: VERSION is 92 there and 80 here.",
    "4 Expression 4 Range": "pMARS may hang on this value.",
}
REPEATED = "pMARS drops this line, with a warning, in later iterations of its loop; join the counter to the name."
REGISTER = "pMARS takes the undefined `{}` for a register, which is 0 unless a line sets it; write a number."
UNCLOSED = "pMARS only warns about a FOR without ROF, and reads the lines after it once; write ROF."
# The number of rows of the table that are looked for. Some of them are found by an error, and one by either of two
# errors.
CHECKED_ROWS = 35


def check(function: Callable[[Source], Found]) -> Callable[[Source], Found]:
    """Enters a function into CHECKS."""
    CHECKS.append(function)
    return function


def pmars_differences(data: bytes, load: Load) -> list[str]:
    """Returns what pMARS reads differently in a source: sentences, each after the number of its line.

    - `load`: assembles a source
    """
    source, faults = read_source(data), faults_of(data, load)
    found = {*starts(source, load), *(note for one in CHECKS for note in one(source))}
    if any(kind == FAILED for _, kind in faults):
        # An assert that also fails with the version of pMARS has another reason.
        theirs = re.sub(rb"(?im)^\s*;assert\b.*", lambda line: re.sub(rb"\bVERSION\b", b"92", line[0]), data)
        faults -= {fault for fault in faults_of(theirs, load) if fault[1] == FAILED}
    found |= {(number, ACCEPTED[kind]) for number, kind in faults if kind in ACCEPTED}
    if not any(line.word == "ROF" and line.labels for line in source.lines) and not any(prose(source)):
        found |= {(number, UNCLOSED) for number, kind in faults if kind == "1 Text 3 UnclosedFor"}
    unknown = {number for number, kind in faults if kind == UNKNOWN}
    found |= {(number, REGISTER.format(name)) for number in unknown for name in registers(source, number)}
    repeated = {number for number, kind in faults if kind == DUPLICATE and source.loops_around(number)}
    found |= {(number, REPEATED) for number in repeated - {number for number, _ in found}}
    return [f"line {number}: {note}" if number else note for number, note in sorted(found)]


def faults_of(data: bytes, load: Load) -> set[tuple[int, str]]:
    """Returns the errors of a source, each with the number of its line."""
    return {(fault.line, kind_of(fault)) for fault, _ in errors_of(data, load)}


def registers(source: Source, number: int) -> set[str]:
    """Returns the undefined names of one letter in the operands of a line."""
    known = {*source.labels(), *source.equates, *(loop.counter for loop in source.loops_around(number))}
    found = [one for one in instructions_of(source) if one.line.number == number]
    words = {token for one in found for tokens in one.operands for token in tokens}
    line = source.lines[number - 1]
    for text in source.equate(source.equates[line.operation]) if line.operation in source.equates else ():
        words.update(text.rest)
    return {word for word in words - known if re.fullmatch("[A-Za-z]", word)}


def starts(source: Source, load: Load) -> Found:
    """Looks for ORG and END that both have an operand: pMARS ignores the operand of END, unless ORG is 0."""
    found = {line.word: line for line in source.lines if line.word in ("ORG", "END") and line.rest and not line.unread}
    start = start_by_org(source, load) if len(found) == 2 else 1
    if not start:
        known = ", since ORG is 0" if start == 0 else " if ORG is 0"
        yield found["END"].number, f"pMARS starts where END says{known}, this kit where ORG says; remove one of them."


def start_by_org(source: Source, load: Load) -> int | None:
    """Returns where a warrior starts by its ORG, or None if the source has an error."""
    lines = ["END" if line.word == "END" and not line.unread else line.text for line in source.lines]
    try:
        return load("\n".join(lines).encode()).start
    except CorewarError:
        return None


@check
def immediate(source: Source) -> Found:
    for one in instructions_of(source):
        # The opcodes in OPTIONAL do not use the value of their B-operand.
        modes = [tokens[:1] for tokens in one.operands] if one.word in OPCODES and one.word not in OPTIONAL else []
        if len(modes) == 2 and modes[0] in (["<"], [">"], ["{"], ["}"]) and modes[1] == ["#"]:
            text = "pMARS reads the B-operand before the side effect of the A-operand, this kit after it."
            yield one.line.number, text


@check
def opcodes(source: Source) -> Found:
    for line in source.read_lines():
        if "CMP" in (line.word, "".join(line.rest[:1]).upper()):
            yield line.number, "In pMARS a cell with CMP is not equal to one with SEQ, here it is; write SEQ."


@check
def versions(source: Source) -> Found:
    for line in source.read_lines():
        if "VERSION" in [*line.operands, *line.rest]:
            yield line.number, "VERSION is 92 in pMARS and 80 here."


@check
def extensions(source: Source) -> Found:
    for line in source.read_lines():
        words = [word for word in [*line.labels, *line.operands] if word.upper() in EXTENSIONS]
        for word in [*words, *(word for word in line.operands if word in ("PSPACESIZE", "="))]:
            yield line.number, f"pMARS knows `{word}`; this kit has neither P-space nor registers."


@check
def modifiers(source: Source) -> Found:
    for loop in loops_of_modifiers(source):
        yield loop.head.number, (
            f"pMARS reads `.{loop.counter}` as a modifier; here the counter's number replaces it. "
            f"Write `.{loop.counter.swapcase()}`, or rename the counter with `corewar explain --fix`."
        )


def loops_of_modifiers(source: Source) -> list[Loop]:
    """Returns the loops whose counter has the name of a modifier that is used in the loop."""
    found, around = dict[int, Loop](), source.around()
    for line in source.lines:
        for loop in around[line.number] if line.rest[:1] == ["."] else []:
            if loop.counter.upper() in MODIFIERS and line.rest[1:2] == [loop.counter]:
                found[loop.head.number] = loop
    return [*found.values()]


@check
def counts(source: Source) -> Found:
    labels = source.labels()
    for line in source.read_lines():
        for name in line.rest if line.word == "FOR" else []:
            if name in labels:
                yield line.number, f"pMARS accepts the label `{name}` in a count; write the number."
            elif len(name) == 1 and name in source.equates and source.equates[name].number > line.number:
                yield line.number, f"pMARS reads `{name}` as 0 here, since its EQU is later; move the EQU up."


@check
def equates(source: Source) -> Found:
    for name, uses in uses_of(source).items():
        if counter := next((loops[-1].counter for _, loops in uses if loops), ""):
            yield source.equates[name].number, (
                f"pMARS joins the counter `{counter}` where this EQU is used; here the EQU has to be in the loop, "
                "with the counter joined to its name."
            )
    for line in [line for line in source.read_lines() if line.word == "EQU"]:
        words = [word.upper() for word in line.rest]
        if "FOR" in words or "ROF" in words:
            yield line.number, "pMARS accepts FOR and ROF in the text of an EQU; write the loop itself."
        if any(label.upper() in OPCODES for label in line.labels):
            yield line.number, "pMARS rejects an opcode as the name of an EQU; use another name."
        if len(line.rest) == 3 and line.rest[0].upper() in OPCODES and line.rest[1] == ".":
            yield line.number, "pMARS rejects an EQU name for an opcode with its modifier; write the opcode itself."


@check
def unused(source: Source) -> Found:
    used = {word for line in source.lines for word in line.uses}
    for line in [line for name, head in source.equates.items() if name not in used for line in source.equate(head)]:
        # This kit rejects the text: a word is no token, or joins a name that is no counter.
        joined = {part for token in line.rest if NAME.match(token) for part in token.split("&")[1:]}
        joined -= {loop.counter for loop in source.loops_around(line.number)} if joined else set()
        if joined or any(map(NO_WORD.match, line.rest)):
            yield line.number, "pMARS accepts this EQU as long as no line uses it; remove it."


@check
def prose(source: Source) -> Found:
    is_open = any(loop.last > len(source.lines) for loop in source.loops)
    for line in source.lines:
        if not line.skipped or line.word != "FOR":
            continue
        if opens_in_pmars(line) and (len(line.labels) > 1 or line.labels and is_open):
            yield line.number, (
                "pMARS takes the `for` in this text for a loop and drops what follows; write `;` before it."
            )
        if not opens_in_pmars(line) and len(line.labels) < 2:
            yield line.number, "This kit takes the `for` in this text for a loop, pMARS does not; write `;` before it."


def opens_in_pmars(line: Line) -> bool:
    """Returns whether a FOR in skipped text begins a loop in pMARS: it does unless it follows a colon or an opcode."""
    before = re.split(r"\bfor\b", line.code, flags=re.I)[0]
    return ":" not in before and not any(word.upper() in OPCODES for word in before.split())


@check
def names(source: Source) -> Found:
    found, labels = definitions_of(source), source.labels()
    for line, _, name in found.dropped:
        if name.upper() not in EXTENSIONS:
            reason = f"since `{name}` is known; use another name" if name else "since it has no name and follows no EQU"
            yield line.number, f"pMARS drops this line with a warning, {reason}."
    for line, name in found.repeated:
        yield line.number, f"pMARS accepts `{name}` twice before an instruction; remove this one."
    for line in source.read_lines():
        if line.word in ("FOR", "EQU") and len(line.labels) > 1:
            yield line.number, f"pMARS accepts several labels before {line.word}; write each on a line of its own."
        if line.word == "FOR" and line.labels and labels.get(line.labels[-1], line).number < line.number:
            yield line.number, f"pMARS rejects the counter `{line.labels[-1]}`, a label of an earlier line."
        if re.match(r"\s*\w+\s+:", line.code):
            yield line.number, "pMARS rejects a space before the `:` of a label."


@check
def asserts(source: Source) -> Found:
    for one in instructions_of(source):
        early, registers = names_of_assert(source, one) if one.word == "ASSERT" else ([], [])
        if one.word == "ASSERT" and is_unchecked(source, one):
            yield one.line.number, "pMARS only warns about this assert and does not check it; write `;assert 1`."
        for name in early:
            yield one.line.number, f"pMARS reads the label `{name}` as its distance from this assert."
        for name in registers:
            yield one.line.number, REGISTER.format(name)


def names_of_assert(source: Source, one: Instruction) -> tuple[list[str], list[str]]:
    """Returns the names in an assert that are labels of earlier lines, and those that are not defined."""
    labels, counters = source.labels(), {loop.counter for loop in source.loops_around(one.line.number)}
    words = [word for tokens in one.operands for word in tokens if NAME.match(word)]
    words = [word for word in dict.fromkeys(words) if word not in PREDEFINED and word not in counters]
    early = [word for word in words if word in labels and labels[word].number < one.line.number]
    return early, [word for word in words if word not in early]


def is_unchecked(source: Source, one: Instruction) -> bool:
    """Returns whether pMARS cannot read an assert: it is no expression, or has an undefined name of several letters."""
    return (
        len(one.operands) != 1
        or not is_read(one.operands[0])
        or max(map(len, names_of_assert(source, one)[1]), default=0) > 1
    )


@check
def ends_of_lines(source: Source) -> Found:
    for line in source.read_lines():
        if line.word == "ROF" and line.labels:
            yield line.number, "pMARS accepts a label before ROF; write it on a line of its own."
        if line.is_continued:
            yield line.number, "pMARS joins a line that ends in `\\` with the next one; write one line."
        if any(one.isdecimal() and two.isdecimal() for one, two in zip(line.operands, line.operands[1:])):
            yield line.number, "pMARS joins numbers that are separated by spaces; here an operator is missing."


@check
def operands(source: Source) -> Found:
    for one in instructions_of(source):
        number, texts = one.line.number, ["".join(tokens) for tokens in one.operands]
        if one.word == "DAT" and len(texts) == 1:
            yield number, f"pMARS reads `DAT #0, {texts[0]}`, this kit `DAT $0, {texts[0]}`; write both operands."
        if one.word == "ORG" and not texts:
            yield number, "pMARS reads ORG without an operand as `ORG 0`."
        if one.word in OPCODES and (
            not texts and one.word in ("DAT", "NOP") or len(texts) == 1 and one.word not in OPTIONAL
        ):
            yield number, f"pMARS rejects {one.word} with this number of operands; write both."


@check
def expressions(source: Source) -> Found:
    for one in instructions_of(source):
        for tokens, text in zip(one.operands, one.regrouped()):
            if text is None:
                yield one.line.number, f"pMARS rejects `{''.join(tokens)}` as a bad expression; write parentheses."
            elif text:
                yield one.line.number, f"pMARS reads `{''.join(tokens)}` as `{text}`; write that."


@check
def directives(source: Source) -> Found:
    kept = [line for line in source.lines if not line.unread]
    for line in kept:
        directive, named = DIRECTIVE.match(line.text), COMMENTED.match(line.text)
        if directive and not (line.skipped and directive[3].lower() == "assert"):
            yield line.number, f"pMARS obeys `; {directive[2]}`, which is a comment here; remove the space."
        if named and (len(named[2].encode()) > MAX_NAME_LENGTH or not (named[2].isascii() and named[2].isprintable())):
            bound = f"at most {MAX_NAME_LENGTH} bytes of printable ASCII"
            yield line.number, f"pMARS keeps any `;{named[1]}`; here it is {bound}."
        if len(line.text) > MAX_LINE_LENGTH:
            yield line.number, f"pMARS truncates lines of more than about {MAX_LINE_LENGTH} characters."
    for line in [line for line in kept if re.match(r"\s*;redcode", line.text, re.I)][1:]:
        yield line.number, "pMARS ends the warrior at a second `;redcode`; give each warrior a file."


@check
def lone_labels(source: Source) -> Found:
    for before, line in lone_labels_of(source):
        label = before.labels[-1]
        if line.word == "FOR":
            yield line.number, (
                f"pMARS takes `{label}` of the line before as the counter; here it is a label. Give this FOR a counter."
            )
        if line.word == "EQU":
            yield line.number, (
                f"pMARS takes `{label}` of the line before as the name of this EQU; here it is a label. "
                "Move the EQU up."
            )
        if not line.number:
            yield before.number, "pMARS drops a last line that is only a label."


def lone_labels_of(source: Source) -> Iterator[tuple[Line, Line]]:
    """Yields each line of only labels that pMARS adds to a following EQU, or to a following FOR without a counter, each
    with the line of that EQU or FOR. Labels at the end of the source come with an empty line.
    """
    alone = list[Line]()
    for line in [*source.lines, Line(0, "")]:
        if line.is_label and not line.unread and not line.skipped:
            alone.append(line)
        elif line.code.strip() and not line.unread or not line.number:
            if line.word == "EQU" or not line.number:
                yield from ((one, line) for one in alone)
            elif line.word == "FOR" and not line.labels:
                yield from ((one, line) for one in alone[-1:])
            alone = []
