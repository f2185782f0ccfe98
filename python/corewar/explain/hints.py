"""Finds what is valid in a source without errors, but is probably meant otherwise."""
from __future__ import annotations

from collections.abc import Sequence

from ..engine.warriors import Warrior
from ..model.cells import MODES, signed
from .sentences import cause_sentence
from .source import GLUED, NAME, OPCODES, PREDEFINED, Line, Source, glued, read_source

# The maximum number of labels that are checked for an opcode with a name right after it.
MAX_LABELS = 100
# Opcodes that compute with the number of their A-operand.
COMPUTING = ("ADD", "SUB", "MUL", "DIV", "MOD", "SLT")


def hints_of(warrior: Warrior, lines: Sequence[tuple[int, list[str]]]) -> list[str]:
    """Returns a sentence for each line that has one of these:

    - a label that is an opcode and a name without a space between them
    - `<` or `>` as a comparison in place of the mode of a second operand
    - the EQU name of a number as the A-operand of an instruction that computes, without `#`, if the cell at this
      distance is outside the warrior: it is empty, and computing with it changes nothing

    `lines` has, for each instruction, the number of its line and its labels.
    """
    source, found = read_source(warrior.source or b""), dict[int, str]()
    labels = [(one, name) for one in source.read_lines() if one.is_label for name in one.labels if GLUED.match(name)]
    for line, name in labels[:MAX_LABELS]:
        if new := glued(source, name):
            found[line.number] = f"line {line.number}: " + cause_sentence("misspelt", word=name, new=new)
    for line in (source.lines[number - 1] for number, _ in lines):
        compared = [word for word in line.operands[1:] if word in ("<", ">")]
        if line.word in OPCODES and compared and "," not in line.operands:
            found[line.number] = (
                f"line {line.number}: `{compared[0]}` compares two numbers of one operand; "
                f"write `, {compared[0]}` for the mode of a second operand"
            )
    for index, ((number, _), cell) in enumerate(zip(lines, warrior.cells)):
        line, distance = source.lines[number - 1], signed(int(cell["a"]), warrior.core)
        name = line.operands[0] if line.operands[1:2] == [","] else ""
        if line.word in COMPUTING and MODES[cell["a_mode"]] == "$" and is_number(source, name):
            if not 0 <= index + distance < len(warrior):
                where = f"{abs(distance):,} cell{'s' * (abs(distance) > 1)} {'ahead' if distance > 0 else 'back'}"
                found[number] = (
                    f"line {number}: `{name}` is the cell {where}, outside the warrior; "
                    f"write `#{name}` for the number {distance:,}"
                )
    return [found[number] for number in sorted(found)]


def is_number(source: Source, name: str, depth: int = 8) -> bool:
    """Returns whether a name stands for an expression of numbers, by at most `depth` levels of EQU names."""
    line: Line | None = source.equates.get(name)
    names = [one for one in line.rest if NAME.match(one)] if line else []
    return (
        line is not None
        and depth > 0
        and len(source.equate(line)) == 1
        and not {*line.rest} & {*MODES, ","} - {"*"}
        and all(one in PREDEFINED and one != "CURLINE" or is_number(source, one, depth - 1) for one in names)
    )
