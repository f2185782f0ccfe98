"""Says in a sentence what an instruction does, from the words that the site uses too."""
from __future__ import annotations

import json
import re
from collections.abc import Callable
from dataclasses import dataclass
from importlib.resources import files

from ..engine.calls import encode_source
from ..engine.warriors import Warrior
from ..model.cells import TEXT, cell_text
from .source import MODIFIERS, NAME, OPCODES, PREDEFINED, TOKEN, Line, parse_line

WORDS = json.loads((files("corewar.explain") / "instructions.json").read_text(encoding="ascii"))
SENTENCES: dict[str, list[str]] = WORDS["sentences"]
CELLS: dict[str, str] = WORDS["cells"]
NUMBERS: dict[str, str] = WORDS["numbers"]
STEPS: dict[str, str] = WORDS["steps"]
# The fields of the two operands that a modifier uses, if it uses one of each.
FIELDS = {"A": ("A", "A"), "B": ("B", "B"), "AB": ("A", "B"), "BA": ("B", "A")}


@dataclass(frozen=True)
class Operand:
    """An operand: its letter A or B, its mode and number, and the name of the cell or of the number, or ""."""

    letter: str
    mode: str
    value: int
    name: str

    @property
    def cell(self) -> str:
        """The cell at the distance of the number."""
        if self.name or self.value in (0, 1, -1):
            return self.name or CELLS[{0: "this", 1: "next", -1: "before"}[self.value]]
        return CELLS["ahead" if self.value > 0 else "back"].format(distance=f"{abs(self.value):,}")

    @property
    def pointer(self) -> str:
        return NUMBERS["one"].format(field="A" if self.mode in "*{}" else "B", cell=self.cell)

    @property
    def target(self) -> str:
        """The cell to which the operand leads."""
        if self.mode == "#":
            return CELLS["this"]
        return self.cell if self.mode == "$" else CELLS["pointed"].format(pointer=self.pointer)

    @property
    def step(self) -> str:
        """What the mode does to its pointer, or ""."""
        when = {"{": "before", "<": "before", "}": "after", ">": "after"}.get(self.mode)
        return STEPS[when].format(pointer=self.pointer) if when else ""

    def number(self, field: str) -> str:
        """Returns what to call the number in a field of the cell to which the operand leads."""
        if self.mode == "#" and field == self.letter:
            return self.name or f"{self.value:,}"
        return NUMBERS["one"].format(field=field, cell=self.target)


def describe_instruction(cell: str, names: tuple[str, str] = ("", "")) -> str:
    """Returns a sentence on what a cell does, which is given as `cell_text` returns it, or "" for any other text.

    - `names`: for each operand the name of the cell at its distance, or of its number if its mode is `#`; with "" the
      distance or the number is given
    """
    found = TEXT.fullmatch(cell)
    if found is None:
        return ""
    opcode, modifier, *parts = found.groups()
    one, other = Operand("A", parts[0], int(parts[1]), names[0]), Operand("B", parts[2], int(parts[3]), names[1])
    words = {"A": one.target, "B": other.target, "source": one.target}
    if one.target == CELLS["this"]:
        words["source"] = CELLS["instruction"]
    if modifier in FIELDS:
        first, second = FIELDS[modifier]
        words |= {"from": one.number(first), "to": other.number(second), "tested": other.number(second)}
    else:
        both = NUMBERS["crosswise" if modifier == "X" else "both"].format(cell=one.target)
        those, each = (NUMBERS[word].format(cell=other.target) for word in ("those", "each"))
        words |= {"from": both, "to": those, "tested": each}
    # The sentences of an opcode are for one number, for both, and for whole cells; the last one is for the rest.
    case = 0 if modifier in FIELDS else 2 if modifier == "I" else 1
    sentence = SENTENCES[opcode][: case + 1][-1].format(**words)
    steps = ", ".join(filter(None, [one.step, other.step]))
    return f"{sentence[0].upper()}{sentence[1:]}{f' ({steps})' if steps else ''}."


def find_instruction(text: str) -> Line | None:
    """Returns a line of source if it looks like an instruction, otherwise None."""
    line = parse_line(1, text, {})
    is_known = line.word in OPCODES and (line.rest[:1] != ["."] or "".join(line.rest[1:2]).upper() in MODIFIERS)
    return line if is_known and "\n" not in text else None


def describe_line(line: Line, load: Callable[[bytes], Warrior], core: int) -> list[str]:
    """Returns an instruction with its modifier and its modes, and what it does. Names that it does not define remain
    as they are written.

    - `load`: assembles a source; it raises `MarsError`
    - `core`: the core size
    """
    names = [word for word in line.operands if NAME.match(word) and word not in [*PREDEFINED, *line.labels]]
    source = "".join(f"{name} EQU 0\n" for name in dict.fromkeys(names)) + f"{line.text}\n"
    found = TEXT.fullmatch(cell_text(load(encode_source(source)).cells[-1], core))
    assert found is not None
    opcode, modifier, a_mode, a, b_mode, b = found.groups()
    code = re.split(r"\.\s*\w+" if line.rest[:1] == ["."] else rf"(?i)\b{line.operation}\b", line.code, maxsplit=1)[-1]
    texts = [" ".join(text.strip(" \t#$@*{}<>").split()) for text in code.split(",")]
    # A DAT with a single operand has it as B.
    texts = ["", *texts] if opcode == "DAT" and len(texts) == 1 else [*texts, ""]
    named = [
        text if any(word in names or word in line.labels for word in TOKEN.findall(text)) else "" for text in texts
    ]
    sentence = describe_instruction(found[0], (quoted(named[0]), quoted(named[1])))
    return [f"{opcode}.{modifier} {a_mode}{named[0] or a}, {b_mode}{named[1] or b}", sentence]


def quoted(name: str) -> str:
    return name and f"`{name}`"
