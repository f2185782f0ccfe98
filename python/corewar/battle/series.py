"""The series of starting positions of pMARS: the seeds that select them.

Both programs draw from the same generator. pMARS places the second of two warriors by a seed and then draws the next
one; this kit draws first. So the seed of pMARS is that of this kit after one draw.
"""
from __future__ import annotations

import re

import numpy as np

from ..engine.calls import Match, seed_after
from ..engine.warriors import Warrior
from ..model.cells import MODES, OPCODES
from ..model.settings import Settings

# pMARS's numbers of opcodes and modes. The modifiers have the same numbers in both programs.
PMARS_OPCODES = "MOV ADD SUB MUL DIV MOD JMZ JMN DJN CMP SLT SPL DAT JMP SEQ SNE NOP".split()
CMP = re.compile(r"\bcmp\b", re.I)
PMARS_MODES = dict(zip("#$@<>*{}", (0, 1, 2, 3, 4, 0x82, 0x83, 0x84)))


def seed_of_position(position: int, settings: Settings) -> int:
    """Returns the seed of the series of `pmars -F POSITION` for two warriors. It is 0 if the position is the minimum
    distance, which then is the position in each round.
    """
    return seed_after(position - settings.distance, -1)


def seed_of_cells(match: Match) -> int:
    """Returns the seed of the series of `pmars -f` for two warriors: the sum of all numbers of their cells, each
    combined with its index by an exclusive or.
    """
    numbers, core = list[int](), match.settings.core
    for warrior in match.warriors:
        cells = np.frombuffer(warrior.cells_in(core), warrior.cells.dtype).tolist()
        for (op, modifier, a_mode, b_mode, a, b), text in zip(cells, texts_of(warrior)):
            # pMARS has two opcodes for SEQ.
            opcode = PMARS_OPCODES.index("CMP" if CMP.search(text) else OPCODES[op])
            numbers += opcode << 3 | modifier, PMARS_MODES[MODES[a_mode]], PMARS_MODES[MODES[b_mode]], a, b
    return sum(number ^ index for index, number in enumerate(numbers))


def texts_of(warrior: Warrior) -> list[str]:
    """Returns the text of the line of each cell without its comment, or "" if it is not known."""
    texts = (warrior.source or b"").decode("latin-1").split("\n")
    return [texts[line - 1].partition(";")[0] for line, _ in warrior.lines] or [""] * len(warrior)
