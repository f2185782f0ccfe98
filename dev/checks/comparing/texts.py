"""Makes random sources, formulas and lines for the debugger from a grammar; most of them are almost right."""
from __future__ import annotations

import random
import re
from collections.abc import Sequence

# A text has its parts in <>, each replaced by one of its alternatives. An alternative may be listed several times, so
# that it is drawn more often.
GRAMMAR: dict[str, list[str]] = {
    "source": [
        "<head>a <instruction>\n<lines>b: <instruction>\n<lines><end>",
        "<head><loop>a <instruction>\n<lines>b <instruction>\n<end>",
        "<head>a b: <instruction>\n<lines>j FOR <few>\n<loop>y&j&i JMP 0\nROF\n<end>",
        "<head>a <instruction>\npair EQU <instruction>\n EQU <line>f: g pair<rest>\nb JMP f\n<end>",
    ],
    "head": [
        *["gap EQU <number>\n"] * 9,
        "<directive>gap EQU <expression>\n",
        ";name Some one\n;author  m\xe9 \ngap EQU a+<number>\n",
        *(
            "".join(f"e{index} EQU e{index + 1}\n" for index in range(depth)) + f"e{depth} EQU 1\nDAT e0, e1\n"
            for depth in (31, 32, 33)
        ),
    ],
    "directive": [";assert CORESIZE > 1\n", ";assert <expression>\n", ";redcode\n", ";name\n", "\n", "; text\n"],
    "lines": ["", "<line>", "<line><line>", "<line><line><line>"],
    "line": [
        *["<instruction>\n"] * 9,
        "<instruction> ; note\n",
        "<directive>",
        "<directive>",
        "ORG <expression>\n",
        "more EQU <expression>\n",
    ],
    "end": ["", "", "\n", "END\n", "END <name>\n"],
    "rest": ["", "", " 1", ", 0"],
    "loop": [
        "i FOR <count>\nx&i <instruction>\n<op> <mode>i*<expression>, <mode>x&i\nROF\n",
        "i: FOR <count>\nx&i <op> <mode>i, <mode><expression>\nROF\n",
        "FOR <count>\n<line>ROF\n",
    ],
    "few": ["2", "1", "0"],
    # Evaluating the definitions takes long if there are many iterations.
    "count": [*"012312", "9", "11", "WARRIORS+1", "CURLINE", "-1", "10001", "1/0", "a", "(2", "ROUNDS%3", "2*!0"],
    "instruction": [*["<op> <operand>, <operand>"] * 6, "<op> <operand>", "<op>", "<op> <operand>, <operand>, 1"],
    "op": [*"DAT MOV ADD SUB MUL DIV MOD JMP JMZ JMN DJN SEQ SNE SLT SPL NOP CMP mov".split() * 2, "<op>.<modifier>"]
    + ["<op>.<modifier>"] * 9,
    "modifier": "A B AB BA F X I i ab".split(),
    "operand": ["<mode><name>", "<mode><number>", "<mode><expression>"],
    "mode": ["", *"#$*@{}<>"],
    "expression": [
        *["<name>", "<number>"] * 3,
        *["<expression><space><binary><space><expression>"] * 4,
        "(<expression>)",
        "<sign><expression>",
    ],
    "name": [*"abab", "gap", "gap", "CORESIZE", "MAXPROCESSES", "MAXCYCLES", "MAXLENGTH", "MINDISTANCE"]
    + ["ROUNDS", "WARRIORS", "CURLINE", "VERSION"],
    "number": ["0", "1", "2", "3", "7", "12", "100", "8000"] * 4 + ["9223372036854775807", "9223372036854775808"],
    "binary": "+ - * / % == != < > <= >= && ||".split(),
    "sign": [*"-+!"],
    "space": ["", "", " "],
    "formula": ["(W*W-1)/S", *["<score>"] * 12, *(sign * count + "S" for sign in "-(" for count in (63, 64, 65))],
    "score": [
        *["W", "S", "<number>"] * 3,
        *["<score><space><binary><space><score>"] * 4,
        *["(<score>)", "<sign><score>", "<score><binary>(<number><binary><score>)"],
    ],
    "lines of the debugger": ["<command>\n", *["<command>\n<lines of the debugger>"] * 9],
    "command": [*["step", "undo", "redo", "show", "run <few>"] * 3, "<odd command>"]
    + ["run <small>", "until <small>", "edit <address> <cell>", "fill <address> <address> <cell>"] * 2
    + ["move <warrior> <few> <address>", "kill <warrior> <few>", "spawn <warrior> <address>", "goto <small>"]
    + ["list <address> <small>", "queue <warrior>"],
    "cell": ["<op>.<modifier> <mode><address>, <mode><address>"] * 3 + ["<op> <address>"],
    "small": [*"0123456789", "12", "25"],
    "odd command": ["quit", "", "99", "run 1000001", "step 0", "Step", "until 9<few>", "\xe9", "\t", "goto " + "9" * 18]
    + [" " * count for count in (250, 256, 257)],
}
# Parts that are wrong, or right in few places only.
ODD = [
    "&i",
    "(",
    ")",
    "!",
    "&&",
    "\xe9",
    "\0",
    "x&i",
    "FOR",
    "ROF",
    "EQU",
    "END",
    "ORG",
    "1/0",
    ",",
    ":",
    "9" * 19,
    "un",
]
TOKENS = re.compile(r"[A-Za-z_][A-Za-z_0-9]*|\d+|\s+|.", re.S)


def text_of(dice: random.Random, part: str, **more: Sequence[str]) -> str:
    """Returns a random text for a part of the grammar; `more` has the alternatives of other parts."""
    alternatives = more[part] if part in more else GRAMMAR[part]
    return re.sub("<([a-z][a-z ]*)>", lambda found: text_of(dice, found[1], **more), dice.choice(alternatives))


def mutated(dice: random.Random, text: str, others: Sequence[str] = ODD) -> str:
    """Returns a text with one or two tokens or lines left out, doubled or replaced, or half of the time unchanged."""
    for _ in range(dice.choice([0, 0, 0, 1, 1, 2])):
        parts = TOKENS.findall(text) if dice.random() < 0.8 else text.splitlines(keepends=True)
        if parts:
            at = dice.randrange(len(parts))
            parts[at : at + 1] = dice.choice([[], [parts[at]] * 2, [dice.choice(others)], [dice.choice(parts)]])
        text = "".join(parts)
    return text


def formula(dice: random.Random) -> tuple[int, ...]:
    """Returns the bytes of a score formula."""
    text = mutated(dice, text_of(dice, "formula"), ["w", "X", "(", "!"])
    return tuple((f"{text:{dice.choice([255, 256, 257])}}" if dice.random() < 0.03 else text).encode("latin-1"))


def debugger_lines(dice: random.Random, core: int, warriors: int) -> tuple[int, ...]:
    """Returns the bytes of lines for the debugger, some of them refused or unknown."""
    places = {"address": [*map(str, range(core)), str(core)], "warrior": [*map(str, range(warriors))] * 3 + ["16"]}
    return tuple(mutated(dice, text_of(dice, "lines of the debugger", **places)).encode("latin-1"))
