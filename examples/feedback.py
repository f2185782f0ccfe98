#!/usr/bin/python3
"""Lets a language model write a warrior, and answers each attempt with what is wrong, as JSON for its next prompt.

usage: examples/feedback.py      (standard input is the model: sources, each ended by a line with a full stop)

A source with errors is answered with the errors, each with its line, its word and advice. Any other source is answered
with what the warrior does without an opponent, its score against each opponent, and how it lost to the one that beats
it most. Put a call of your model in place of `ask`. Requires the package `corewar` with its library.
"""
from __future__ import annotations

import json
import os
import sys
from dataclasses import asdict
from itertools import islice, takewhile
from typing import Any

sys.path.insert(0, os.path.join(os.path.dirname(os.path.realpath(__file__)), "..", "python"))
try:
    import corewar
except ImportError as fault:
    sys.exit(f"feedback: {fault}; install the dependencies of corewar with dev/setup")

OPPONENTS = ["MOV 0, 1", "ADD #4, 3\nMOV 2, @2\nJMP -2\nDAT #0, #0", "SPL 0, <-9\nMOV 3, <2\nJMP -1"]
# The rounds of a match, and the number of deaths that are explained.
ROUNDS, DEATHS = 100, 3


def ask(prompt: str) -> str | None:
    """Returns the source that the model writes for a prompt, or None if it writes no more."""
    print(prompt, flush=True)
    lines = takewhile(lambda line: line != ".\n", sys.stdin)
    return "".join(lines) or None


def feedback(source: str) -> dict[str, Any]:
    """Returns what a model gets to know of its source, as plain values."""
    # The source is a stranger's: assembling it has limits of time and memory.
    if problems := corewar.problems(source):
        return {"problems": [asdict(one) for one in problems]}
    with corewar.Assembler() as assembler:
        warrior = assembler.assemble(source)
    opponents = [corewar.assemble(one) for one in OPPONENTS]
    result = corewar.Contest(rounds=ROUNDS).challenge(warrior, opponents)
    worst = result.records()[-1]["number"]
    match = corewar.Match((warrior, opponents[worst]), rounds=ROUNDS, seed=int(result.seeds[worst]))
    fates = islice(corewar.fates(match, warriors=[0]), DEATHS)
    return {
        "study": str(corewar.study(warrior)),
        "matches": result.records(),
        "losses": [{"opponent": OPPONENTS[worst], **asdict(fate)} for fate in fates],
    }


def main() -> None:
    prompt = "Write a Redcode warrior for a core of 8000 cells. Opponents:\n" + "\n\n".join(OPPONENTS)
    while (source := ask(prompt)) is not None:
        prompt = json.dumps(feedback(source), indent=1)


try:
    main()
except corewar.CorewarError as fault:
    sys.exit(f"feedback: {fault}")
except KeyboardInterrupt:
    sys.exit("feedback: stopped")
