"""Compares the debugger's replies to its commands."""
from __future__ import annotations

import random
from collections.abc import Iterator

from evaluating.base import Value
from evaluating.evaluator import Evaluator

from .comparison import Comparison
from .library import array, read_text
from .machine import block_words, random_state
from .texts import debugger_lines


def transcript(definitions: Evaluator, session: Value, data: tuple[int, ...]) -> Value:
    """Returns what the debugger replies to some bytes, up to `quit`, if no allocation fails."""
    core = definitions("mars_app.Debugger.Transcript.core_size_of", session)
    lines = definitions("mars_cell.Load.lines_of", data)
    text: Value = ()
    for line in definitions("mars_app.Debugger.Transcript.until_quit", core, lines):
        request = definitions("mars_app.Debugger.Lines.line_request", core, line)
        session, reply = definitions("mars_app.Debugger.Transcript.answer", False, session, request)
        text += reply
    return text


def compare_transcripts(definitions: Evaluator, dice: random.Random) -> Iterator[Comparison]:
    """Compares the replies to some lines over a battle, with a short history or a long one."""
    state = random_state(dice)
    data = debugger_lines(dice, state["params"]["core_size"], len(state["queues"]))
    history = dice.choice([1, 2, 5, 1000])
    session = definitions("mars_app.Debugging.session_at", history, state)
    block = array("uint32_t", block_words(definitions, state))
    computed = read_text("mars_debug", *block, history, *array("uint8_t", data))
    yield Comparison("transcripts", (state, history, bytes(data)), transcript(definitions, session, data), computed)
