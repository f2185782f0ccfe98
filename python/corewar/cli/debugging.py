"""`debug`: the debugger at a prompt, or over a pipe."""
from __future__ import annotations

import sys

import click

from ..battle.history import History
from ..battle.labels import Sources
from .layout import TURN, checked_turn, command
from .options import BattleOptions, battle_options
from .reporting import is_coloured

EXAMPLES = ["corewar debug dwarf.red imp.red", "printf 'continue dies imp\\nwhy\\n' | corewar debug dwarf.red imp.red"]


@command(*EXAMPLES)
@battle_options(one_round=True)
@TURN
def debug(options: BattleOptions, turn: int) -> int:
    """Step through a battle, forwards and backwards.

    At the prompt, `help` lists the commands and `help COMMAND` explains one. If standard input is not a terminal,
    commands are read from it, one per line; the exit status is 1 if one of them failed.
    """
    from ..debugger.prompt import is_terminal, run_lines, run_prompt
    from ..debugger.session import Session

    history = History(options.match(), options.round)
    session = Session(history, Sources(history), turn=checked_turn(turn, history.end, "--turn"))
    if not is_terminal():
        return run_lines(session, sys.stdin)
    click.echo(" against ".join(history.names) + "; `help` lists the commands")
    run_prompt(session, is_coloured())
    return 0
