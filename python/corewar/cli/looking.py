"""`why`, `trace`, `changed` and `study`: what happened in a battle."""
from __future__ import annotations

import click

from ..analysis.causes import describe_change, describe_death
from ..analysis.losses import Death, Tie, describe_losses, describe_ties, fates_of_rounds, lost_rounds
from ..analysis.study import study as study_of
from ..analysis.formatting import BattleFormatter, paint
from ..battle.history import History
from ..battle.labels import Sources
from ..engine.sources import Limit, read_warriors
from ..model.errors import CorewarError
from ..model.printing import printable
from ..model.settings import Settings, whole
from .layout import Number, checked_turn, command
from .options import INPUT, LIMIT, BattleOptions, CellName, WarriorName, battle_options, core_options, format_option
from .options import is_given
from .reporting import is_coloured, report, show, show_value
from .waiting import processes, progress


def formatter_of(options: BattleOptions) -> BattleFormatter:
    history = History(options.match(), options.round)
    return BattleFormatter(history, Sources(history), *([paint] if is_coloured() else []))


def warrior_of(history: History, named: str) -> int:
    try:
        return history.warrior(named)
    except CorewarError as fault:
        raise click.BadParameter(str(fault), param_hint="--of") from None


@command(
    "corewar why dwarf.red imp.red",
    "corewar why -r 100 dwarf.red imp.red",
    "corewar why --of imp -r 10 --round 3 dwarf.red imp.red",
)
@battle_options(one_round=True)
@click.option(
    "--of", "named", type=WarriorName(), help="Name, file or number of the warrior  [default: all that died or tied]"
)
@click.option(
    "--turns",
    type=Number(1),
    default=4,
    help="Number of turns to print before its last one, 1 or more",
)
@format_option(("text", "json"), "explanations")
def why(options: BattleOptions, named: str | None, turns: int, form: str) -> int:
    """Explain why a warrior died.

    Prints its last turn, the cell that it executed, the turn that last changed this cell, and its turns before that;
    for a warrior that survives in a tie, the lines that it executed last. For a match of several rounds without
    `--round`, counts the lines that killed each warrior, and what it executed last in ties.
    """
    if options.rounds > 1 and not is_given("round_"):
        return print_losses(options, named, form)
    formatter = formatter_of(options)
    history = formatter.history
    died = [int(number) for number in history.ending.deaths["warrior"]]
    living = [number for number in range(len(history.names)) if number not in died]
    # The warriors that died, and in a tie those that live.
    numbers = [*died, *(living if len(living) > 1 or not died else [])]
    if named is not None:
        numbers = [warrior_of(history, named)]
    elif not died and form == "text":
        show([f"No warrior died; {formatter.ending()}."])
    if form == "json":
        show_value([history.why(number, turns) for number in numbers])
    else:
        show(line for number in numbers for line in describe_death(formatter, number, turns))
    return 0


def print_losses(options: BattleOptions, named: str | None, form: str) -> int:
    """Prints how the named warrior, or each warrior if `named` is None, died and tied. After Ctrl-C, this covers only
    the rounds that have been looked at. Returns the exit status.
    """
    match = options.match()
    first = History(match)
    warriors = [*range(len(first.names))] if named is None else [warrior_of(first, named)]
    fates, rounds, done = list[Death | Tie](), lost_rounds(match, warriors), 0
    count, status = options.rounds, 0
    try:
        with progress(len(rounds), "rounds") as advance, processes(len(rounds)) as executor:
            for found in fates_of_rounds(match, rounds, warriors, executor):
                fates += found
                done += 1
                advance(1)
    except KeyboardInterrupt:
        if not done:
            raise
        count, status = rounds[done], 130
        report(f"stopped after {count} of {options.rounds} rounds")
    if form == "json":
        show_value(fates)
        return status
    if named is None and not any(isinstance(fate, Death) for fate in fates):
        click.echo(f"No warrior died in {count} rounds.")
    for number in warriors:
        own, name = [fate for fate in fates if fate.warrior == number], first.names[number]
        deaths = [fate for fate in own if isinstance(fate, Death)]
        if deaths or named is not None:
            show(describe_losses(name, count, deaths))
        ties = [fate for fate in own if isinstance(fate, Tie)]
        if ties:
            show(describe_ties(name, count, ties))
    return status


@command("corewar trace dwarf.red imp.red", "corewar trace --from 1 --turns 10 dwarf.red imp.red")
@battle_options(one_round=True)
@click.option(
    "--from", "first", type=Number(1), help="First turn to print, 1 or more; by default the last turns are printed"
)
@click.option("--turns", type=Number(1), default=20, help="Number of turns to print, 1 or more")
@format_option(("text", "json"), "turns")
def trace(options: BattleOptions, first: int | None, turns: int, form: str) -> None:
    """Print each turn: the instruction, its reads and its writes."""
    formatter = formatter_of(options)
    end = formatter.history.end
    first = max(1, end - turns + 1) if first is None else checked_turn(first, end, "--from")
    last = min(end, first + turns - 1)
    if form == "json":
        show_value(formatter.history.trace(first, last))
    else:
        for turn in range(first, last + 1):
            show(formatter.lines(turn))


@command("corewar changed --cell bomb dwarf.red imp.red", "corewar changed --cell 5203 --before 7797 dwarf.red imp.red")
@battle_options(one_round=True)
@click.option("--cell", "named", type=CellName(), required=True, help="Address or label of the cell")
@click.option("--before", type=Number(1), help="Search only the turns before this one, 1 or more")
def changed(options: BattleOptions, named: str, before: int | None) -> None:
    """Find the last turn that changed a cell."""
    formatter = formatter_of(options)
    sources, core = formatter.sources, formatter.history.core
    address = sources.addresses.get(named, whole(named))
    try:
        if address is None:
            sources.check(named)
        if address is None or address >= core:
            raise CorewarError(f"`{named}` is neither a label nor an address below {core}")
    except CorewarError as fault:
        raise click.BadParameter(str(fault), param_hint="--cell") from None
    turn = min(formatter.history.end, (before or formatter.history.end + 1) - 1)
    show(describe_change(formatter, address, turn))


@command("corewar study dwarf.red")
@core_options
@LIMIT
@format_option(("text", "json"), "report")
@click.argument("file", type=INPUT)
def study(file: str, settings: Settings, limit: Limit, form: str) -> None:
    """Show where a warrior writes and scans without an opponent.

    For each line that writes or compares cells, prints how often it does so, how many cells it reaches and by which
    turn, and the stride from one to the next. Also finds the first turn in which the warrior hits its own code.
    """
    # Sources are written for matches of two.
    (warrior,) = read_warriors([file], settings, limit=limit, warriors=2)
    found = study_of(warrior, settings=settings)
    if form == "json":
        show_value(found)
    else:
        show(map(printable, str(found).split("\n")))
