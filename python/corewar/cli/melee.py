"""`melee`: matches of several warriors in random lineups."""
from __future__ import annotations

from functools import partial
from typing import Any

import click

from ..model.settings import MAX_WARRIORS
from .layout import Number, command
from .league import EXECUTION_OPTIONS, LEFT_OUT, MatchRunner, entrants_of, write_results
from .options import BattleOptions, battle_options, format_option, with_options
from .reporting import report


@command(
    "corewar melee --lineups 1000 hill/*.red", "corewar melee --size 8 --lineups 500 -r 10 hill", statuses=LEFT_OUT
)
@battle_options()
@click.option(
    "--size",
    type=Number(2, MAX_WARRIORS),
    default=4,
    help=f"Number of warriors in a match, 2 to {MAX_WARRIORS}",
)
@click.option("--lineups", type=Number(1, 1_000_000), default=100, help="Number of matches, 1 to 1000000")
@format_option(("table", "csv", "json"))
@with_options(*EXECUTION_OPTIONS)
def melee(options: BattleOptions, size: int, lineups: int, form: str, **where: Any) -> int:
    """Run matches in random lineups, and rank all warriors.

    The warriors' numbers of matches differ by at most one. The score is the points per 100 rounds; equal scores share a
    rank. A file with an error is reported and left out.
    """
    if options.pmars:
        raise click.UsageError(f"the positions of `{options.pmars}` are not for melees")
    if len(options.files) < size:
        wanted = f"expected at least {size} files for matches of {size}"
        raise click.UsageError(f"{wanted}, not {len(options.files)}; see --size")
    contest, warriors, faults = entrants_of(options, size)
    if len(warriors) < size:
        report(f"{len(warriors)} warriors are left, but a match has {size}")
        return 1
    write_results(MatchRunner(**where).run(partial(contest.melee, warriors, size, lineups)), form)
    return 1 if faults else 0
