"""`fight` and `rounds`: a match, and how each of its rounds ends."""
from __future__ import annotations

import json
from collections.abc import Sequence
from dataclasses import astuple, replace
from shutil import get_terminal_size

import click
import numpy as np

from ..analysis import captions
from ..analysis.formatting import pluralize
from ..battle.rounds import count_outcomes, rounds as rounds_of
from ..contests.exact import distances
from ..engine.calls import Match, Row, fits, match, portions
from ..engine.parts import TURNS, in_order, run_parts
from ..model.printing import printable
from .layout import command
from .options import EVERY_POSITION, BattleOptions, Output, battle_options, format_option
from .reporting import report, show
from .waiting import PROCESSORS, Waiting, progress

# The greatest width of a strip.
MAX_STRIP = 100


def rows_of(fought: Match, formula: str) -> tuple[list[Row], int]:
    """Returns the rows of a match, whose rounds all processors share, and the number of rounds that were run before
    Ctrl-C, or all. A terminal shows a bar.
    """
    count, numbers = len(fought.warriors), (fought.rounds, fought.seed, fought.position)
    # With four parts for each processor, all processors end at about the same time.
    size = min(TURNS // (fought.settings.cycles * count), fought.rounds // (4 * PROCESSORS))
    parts = [replace(fought, rounds=rounds, seed=seed) for rounds, seed, _ in portions(numbers, count, size)]
    counts, done = np.zeros((count, 4), object), 0
    try:
        with progress(fought.rounds, "rounds") as advance:
            found = in_order(run_parts(rows_in, ((part, formula) for part in parts), PROCESSORS))
            for part, rows in zip(parts, found):
                counts += [astuple(row) for row in rows]
                done += part.rounds
                advance(part.rounds)
    except KeyboardInterrupt:
        if not done:
            raise
    # The library rejects points that do not fit, also if the points of each part fit.
    is_exact = all(map(fits, counts[:, 0]))
    return [Row(*row) for row in counts.tolist()] if is_exact else match(formula=formula, **vars(fought)), done


def rows_in(part: Match, formula: str, _: object) -> list[Row]:
    return match(formula=formula, **vars(part))


@command("corewar fight dwarf.red imp.red", "corewar fight -r 100 --hill 94x one.red two.red")
@battle_options()
@EVERY_POSITION
def fight(options: BattleOptions, is_exact: bool) -> int:
    """Run a match and print its results.

    Each row shows the points of a warrior, and the rounds that it won, tied and lost. With `--positions all` two
    warriors fight from every starting position in both orders, so that the results are exact, and a strip shows the
    score of the first one by its distance to the second one.
    """
    if is_exact:
        print_exactly(options.everywhere())
        return 0
    fought = options.match()
    rows, done = rows_of(fought, options.formula)
    print_rows(fought, rows)
    if done < fought.rounds:
        report(f"stopped after {done} of {fought.rounds} rounds")
        return 130
    return 0


def print_exactly(options: BattleOptions) -> None:
    """Prints the results of two warriors from every position."""
    if len(options.files) != 2:
        raise click.UsageError(f"--positions all is for matches of two warriors, not of {len(options.files)}")
    fought = options.match()
    first, second = fought.warriors
    with Waiting("battles") as waiting:
        result = options.contest.challenge(first, [second], jobs=PROCESSORS, progress=waiting)
    points, wins, ties, losses = result.counts[0].tolist()
    print_rows(fought, [Row(points, wins, ties, losses), Row(int(result.theirs[0]), losses, ties, wins)])
    room, names = distances(options.settings), [printable(warrior.called) for warrior in fought.warriors]
    strip = result.strip(0, min(get_terminal_size().columns, MAX_STRIP))
    show([f"Score of {names[0]} by the distance to {names[1]}, from {room[0]} to {room[-1]} cells:", strip])


def print_rows(fought: Match, rows: Sequence[Row]) -> None:
    click.echo("  points   wins   ties losses  warrior")
    for row, warrior in zip(rows, fought.warriors):
        click.echo(f"{row.points:8} {row.wins:6} {row.ties:6} {row.losses:6}  {printable(warrior.title)}")


@command("corewar rounds -r 10 dwarf.red imp.red", "corewar rounds -r 10 --pages match dwarf.red imp.red")
@battle_options()
@click.option(
    "--pages",
    metavar="FOLDER",
    type=Output(file_okay=False),
    help="Write a page that shows each round, and an index, into this folder",
)
@format_option(("text", "json"), "outcomes")
def rounds(options: BattleOptions, pages: str | None, form: str) -> None:
    """Print the outcome of every round, with the command to debug it.

    The positions, of all warriors but the first, and the outcomes are in the order of the files.
    """
    fought = options.match()
    if form == "json":
        click.echo(json.dumps([one.to_dict() for one in rounds_of(fought)]))
        return
    width = 5 * len(fought.warriors)
    titles = [printable(warrior.title) for warrior in fought.warriors]
    for number, title in enumerate(titles):
        click.echo(f"warrior {number}: {title}, {pluralize(len(fought.warriors[number]), 'cell')}")
    wide = max(9, 6 * (len(titles) - 1))
    click.echo(f"round {'position':{wide}} {'outcome':{width}} {'turns':>7}  command to debug it")
    if pages:
        from ..pages.match import Pages

        written = Pages(pages, fought, options.formula)
    outcomes = []
    for one in rounds_of(fought):
        outcome = "".join(f"{what:5}" for what in one.outcomes)
        words = printable(captions.command(one.history, "debug"))
        # The first warrior is at address 0.
        position = " ".join(map(str, one.starts[1:]))
        click.echo(f"{one.history.round:5} {position:{wide}} {outcome:{max(width, 7)}} {one.history.end:7}  {words}")
        outcomes.append(one.outcomes)
        if pages:
            written.add(one)
    for title, (wins, ties, losses) in zip(titles, count_outcomes(outcomes)):
        click.echo(f"{title}: {pluralize(wins, 'win')}, {pluralize(ties, 'tie')}, {pluralize(losses, 'loss')}")
    if pages:
        written.write_index()
        click.echo(f"{printable(pages)}: index.html and match.html")
