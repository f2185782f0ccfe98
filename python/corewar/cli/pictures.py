"""`picture` and `page`: a battle as a file to look at."""
from __future__ import annotations

import os
from collections.abc import Sequence
from operator import itemgetter
from pathlib import Path

import click

from ..battle.frames import part_ends
from ..battle.history import History
from ..battle.labels import Sources
from ..debugger.commands import execute
from ..debugger.session import Session
from ..model.errors import CorewarError, FileError
from ..model.settings import whole
from ..model.printing import printable
from .layout import Decorator, Number, checked_turn, command
from .options import BattleOptions, Output, Picture, battle_options, with_options

# The commands of the debugger that edit a battle.
EDITS = ("edit", "fill", "move", "kill", "spawn")


def output_options(kind: Output, usual: str) -> tuple[Decorator, Decorator]:
    """Returns the options that name the file to write, `usual` by default."""
    return (
        click.option("-o", "--output", type=kind, help=f"File to write, overwritten if it exists  [default: {usual}]"),
        click.option("--force", is_flag=True, help=f"Overwrite {usual} without -o"),
    )


def frame_ends(history: History, first: int, turns: int | None, count: int) -> list[int]:
    """Returns the turn before a part of a battle, which begins with `first`, and the turns at which its frames end:
    `count` of them, or fewer if it has fewer turns.
    """
    checked_turn(first, max(1, history.end), "--from")
    last = history.end if turns is None else min(history.end, first - 1 + turns)
    return part_ends(first - 1, last, count)


def output_file(output: str | None, usual: str, force: bool) -> str:
    """Returns the file to write. Raises FileError if none is named and the usual file exists, unless `force` is set."""
    if output is None and os.path.exists(usual) and not force:
        raise FileError(usual, "already exists; use --force to overwrite it or -o to name another file")
    return output or usual


@command(
    "corewar picture dwarf.red imp.red", "corewar picture --cells 0-999 --turns 5000 -o start.svg dwarf.red imp.red"
)
@battle_options(one_round=True)
@with_options(
    click.option("--from", "first", type=Number(1), default=1, help="First turn to show, 1 or more"),
    click.option("--turns", type=Number(1), help="Number of turns to show, 1 or more  [default: all that follow]"),
    *output_options(Picture(dir_okay=False), "battle.png"),
)
@click.option("--cells", metavar="A-B", help="Cells to show, from address A to address B  [default: the whole core]")
@click.option("--columns", type=Number(1), default=400, help="Maximum number of columns, 1 or more")
@click.option("--rows", type=Number(1), default=300, help="Maximum number of rows, 1 or more")
def picture(
    options: BattleOptions,
    first: int,
    turns: int | None,
    output: str | None,
    force: bool,
    cells: str | None,
    columns: int,
    rows: int,
) -> None:
    """Draw a battle: time runs down, the core runs across.

    A warrior's colour is strong where its processes are, lighter where it wrote, and pale on the cells that it wrote
    last. A column of several cells has the colour of the warrior with most of them. The end of the file's name selects
    PNG, SVG or PDF.
    """
    from ..pictures.timeline import View, draw

    output = output_file(output, "battle.png", force)
    history = History(options.match(), options.round)
    shown = cells_of(cells, history.core)
    draw(history, View(frame_ends(history, first, turns, rows), shown, min(columns, len(shown))), output)
    click.echo(printable(f"{output}: {history.end} turns"))


def cells_of(text: str | None, core: int) -> range:
    """Returns the cells of `A-B`, or the whole core for None. Raises an error of click."""
    first, _, last = (text or f"0-{core - 1}").partition("-")
    low, high = whole(first), whole(last)
    if low is None or high is None or not low <= high < core:
        raise click.BadParameter(
            f"expected A-B with addresses from 0 to {core - 1}, not `{text}`", param_hint="--cells"
        )
    return range(low, high + 1)


@command(
    "corewar page dwarf.red imp.red",
    "corewar page --turn 7797 --edit '7797 edit 5203 mov 0, 1' -o saved.html dwarf.red imp.red",
)
@battle_options(one_round=True)
@with_options(
    click.option("--turn", type=Number(0), default=0, help="Turn to open the page at, 0 or more"),
    click.option(
        "--edit",
        "edits",
        metavar="'T COMMAND'",
        multiple=True,
        help="Edit the battle after turn T, by a command of `corewar debug`; can be repeated",
    ),
    *output_options(Output(dir_okay=False), "battle.html"),
)
def page(options: BattleOptions, turn: int, edits: tuple[str, ...], output: str | None, force: bool) -> None:
    """Write a page that shows a battle in a browser.

    The page is a single file and loads nothing from the network. It has the simulator inside: every turn of every round
    can be shown, and edited.
    """
    from ..pages.render import write_page
    from ..pages.site import check_length, page_of, site_folder

    output = output_file(output, "battle.html", force)
    site_folder()
    match = options.match()
    history = edited(History(match, options.round), edits)
    check_length(history.end)
    write_page(Path(output), page_of(match, options.formula, options.round, turn, history.edits))
    click.echo(printable(f"{output}: {' against '.join(warrior.called for warrior in match.warriors)}"))


def edited(history: History, texts: Sequence[str]) -> History:
    """Returns the history with the edits, which are made in the order of their turns. Raises an error of click if an
    edit is impossible after the edits before it.
    """
    session = Session(history, Sources(history))
    for turn, line in sorted(map(split_edit, texts), key=itemgetter(0)):
        session.go(turn)
        try:
            execute(session, line)
        except CorewarError as fault:
            raise click.BadParameter(f"`{turn} {line}` is impossible: {fault}", param_hint="--edit") from None
    return session.history


def split_edit(text: str) -> tuple[int, str]:
    """Returns the turn and the command of an edit."""
    words = text.split(None, 2)
    turn = whole(words[0]) if words[1:2] and words[1] in EDITS else None
    if turn is None:
        why = f"expected a turn and an edit, as in `100 edit 3 jmp 0`, not `{text}`"
        raise click.BadParameter(why, param_hint="--edit")
    return turn, text.split(None, 1)[1]
