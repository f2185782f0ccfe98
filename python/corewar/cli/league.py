"""`league` and `challenge`, matches of many warriors in pairs; and the options, runs and outputs of all contests."""
from __future__ import annotations

import json
import os
import re
import sys
from collections.abc import Callable
from contextlib import nullcontext
from dataclasses import dataclass, replace
from functools import partial, wraps
from pathlib import Path
from shutil import get_terminal_size
from typing import Any, TypeVar

import click

from ..contests.challenge import Challenge
from ..contests.cluster import cluster
from ..contests.contest import Contest
from ..contests.standings import csv_text
from ..engine.files import replace_file
from ..engine.sources import Assembler, read_warrior
from ..engine.warriors import Warrior
from ..model.errors import FileError
from ..model.printing import printable
from .layout import EXECUTION, STATUSES, Decorator, Number, command, option
from .options import EVERY_POSITION, INPUT, BattleOptions, Output, Picture
from .options import battle_options, format_option, match_option, with_options
from .reporting import report, report_error, show
from .waiting import PROCESSORS, Waiting

Result = TypeVar("Result")
ADDRESS = re.compile(r"(tcp://)?(\[[0-9a-fA-F:]+\]|[^\s/:\[\]]+):\d+")
LEFT_OUT = f"{STATUSES}; 1 also if a file with an error was left out"


def check_address(context: click.Context, param: click.Parameter, given: str | None) -> str | None:
    if given is not None and not ADDRESS.fullmatch(given):
        raise click.BadParameter("expected HOST:PORT, as in first.lan:8786")
    return given


FILE = Output(dir_okay=False, writable=True)
# Each job is a thread, and systems limit the number of threads of a process.
MAX_JOBS = 1000
# Where matches are run, and where their results are stored.
EXECUTION_OPTIONS = [
    option("--results", group=EXECUTION, type=FILE, help="Store results in this file; skip matches already in it"),
    option(
        "--jobs",
        group=EXECUTION,
        type=Number(1, MAX_JOBS),
        default=PROCESSORS,
        show_default=False,
        help=f"Number of parallel matches, 1 to {MAX_JOBS}  [default: number of CPUs]",
    ),
    option(
        "--scheduler",
        group=EXECUTION,
        callback=check_address,
        metavar="HOST:PORT",
        help="Run the matches on the workers of a Dask cluster",
    ),
]
SAME_SEED = match_option("--same-seed", is_flag=True, help="Give all matches the seed itself, as `mars --league` does")


@dataclass(frozen=True)
class MatchRunner:
    """Where matches are run, and where their results are stored."""

    results: str | None
    jobs: int
    scheduler: str | None

    def run(self, call: Callable[..., Result], what: str = "matches") -> Result:
        """Returns the result of a method of a contest, with a bar of its matches or battles on a terminal."""
        waiting = Waiting(what)
        try:
            with waiting, cluster(self.scheduler) if self.scheduler else nullcontext() as executor:
                found = call(jobs=self.jobs, executor=executor, results=self.results, progress=waiting)
        except KeyboardInterrupt:
            if self.results is None:
                raise
            state = waiting.state
            report(f"{state.done} of {state.total} matches stored; run the same command to continue")
            # A match that is under way isn't waited for.
            os._exit(130)
        return found


def contest_options(rounds: int) -> Decorator:
    """Adds the options of a match, which has `rounds` rounds by default, the files and the execution options, as the
    arguments `options` and `runner`.
    """

    def decorate(command: Callable[..., Any]) -> Callable[..., Any]:
        @battle_options(rounds=rounds)
        @wraps(command)
        def wrapper(
            options: BattleOptions, results: str | None, jobs: int, scheduler: str | None, same_seed: bool, **given: Any
        ) -> Any:
            if len(options.files) < 2:
                raise click.UsageError("expected at least two files")
            options = replace(options, positions="same") if same_seed else options
            return command(options, MatchRunner(results, jobs, scheduler), **given)

        return with_options(*EXECUTION_OPTIONS, SAME_SEED)(wrapper)

    return decorate


def entrants_of(options: BattleOptions, count: int = 2) -> tuple[Contest, list[Warrior], list[FileError]]:
    """Returns the contest, the warriors of the files, in order, and the errors of the other files, which are reported.

    - `count`: the number of warriors in a match, the value of WARRIORS
    """
    contest, warriors, faults = options.contest, list[Warrior](), list[FileError]()
    with Assembler(options.limit) as assembler:
        for file in options.files:
            try:
                warriors.append(read_warrior(assembler.assemble, file, options.settings, options.rounds, count))
            except FileError as left:
                report_error(left)
                faults.append(left)
    return contest, warriors, faults


def write_results(result: Any, form: str, output: str | None = None, only_sum: bool = False) -> None:
    """Writes results with their end of line to a file, or to standard output. Names of files are as they were given in
    formats for programs, and printable in the others.
    """
    is_for_programs = form in ("csv", "json")
    if form == "csv":
        text = csv_text(result.COLUMNS, [result.total()] if only_sum else result.records())
    elif form == "json":
        text = json.dumps({name: one for name, one in result.to_dict().items() if name != "matches" or not only_sum})
    else:
        width = get_terminal_size().columns if sys.stdout.isatty() and not output else 0
        table = partial(result.table, width) if isinstance(result, Challenge) else partial(str, result)
        text = result.matrix_text() if form == "matrix" else result.summary if only_sum else table()
        text = "\n".join(map(printable, text.split("\n")))
    data = f"{text}\n".encode("utf-8", "surrogateescape")
    if output:
        replace_file(output, data)
    elif is_for_programs:
        click.echo(data, nl=False)
    else:
        show(text.split("\n"))


@command(
    "corewar league -r 100 *.red",
    "corewar league -r 100 --results league.sqlite --pages league *.red",
    statuses=LEFT_OUT,
)
@contest_options(rounds=1)
@click.option(
    "--order",
    type=click.Choice(["points", "files"]),
    default="points",
    help="Order of the rows: most points first, or as the files are given",
)
@format_option(("table", "csv", "json", "matrix"))
@click.option("-o", "--output", type=FILE, help="Write the results to this file")
@click.option(
    "--picture",
    type=Picture(dir_okay=False, writable=True),
    help="Draw the results of all pairs; the name ends in .png, .svg or .pdf",
)
@click.option(
    "--pages",
    metavar="FOLDER",
    type=Output(file_okay=False),
    help="Write a page with the results, index.html, and one that shows the battles, into this folder",
)
def league(options: BattleOptions, runner: MatchRunner, order: str, form: str, **files: Any) -> int:
    """Run a league: every pair of warriors plays a match.

    The first warrior of a match is the one whose file is given earlier. A file with an error is reported and left out.
    """
    # If a module or the site is missing, this is reported here and not after hours of matches.
    if files["picture"]:
        from ..pictures.matrix import draw
    if files["pages"]:
        from ..pages.league import begin_pages, write_pages

        begin_pages(Path(files["pages"]))
    contest, warriors, faults = entrants_of(options)
    if not warriors:
        return 1
    found = runner.run(partial(contest.league, warriors))
    result = replace(found, by_points=order == "points")
    write_results(result, form, files["output"])
    if files["picture"]:
        draw(result, files["picture"])
    if files["pages"]:
        write_pages(Path(files["pages"]), result)
    return 1 if faults else 0


@command(
    "corewar challenge mine.red hill/*.red",
    "corewar challenge --sum --positions all mine.red hill/*.red",
    "corewar challenge --old before.red -r 500 mine.red hill/*.red",
    statuses=LEFT_OUT,
)
@contest_options(rounds=100)
@click.option("--sum", "only_sum", is_flag=True, help="Print only the sums")
@click.option(
    "--old",
    type=INPUT,
    metavar="FILE",
    help="An earlier version of the first file: compare the scores of both against the others, per 100 rounds",
)
@EVERY_POSITION
@format_option(("table", "csv", "json"))
def challenge(options: BattleOptions, runner: MatchRunner, old: str | None, is_exact: bool, **shown: Any) -> int:
    """Run a match of the first file against each of the others.

    Each row shows the points, wins, ties and losses of the first file, the points of its opponent, and the opponent.
    The last row has the sums. An opponent with an error is reported and left out. If the first file has an error,
    nothing is run. With `--positions all` each match has every starting position in both orders, so that the results
    are exact, and a strip shows the score by the distance to the opponent.
    """
    options = options.everywhere() if is_exact else options
    if old is not None:
        return print_change(options, runner, old, **shown)
    contest, warriors, faults = entrants_of(options)
    if not warriors or any(fault.file == options.files[0] for fault in faults):
        return 1
    result = runner.run(partial(contest.challenge, warriors[0], warriors[1:]), "battles" if is_exact else "matches")
    write_results(result, **shown)
    return 1 if faults else 0


def print_change(options: BattleOptions, runner: MatchRunner, old: str, **shown: Any) -> int:
    """Prints the scores of two versions of a warrior, and whether the change is more than chance."""
    if runner.results or runner.scheduler:
        raise click.UsageError("--old cannot be used with --results or --scheduler")
    both = [old, options.files[0]]
    contest, warriors, faults = entrants_of(replace(options, files=(*both, *options.files[1:])))
    if len(warriors) < 3 or any(fault.file in both for fault in faults):
        return 1
    what, matches = ("battles", 1) if contest.positions == "all" else ("opponents", 2)
    with Waiting(what, matches) as waiting:
        result = contest.compare(warriors[0], warriors[1], warriors[2:], jobs=runner.jobs, progress=waiting)
    write_results(result, **shown)
    return 1 if faults else 0
