"""The options that commands about battles share: those of `mars`, `--hill`, `--round`, positions of pMARS and limits.
Also the types of arguments, some of which the shell completes.
"""
from __future__ import annotations

import functools
import os
from collections import Counter
from collections.abc import Callable, Iterator, Sequence
from dataclasses import dataclass, replace
from pathlib import Path
from typing import Any

import click
from click.core import ParameterSource
from click.shell_completion import CompletionItem

from ..battle.series import seed_of_cells, seed_of_position
from ..contests.contest import Contest
from ..engine.calls import Match
from ..engine.sources import Limit, read_warriors
from ..engine.warriors import Warrior
from ..model.errors import CorewarError, FileError
from ..model.settings import FORMULA, HILLS, MAX_WARRIORS, NUMBERS, Settings, whole
from ..model.types import Positions
from .layout import CORE, MATCH, Decorator, Number, option
from .reporting import report

PICTURES = (".png", ".svg", ".pdf")
HELP = {"help_option_names": ["-h", "--help"], "max_content_width": 120, "show_default": True}


@dataclass(frozen=True)
class BattleOptions:
    """The values of the options of a command about battles. `pmars` is the option of pMARS that selects the starting
    positions, or "".
    """

    files: tuple[str, ...]
    settings: Settings
    rounds: int
    seed: int
    position: int | None
    formula: str
    pmars: str
    round: int
    limit: Limit
    positions: Positions = "drawn"

    @property
    def contest(self) -> Contest:
        """The contest of the options. With `--pmars-position` all matches have the seed of its series, and with
        `--pmars-fixed` each has the seed of its cells.
        """
        return Contest(
            self.settings,
            rounds=self.rounds,
            seed=self.seed,
            position=self.position,
            formula=self.formula,
            positions="pmars" if self.pmars == FIXED else "same" if self.pmars else self.positions,
        )

    def everywhere(self) -> BattleOptions:
        """Returns the same options for matches from every position. Raises an error of click if an option is given that
        excludes this.
        """
        drawing = ("rounds", "seed", "position", "results", "same_seed", "pmars_position", "pmars_fixed")
        if given := options_given(*drawing):
            raise click.UsageError(f"--positions all and {given[0]} exclude each other")
        return replace(self, positions="all")

    def match(self) -> Match:
        """Reads the files and returns their match. Raises FileError, and an error of click if the number of files does
        not fit.
        """
        self.check_pmars(len(self.files))
        if len(self.files) > MAX_WARRIORS:
            advice = "`corewar league` and `corewar melee` take more"
            raise click.UsageError(f"a match has at most {MAX_WARRIORS} warriors, not {len(self.files)}; {advice}")
        warriors = read_warriors(self.files, self.settings, self.rounds, self.limit)
        match = Match(warriors, settings=self.settings, rounds=self.rounds, seed=self.seed, position=self.position)
        if self.pmars == FIXED:
            match = replace(match, seed=seed_of_cells(match))
            report(f"the starting positions of `{FIXED}` are those of `--seed {match.seed}`")
        return match

    def check_pmars(self, count: int) -> None:
        """Raises an error of click if matches of a number of warriors have no series of pMARS."""
        if self.pmars and count != 2:
            raise click.UsageError(f"the positions of `{self.pmars}` are for matches of two warriors, not of {count}")


class Output(click.Path):
    """A file or a folder to write. Its name is not empty. A file can be written: it exists and is not read-only, or its
    folder exists and accepts a new file.
    """

    def convert(self, value: Any, param: click.Parameter | None, context: click.Context | None) -> Any:
        if not value:
            self.fail("expected a name, not an empty argument", param, context)
        folder = Path(value).parent
        if self.file_okay and not folder.is_dir():
            raise FileError(str(folder), "no such folder")
        if self.file_okay and not os.path.exists(value) and not os.access(folder, os.W_OK):
            raise FileError(str(folder), "this folder accepts no new file")
        if self.file_okay and os.path.exists(value) and not os.access(value, os.W_OK):
            raise FileError(value, "read-only file")
        return super().convert(value, param, context)


# A file to read. The shell completes its name; what is wrong with it is reported when it is read.
INPUT = click.Path(readable=False)


def warriors_before(context: click.Context) -> Iterator[Warrior]:
    """Yields the warriors of the files before the cursor, for completion."""
    # If the option before the cursor lacks its value, click has not read the files as such; they are in `args`.
    for file in context.params.get("files") or context.args:
        try:
            yield read_warriors([file], HILLS[context.params.get("hill") or "94nop"])[0]
        except CorewarError:
            continue


class WarriorName(click.ParamType):
    """A warrior of the files: its number, name or file."""

    name = "WARRIOR"

    def shell_complete(self, context: click.Context, param: click.Parameter, incomplete: str) -> list[CompletionItem]:
        """Offers each warrior of the files before the cursor, by its file if its name has spaces."""
        found, begun = list[CompletionItem](), incomplete.lower()
        for warrior in warriors_before(context):
            names = [name for name in (warrior.called, warrior.files[2]) if " " not in name]
            found += [CompletionItem(name, help=warrior.title) for name in names if name.lower().startswith(begun)][:1]
        return found


class CellName(click.ParamType):
    """A cell of the core: its address, or a label of the files."""

    name = "CELL"

    def shell_complete(self, context: click.Context, param: click.Parameter, incomplete: str) -> list[CompletionItem]:
        """Offers each label of the files before the cursor, with the number of its warrior if several have it."""
        found = [
            (number, label, warrior.title)
            for number, warrior in enumerate(warriors_before(context))
            for _, labels in warrior.lines
            for label in labels
        ]
        counts = Counter(label for _, label, _ in found)
        names = [(label if counts[label] == 1 else f"{number}.{label}", title) for number, label, title in found]
        return [CompletionItem(name, help=title) for name, title in names if name.startswith(incomplete)]


class Picture(Output):
    """The file of a picture to write, in the format that the end of its name gives."""

    def convert(self, value: Any, param: click.Parameter | None, context: click.Context | None) -> Any:
        if not str(value).endswith(PICTURES):
            self.fail(f"expected a name that ends in {', '.join(PICTURES[:-1])} or {PICTURES[-1]}", param, context)
        return super().convert(value, param, context)


def expand_folders(files: Sequence[str]) -> Iterator[str]:
    """Yields files, and in place of each folder the sources in it, by name, without those that are given as files.

    Raises FileError.
    """
    given = {os.path.realpath(name) for name in files if not os.path.isdir(name)}
    for name in files:
        found = [name]
        if os.path.isdir(name):
            try:
                paths = [Path(name, one) for one in sorted(os.listdir(name)) if one.endswith(".red")]
            except OSError as fault:
                raise FileError(name, fault.strerror or "cannot read") from None
            found = [str(path) for path in paths if path.is_file() and os.path.realpath(path) not in given]
        if not found:
            raise FileError(
                name, "no other file in this folder ends in .red" if given else "no file in this folder ends in .red"
            )
        yield from found


class LimitType(click.ParamType):
    """The limits for assembling a source: S, the seconds, or S,MB with the megabytes."""

    name = "S[,MB]"

    def convert(self, value: Any, param: click.Parameter | None, context: click.Context | None) -> Limit:
        if isinstance(value, Limit):
            return value
        numbers = [whole(part) or 0 for part in str(value).split(",")]
        if not 1 <= len(numbers) <= 2 or not all(1 <= number <= 1_000_000 for number in numbers):
            self.fail(f"expected S or S,MB with numbers from 1 to 1000000, not `{value}`", param, context)
        return replace(Limit(), **dict(zip(("seconds", "megabytes"), numbers)))


def with_options(*options: Decorator) -> Decorator:
    """Adds options to a command, in this order."""

    def decorate(command: Callable[..., Any]) -> Callable[..., Any]:
        for one in reversed(options):
            command = one(command)
        return command

    return decorate


def number_option(name: str, group: str, **how: Any) -> Decorator:
    """Returns the option of a number, whose help has its range."""
    number = NUMBERS[name]
    words = {number.word, f"--{name.replace('_', '-')}"}
    text = f"{number.meaning[0].upper()}{number.meaning[1:]}, {number.range}"
    kind = Number(number.minimum, number.maximum)
    return option(*sorted(words), name, group=group, type=kind, help=text, **how)


def format_option(formats: Sequence[str], what: str = "results") -> Decorator:
    kind = click.Choice(formats)
    return click.option("--format", "form", type=kind, default=formats[0], help=f"Format of the {what}")


EVERY_POSITION = click.option(
    "--positions",
    "is_exact",
    type=click.Choice(["drawn", "all"]),
    default="drawn",
    callback=lambda context, param, given: given == "all",
    help="Starting positions: drawn ones, or each one in both orders, without chance",
)
match_option = functools.partial(option, group=MATCH)
SETTINGS = [number_option(name, CORE) for name in vars(Settings())]
HILL = match_option("--hill", type=click.Choice(list(HILLS)), default="94nop", help="Settings of a known hill")
# The greatest position that pMARS accepts, and its other series by name.
MAX_PMARS_POSITION, FIXED = 2**30, "pmars -f"
LIMIT = match_option(
    "--source-limit",
    "limit",
    type=LimitType(),
    default=Limit(),
    show_default=False,
    help="Limits for assembling a source: CPU seconds and megabytes  [default: 10,1000]",
)
CONTEST = [
    number_option("seed", MATCH, default=1),
    number_option("position", MATCH),
    match_option(
        "--pmars-position",
        type=Number(1, MAX_PMARS_POSITION),
        help="Draw the starting positions as `pmars -F N` does: N in round 0, and the later ones from N",
    ),
    match_option("--pmars-fixed", is_flag=True, help="Draw positions as `pmars -f` does, from both warriors' cells"),
    match_option(
        "--score",
        "formula",
        metavar="FORMULA",
        default=FORMULA,
        help="Score of each survivor, with W warriors and S survivors",
    ),
    LIMIT,
]
LAST_ROUND = NUMBERS["rounds"].maximum - 1
ROUND = match_option(
    "--round",
    "round_",
    type=Number(0, LAST_ROUND),
    default=0,
    help=f"Round of the match to show, 0 to {LAST_ROUND}",
)


def is_given(parameter: str) -> bool:
    """Returns whether the option that sets this argument is on the command line."""
    return click.get_current_context().get_parameter_source(parameter) is ParameterSource.COMMANDLINE


def options_given(*parameters: str) -> list[str]:
    """Returns the options of these arguments that are on the command line."""
    return [f"--{name.replace('_', '-')}" for name in parameters if is_given(name)]


def with_settings(command: Callable[..., Any]) -> Callable[..., Any]:
    """Replaces the values of `--hill` and of the core options by the argument `settings`."""

    @functools.wraps(command)
    def wrapper(*, hill: str, **given: Any) -> Any:
        numbers = {name: given.pop(name) for name in vars(Settings())}
        settings = replace(HILLS[hill], **{name: value for name, value in numbers.items() if value is not None})
        return command(settings=settings, **given)

    return wrapper


def core_options(command: Callable[..., Any]) -> Callable[..., Any]:
    """Adds `--hill` and the core options, as the argument `settings`."""
    return with_options(HILL, *SETTINGS)(with_settings(command))


def positions_of(settings: Settings, position: int | None, fixed: bool) -> dict[str, Any]:
    """Returns the values of BattleOptions that select the positions of pMARS: `pmars`, and the seed or the position
    that `--pmars-position` stands for. Raises an error of click.
    """
    given = options_given("seed", "position", "pmars_position", "pmars_fixed")
    if len(given) > 1 and (fixed or position is not None):
        raise click.UsageError(f"{' and '.join(given)} exclude each other")
    if position is None:
        return {"pmars": FIXED if fixed else ""}
    if position < settings.distance:
        message = f"the minimum distance is {settings.distance}"
        raise click.BadParameter(message, param_hint="--pmars-position")
    seed = seed_of_position(position, settings)
    # The series that begins at the minimum distance has the seed 0, and stays there.
    same = f"--seed {seed}" if seed else f"-F {position}"
    report(f"the starting positions of `pmars -F {position}` are those of `{same}`")
    return {"pmars": f"pmars -F {position}", **({"seed": seed} if seed else {"position": position})}


def battle_options(*, one_round: bool = False, needs_files: bool = True, rounds: int = 1) -> Decorator:
    """Adds the options of a match and the files, as the argument `options`; with `one_round` also `--round`.

    - `rounds`: the number of rounds if it is not given
    """

    def decorate(command: Callable[..., Any]) -> Callable[..., Any]:
        @functools.wraps(command)
        def wrapper(*, files: tuple[str, ...], settings: Settings, limit: Limit, round_: int = 0, **given: Any) -> Any:
            contest: dict[str, Any] = {name: given.pop(name) for name in ("rounds", "seed", "position", "formula")}
            contest.update(positions_of(settings, given.pop("pmars_position"), given.pop("pmars_fixed")))
            if one_round and round_ >= contest["rounds"] and is_given("rounds"):
                message = f"a match of {contest['rounds']} has rounds 0 to {contest['rounds'] - 1}"
                raise click.BadParameter(message, param_hint="--round")
            return command(
                BattleOptions(tuple(expand_folders(files)), settings, round=round_, limit=limit, **contest), **given
            )

        files = click.argument(
            "files", nargs=-1, required=needs_files, type=INPUT, metavar="FILE..." if needs_files else "[FILE]..."
        )
        count = number_option("rounds", MATCH, default=rounds)
        match = [HILL, count, *CONTEST, *([ROUND] if one_round else [])]
        return with_options(*match, *SETTINGS, files)(with_settings(wrapper))

    return decorate
