"""Commands of click with the layout of their help, which has options in groups, examples and exit statuses; and options
that are numbers, shown as N.
"""
from __future__ import annotations

import re
from collections.abc import Callable, Sequence
from typing import Any

import click

# The groups of options in the order of the help; an option without a group is in the first of them.
OWN, EXECUTION, MATCH, CORE = "Options", "Execution options", "Match options", "Core options (defaults from --hill)"
GROUPS = [OWN, EXECUTION, MATCH, CORE]
STATUSES = "0 success, 1 error in input or files, 2 usage error, 130 stopped by Ctrl-C"
Decorator = Callable[[Callable[..., Any]], Callable[..., Any]]


class Option(click.Option):
    """An option of a group."""

    def __init__(self, *given: Any, group: str = OWN, **how: Any) -> None:
        super().__init__(*given, **how)
        self.group = group


def option(*words: str, group: str = OWN, **how: Any) -> Decorator:
    return click.option(*words, cls=Option, group=group, **how)


class Number(click.ParamType):
    """A whole number within a range, as `mars` reads it: decimal digits, with or without a sign."""

    name = "N"

    def __init__(self, minimum: int, maximum: int | None = None) -> None:
        self.minimum, self.maximum = minimum, maximum

    def convert(self, value: Any, param: click.Parameter | None, context: click.Context | None) -> int:
        found = re.fullmatch(r"([+-]?)0*([0-9]{1,18})", str(value))
        number = int(found[1] + found[2]) if found else None
        if number is None or number < self.minimum or self.maximum is not None and number > self.maximum:
            wanted = f"of {self.minimum} or more" if self.maximum is None else f"from {self.minimum} to {self.maximum}"
            self.fail(f"expected a number {wanted}, not `{value}`", param, context)
        return number


def checked_turn(turn: int, end: int, option: str) -> int:
    """Returns a turn that an option names. Raises an error of click if it is after the end of the battle."""
    if turn > end:
        raise click.BadParameter(f"the battle ends after turn {end}", param_hint=option)
    return turn


TURN = click.option("--turn", type=Number(0), default=0, help="Turn to start at, 0 or more")


class Command(click.Command):
    """A command whose help has its own options first, then the shared ones, examples and exit statuses."""

    def __init__(self, *given: Any, examples: Sequence[str] = (), statuses: str = STATUSES, **how: Any) -> None:
        super().__init__(*given, **how)
        self.examples, self.statuses = examples, statuses
        self.params.sort(key=lambda param: GROUPS.index(getattr(param, "group", OWN)))

    def get_help_option(self, context: click.Context) -> click.Option | None:
        option = super().get_help_option(context)
        if option is not None:
            option.help = "Print this help"
        return option

    def format_options(self, context: click.Context, formatter: click.HelpFormatter) -> None:
        groups: dict[str, list[tuple[str, str]]] = {group: [] for group in GROUPS}
        for param in self.get_params(context):
            record = param.get_help_record(context)
            if record is not None:
                groups[getattr(param, "group", OWN)].append(record)
        for group, records in groups.items():
            if records:
                with formatter.section(group):
                    formatter.write_dl(records)

    def format_epilog(self, context: click.Context, formatter: click.HelpFormatter) -> None:
        if self.examples:
            with formatter.section("Examples"):
                formatter.write("".join(f"  {example}\n" for example in self.examples))
        formatter.write_paragraph()
        formatter.write_text(f"Exit status: {self.statuses}.")


def command(
    *examples: str, statuses: str = STATUSES, kind: type[Command] = Command, **how: Any
) -> Callable[[Callable[..., Any]], Command]:
    """Makes a command of a function."""
    return click.command(cls=kind, examples=examples, statuses=statuses, **how)
