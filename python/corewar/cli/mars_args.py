"""Finds the wrong argument of `mars`, which itself prints only `bad words`."""
from __future__ import annotations

import re

import click

from ..model.settings import MAX_WARRIORS, NUMBERS
from .layout import Number

NUMBERS_OF_MARS = {number.word: (number.minimum, number.maximum) for number in NUMBERS.values()} | {
    "--history": (1, 1_000_000)
}
COMBINATIONS = f"""Each argument is valid by itself. Together they must follow these rules:
- There are 1 to {MAX_WARRIORS} files; --league requires at least two, -F exactly two and --load one.
- The position of -F is at least the minimum distance, and at most the core size minus it.
- No option is given twice.
- -e, --league and --load exclude each other; -F excludes --league and --load.
- A formula that begins with `-` is joined to its option, as in --score=-S."""
MARS = click.Command(
    "mars",
    add_help_option=False,
    params=[
        *(click.Option([word], type=Number(*bounds)) for word, bounds in NUMBERS_OF_MARS.items()),
        click.Option(["--score"]),
        *(click.Option([word], is_flag=True) for word in ("-e", "-b", "-o", "--league", "--load", "--help")),
        click.Argument(["files"], nargs=-1, required=True, metavar="FILE..."),
    ],
)


def check_mars_args(words: list[str]) -> str:
    """Returns the rules for arguments that are valid by themselves. Raises an error of click if one is not."""
    # Click would take the `=` that joins a value to a short option as a part of the value.
    MARS.make_context("mars", [re.sub(r"^(-\w)=", r"\1", word) for word in words])
    return COMBINATIONS
