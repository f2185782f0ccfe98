"""Writes results to standard output, and errors to standard error."""
from __future__ import annotations

import json
import os
import sys
from collections.abc import Iterable, Sequence
from dataclasses import asdict
from typing import Any

import click

from ..explain.meanings import explain_error
from ..model.errors import CorewarError, FileError, MarsError
from ..model.printing import lines_for, printable


def is_coloured() -> bool:
    """Returns whether standard output has colours: as `--color` says, or by default on a terminal, unless NO_COLOR is
    set or TERM is `dumb`.
    """
    when = click.get_current_context().find_root().params.get("color")
    automatic = sys.stdout.isatty() and not os.environ.get("NO_COLOR") and os.environ.get("TERM") != "dumb"
    return when == "always" or when != "never" and automatic


def show(lines: Iterable[str]) -> None:
    """Writes lines to standard output."""
    click.echo(lines_for(sys.stdout, lines), color=is_coloured())


def show_value(value: Any) -> None:
    """Writes a value, or a list of values, as JSON."""
    click.echo(json.dumps([asdict(one) for one in value] if isinstance(value, list) else asdict(value)))


def report(text: str) -> None:
    """Writes lines to standard error, after the name of the command."""
    click.echo(lines_for(sys.stderr, (f"corewar: {printable(line)}" for line in text.split("\n"))), err=True)


def report_error(error: CorewarError) -> None:
    """Reports an error and, if the library has raised it, what it means."""
    report(str(error))
    fault, source = (error.fault, error.text) if isinstance(error, FileError) else (error, b"")
    if isinstance(fault, MarsError):
        report_sentences(explain_error(fault, source))


def report_sentences(sentences: Sequence[str]) -> None:
    """Writes sentences on an error to standard error."""
    if sentences:
        click.echo(lines_for(sys.stderr, (f"  {printable(sentence)}" for sentence in sentences)), err=True)
