"""`new`: a folder with a first warrior and the examples."""
from __future__ import annotations

import shutil
from pathlib import Path

import click

from ..model.errors import FileError
from ..model.printing import printable
from .layout import command
from .options import Output
from .web import EXAMPLES

# The warrior of the tutorial.
FIRST = """;redcode
;name First
;author Me

step    EQU     5

        ADD     #step, bomb     ; where the next bomb goes
        MOV     bomb, @bomb
        JMP     -2
bomb    DAT     #0, #0
"""


@command("corewar new warriors")
@click.argument("folder", type=Output(file_okay=False))
def new(folder: str) -> None:
    """Write a first warrior and the examples into a new folder.

    The warrior is that of the tutorial, first.red; the examples, which are explained by their comments, are in the
    folder examples below.
    """
    made, examples = Path(folder), next((path for path in EXAMPLES if path.is_dir()), None)
    try:
        made.mkdir(parents=True)
        (made / "first.red").write_bytes(FIRST.encode())
        if examples:
            (made / "examples").mkdir()
            for source in sorted(examples.glob("*.red")):
                shutil.copy(source, made / "examples")
    except OSError as fault:
        why = "already exists" if isinstance(fault, FileExistsError) else fault.strerror or "cannot write"
        raise FileError(folder, why) from None
    click.echo(printable(f"{folder}: first.red" + (", and the examples" if examples else "")))
    following = f"challenge {made / 'first.red'} {made / 'examples'}" if examples else f"study {made / 'first.red'}"
    click.echo(printable(f"next: corewar {following}"))
