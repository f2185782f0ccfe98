"""`lsp`: the language server, which editors start."""
from __future__ import annotations

import sys

import click

from .. import __version__
from ..model.settings import Settings
from .layout import command
from .options import core_options


@command(
    "corewar lsp", "corewar lsp --hill tiny", statuses="0 shut down by the editor, 1 ended without that, 2 usage error"
)
@core_options
def lsp(settings: Settings) -> int:
    """Show errors, values and names in an editor.

    An editor starts this command and talks to it in the Language Server Protocol, over standard input and output. A
    comment such as `;redcode-tiny` selects the settings of that hill for its source; the options apply to all others.
    """
    from ..editor.server import serve

    if sys.stdin.isatty():
        raise click.UsageError("expected an editor on standard input, not a terminal")
    return serve(settings, __version__)
