"""`web`: the site in a browser, with the sources of a folder."""
from __future__ import annotations

import signal
from pathlib import Path

import click

from ..engine.sources import advice_on
from ..model.header import CHECKOUT, INSTALLED
from ..model.errors import FileError
from .layout import Number, command
from .options import INPUT, Output

# The folders of examples: that of the checkout, and those that may be installed.
EXAMPLES = [CHECKOUT / "examples", *(folder / "share" / "doc" / "mars" / "examples" for folder in INSTALLED)]
# The same port each time, since a browser keeps unsaved texts by the address.
PORT = 8094


@command(
    "corewar web",
    "corewar web --port 8080 --no-browser warriors/",
    statuses="1 error in input or files, 2 usage error, 130 stopped with Ctrl-C or by SIGTERM",
)
@click.option(
    "--port",
    type=Number(0, 65535),
    default=PORT,
    help="Port to serve on, 0 to 65535; if that cannot be used, a free one",
)
@click.option("--browser/--no-browser", default=True, help="Open the browser, or only serve")
@click.option(
    "--results", type=Output(dir_okay=False), help="Store results of leagues in this file; skip matches already in it"
)
@click.argument("files", nargs=-1, type=INPUT, metavar="[FILE]...")
def web(port: int, browser: bool, results: str | None, files: tuple[str, ...]) -> None:
    """Open the site in a browser, with the sources of a folder.

    The site has an editor, a view of the core, the debugger, a bench and leagues. FILE is a source or a folder of
    sources; without any, the current folder is used. Only this machine can connect.
    """
    from ..pages.site import site_folder
    from ..web.folder import Folder, sources_of
    from ..web.server import ServedSite, serve

    # SIGTERM ends the server as Ctrl-C does, so that the page with the token, which leads the browser there, is
    # removed.
    signal.signal(signal.SIGTERM, signal.default_int_handler)
    for name in files:
        if not Path(name).exists():
            raise FileError(name, f"No such file or directory{advice_on(name)}")
    examples = sources_of([path for path in EXAMPLES if path.is_dir()][:1])
    folder = Folder([Path(name) for name in files or (".",)], examples)
    serve(ServedSite(site_folder(), folder, results), port, browser, click.echo)
