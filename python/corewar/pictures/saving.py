"""Writes pictures of the kind that the end of the file's name selects: PNG, SVG or PDF."""
from __future__ import annotations

from io import BytesIO

from matplotlib import rc_context
from matplotlib.figure import Figure

from ..engine.files import replace_file


# The field of each kind that has the time, and the salt of the names in an SVG, which are random without one.
TIMES = {"svg": "Date", "pdf": "CreationDate"}
SALT = "corewar"


def save(figure: Figure, path: str) -> None:
    """Writes a figure. The same figure gives the same bytes at any time."""
    kind, buffer = path.rpartition(".")[2], BytesIO()
    with rc_context({"svg.hashsalt": SALT}):
        figure.savefig(buffer, format=kind, metadata={TIMES[kind]: None} if kind in TIMES else None)
    replace_file(path, buffer.getvalue())
