"""Reads the tracked files of the repository, for its checks."""
from __future__ import annotations

import os
import subprocess
from collections.abc import Iterator

TOP = os.path.abspath(os.path.join(os.path.dirname(__file__), "..", ".."))


def files(*endings: str) -> Iterator[tuple[str, str]]:
    """Yields the tracked files with one of these endings, or all of them, each with its text."""
    listed = subprocess.run(
        ["git", "-c", "safe.directory=*", "ls-files"], cwd=TOP, capture_output=True, text=True, check=True
    ).stdout.split("\n")
    for name in listed:
        path = os.path.join(TOP, name)
        if name and os.path.isfile(path) and (not endings or name.endswith(endings)):
            yield name, open(path, errors="replace").read()
