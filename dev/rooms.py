"""Makes rooms: repositories with links to only some of the crates. `rt` locks a crate and those below it, so crates
that are proved or tried in parallel need a room each.
"""
from __future__ import annotations

import os
import shutil

from program import TOP


def crate_lines() -> dict[str, list[str]]:
    """Returns the lines of crates.txt: for each crate, or `NAME staticlib`, the words after its colon."""
    with open(os.path.join(TOP, "crates.txt")) as file:
        lines = [line.split(":") for line in file if line[0].isalpha()]
    return {name: rest.split() for name, rest in lines}


def all_below(crate: str, lines: dict[str, list[str]]) -> set[str]:
    """Returns the crates of these lines that a crate uses, directly or through others."""
    below = [name for name in lines[crate] if name in lines]
    return {*below, *(name for one in below for name in all_below(one, lines))}


def make_room(folder: str, lines: dict[str, list[str]]) -> None:
    """Makes a repository of only the crates of these lines. It has to be on the same file system as this one, because
    of the links.
    """
    os.mkdir(folder)
    shutil.copy(os.path.join(TOP, "HANDLES"), folder)
    with open(os.path.join(folder, "crates.txt"), "w") as file:
        file.writelines(f"{name}: {' '.join(words)}\n" for name, words in lines.items())
    for name in lines:
        crate = name.split()[0]
        shutil.copytree(
            os.path.join(TOP, "crates", crate), os.path.join(folder, "crates", crate), copy_function=os.link
        )


def write_new(path: str, text: str) -> None:
    """Replaces a file of a room. It may be a link to a file of the repository, which stays as it is."""
    if os.path.exists(path):
        os.remove(path)
    os.makedirs(os.path.dirname(path), exist_ok=True)
    with open(path, "w", encoding="utf-8") as file:
        file.write(text)
