"""Writes the files for editors into the folder given as the argument, each in its place below a folder `share`.

In the files of `editors`, words such as @OPCODES@ stand for the names that the package has, separated by `|`.
"""
from __future__ import annotations

import json
import sys
from pathlib import Path
from typing import Any

from corewar import __version__
from corewar.explain import words

HERE = Path(__file__).with_name("editors")
NAMES = {name: "|".join(getattr(words, name)) for name in ("OPCODES", "DIRECTIVES", "MODIFIERS", "PREDEFINED")}
# Where the files of each folder belong. Neovim also reads those of Vim.
PLACES = {
    "vim": ["vim/vimfiles", "nvim/site"],
    "nvim": ["nvim/site"],
    "emacs": ["emacs/site-lisp"],
    "kate": ["org.kde.syntax-highlighting/syntax"],
    "vscode": ["corewar/vscode"],
}


def sublime(grammar: dict[str, Any]) -> str:
    """Returns the grammar of TextMate in the form that Sublime Text and bat read; JSON is YAML, too."""
    rules = [{"match": one["match"], "scope": one["name"]} for one in grammar["patterns"]]
    names = {"name": grammar["name"], "scope": grammar["scopeName"], "file_extensions": grammar["fileTypes"]}
    return "%YAML 1.2\n---\n" + json.dumps({**names, "contexts": {"main": rules}}, indent=2) + "\n"


def write(path: Path, text: str) -> None:
    path.parent.mkdir(parents=True, exist_ok=True)
    path.write_text(text)


def main() -> None:
    share = Path(sys.argv[1])
    for path in sorted(path for path in HERE.rglob("*") if path.is_file()):
        folder, *below = path.relative_to(HERE).parts
        text = path.read_text()
        for name, value in {**NAMES, "VERSION": __version__}.items():
            text = text.replace(f"@{name}@", value)
        for place in PLACES[folder]:
            write(share.joinpath(place, *below), text)
        if path.name.endswith(".tmLanguage.json"):
            write(share / "corewar" / "redcode.sublime-syntax", sublime(json.loads(text)))


main()
