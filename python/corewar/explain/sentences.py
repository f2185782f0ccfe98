"""The sentences on errors of sources and their causes. The site shows the same sentences."""
from __future__ import annotations

import json
from importlib.resources import files
from typing import Self

SENTENCES: dict[str, dict[str, str]] = json.loads((files("corewar.explain") / "meanings.json").read_text("ascii"))


class Advice(str):
    """A sentence on the word `old` of a line, or on no word if `old` is "".

    - `new`: the word to write, or ""
    - `line`: the number of the line, or 0 for the line of the error
    """

    old: str
    new: str
    line: int

    def __new__(cls, sentence: str, old: str = "", new: str = "", line: int = 0) -> Self:
        advice = super().__new__(cls, sentence)
        advice.old, advice.new, advice.line = old, new, line
        return advice

    @classmethod
    def of(cls, cause: str, **values: object) -> Self:
        """Returns the sentence on a cause: on its `word`, in place of which to write `new`."""
        word, new = (str(values.get(name, "")) for name in ("word", "new"))
        return cls(SENTENCES["causes"][cause].format(**values), word, new)


class Misspelt(Advice):
    """Advice on a word in place of an operation."""


cause_sentence = Advice.of


def earlier(number: int, inner: Advice) -> Advice:
    """Returns advice on another line than the line of the error."""
    return type(inner)(cause_sentence("earlier", line=number, inner=inner), inner.old, inner.new, number)
