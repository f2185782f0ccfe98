"""Reads the lists of mistakes in definitions, dev/bench/mistakes, and plants a mistake in the text of its file."""
from __future__ import annotations

import os
import re
import sys
from collections.abc import Iterator
from dataclasses import dataclass, field

TOP = os.path.dirname(os.path.dirname(os.path.abspath(__file__)))
LISTS = os.path.join(TOP, "dev", "bench", "mistakes")


@dataclass
class Mistake:
    """A mistake in one place of a definition, and what noticed it.

    - `meaning`: the mistake in words
    - `file`: the file of the definition, below the crate
    - `before`, `after`: the text that is replaced, and its replacement
    - `imports`: the imports that the replacement needs
    - `same`: why nothing can notice the mistake; "" if something should
    - `found_by`: the kind of what noticed the mistake (an example, a law, a type) or "nothing", and its name or error
    """

    crate: str
    meaning: str
    file: str
    before: str = ""
    after: str = ""
    imports: list[str] = field(default_factory=list)
    same: str = ""
    found_by: tuple[str, str] = ("nothing", "")

    def error(self) -> str | None:
        """Returns the error of the block itself, if any."""
        path = os.path.join(TOP, "crates", self.crate, self.file)
        if not os.path.isfile(path):
            return f"no such file: {self.file}"
        if not self.before or self.before == self.after:
            return "no text is replaced"
        with open(path) as file:
            count = file.read().count(self.before)
        return None if count == 1 else f"this text occurs {count} times in {self.file}: {self.before}"

    def planted(self, text: str) -> str:
        """Returns the text of the file with the mistake."""
        imports = "".join(f"use {it}\n" for it in self.imports)
        return re.sub("^use ", lambda _: f"{imports}use ", text.replace(self.before, self.after), count=1, flags=re.M)


def mistakes_of(crate: str) -> Iterator[Mistake]:
    """Yields the mistakes of a crate's list."""
    with open(os.path.join(LISTS, crate)) as file:
        blocks = re.split(r"\n\s*\n", file.read())
    for block in blocks:
        yield read_block(crate, block.strip("\n").split("\n"))


def read_block(crate: str, lines: list[str]) -> Mistake:
    """Reads a block, whose first two lines are the mistake in words and the file. Exits if a line has no mark."""
    mistake, before, after = Mistake(crate, lines[0].removeprefix("#").strip(), lines[1].strip()), [], []
    for line in lines[2:]:
        word, _, rest = line.partition(" ")
        if word == "-":
            before.append(rest)
        elif word == "+":
            after.append(rest)
        elif word == "use":
            mistake.imports.append(rest)
        elif word == "same:":
            mistake.same = rest
        else:
            sys.exit(f"dev/bench/mistakes/{crate}: this line belongs to no block: {line}")
    mistake.before, mistake.after = "\n".join(before), "\n".join(after)
    return mistake
