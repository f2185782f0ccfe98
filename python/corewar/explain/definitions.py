"""Finds which lines pMARS drops, since they define a name again or define an EQU without a name."""
from __future__ import annotations

from dataclasses import dataclass, field
from itertools import takewhile

from .source import Line, Source


@dataclass
class Definitions:
    """The lines that pMARS drops, each with the labels that pMARS keeps and the name that an earlier line has, or ""
    for an EQU without a name. Also the labels that are given again before the same instruction, which pMARS accepts.
    """

    dropped: list[tuple[Line, list[str], str]] = field(default_factory=list)
    repeated: list[tuple[Line, str]] = field(default_factory=list)


def definitions_of(source: Source) -> Definitions:
    """Follows the labels as pMARS does: labels in a line of their own are known once an instruction or EQU follows."""
    found, known, alone, removed = Definitions(), set[str](), dict[str, Line](), set[str]()
    is_equate = False
    for line in source.read_lines():
        if not line.code.strip() or line.rest and not line.operation:
            continue
        continues, is_equate = is_equate, line.word == "EQU"
        # The name of an EQU that was dropped is no operation, but a label again.
        names = line.labels + [line.operation] * (line.operation in removed)
        if line.word == "FOR":
            known.update([*alone, *names][:-1])
            alone = {}
            continue
        kept = [*takewhile(lambda name: name not in known, names)]
        found.repeated += [(alone.pop(name), name) for name in dict.fromkeys(kept) if name in alone]
        found.repeated += [(line, name) for at, name in enumerate(kept) if name in kept[:at]]
        is_nameless = is_equate and not names and not alone
        if is_nameless and continues:
            continue
        if kept != names or is_nameless:
            found.dropped.append((line, kept, "".join(names[len(kept) :][:1])))
            removed.update(names[len(kept) :] if is_equate else ())
            is_equate = False
        if kept != names or line.is_label:
            alone.update(dict.fromkeys(kept, line))
        elif line.word not in ("ROF", "ORG", "END"):
            known.update(alone, kept)
            alone = {}
    return found
