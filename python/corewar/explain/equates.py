"""Finds each EQU whose text has counters of later loops, and moves it into these loops."""
from __future__ import annotations

import re

from .source import NAME, Line, Load, Loop, Source, read_source

# The maximum number of EQU names that are moved, and of lines that are read again for the moves.
MAX_MOVES, MAX_MOVED_LINES = 100, 100_000
# A line that uses an EQU, with the loops around it, up to the innermost one whose counter the EQU has.
Use = tuple[Line, list[Loop]]


def replace_name(line: str, old: str, new: str) -> str:
    """Returns a line with a name replaced in its code."""
    code, mark, comment = line.partition(";")
    return re.sub(rf"(?<![\w.&]){old}(?![\w&])", new, code) + mark + comment


def move_equates(source: Source, lines: list[str], _: Load) -> None:
    """Moves each EQU with counters of later loops into the innermost of them, and joins the counters to its name."""
    for _number in range(min(MAX_MOVES, 1 + MAX_MOVED_LINES // len(lines))):
        for name, uses in uses_of(source).items():
            head = source.equates[name]
            # Outside of loops a name has no counter in pMARS either.
            is_used = uses or any("&" in word for line in source.equate(head) for word in line.rest)
            if len(head.labels) == 1 and all(loops for _, loops in uses) and is_used:
                move_equate(source, lines, head, uses)
                break
        else:
            return
        source = read_source("\n".join(lines).encode("latin-1"))
        lines[:] = source.data.decode("latin-1").split("\n")


def uses_of(source: Source) -> dict[str, list[Use]]:
    """Returns the uses of each EQU that has counters and is outside of loops: in a loop it is joined already."""
    counters = counters_of_equates(source)
    around, users = source.around() if counters else {}, dict[str, list[Line]]()
    for line in source.lines if counters else ():
        own = {loop.counter for loop in around[line.number]}
        for name in (line.uses & counters.keys()) - own:
            users.setdefault(name, []).append(line)
    return {
        name: [(line, loops_of(around[line.number], own)) for line in users.get(name, ())]
        for name, own in counters.items()
        if not around[source.equates[name].number]
    }


def loops_of(around: list[Loop], counters: set[str]) -> list[Loop]:
    """Returns the loops from the outermost one to the innermost one that has one of these counters."""
    last = max((at for at, loop in enumerate(around) if loop.counter in counters), default=-1)
    return around[: last + 1]


def counters_of_equates(source: Source) -> dict[str, set[str]]:
    """Returns, for each EQU that has any, the counters of loops that are parts of names in its text or in the text of
    an EQU that it names. A counter is left out if pMARS rejects it, since an earlier line has the same label.
    """
    labels, found = source.labels(), dict[str, set[str]]()
    counters = {one.counter for one in source.loops if labels.get(one.counter, one.head).number >= one.head.number}
    users: dict[str, list[str]] = {}
    for name, head in source.equates.items() if counters else ():
        words = {word for line in source.equate(head) for word in line.rest if NAME.match(word)}
        found[name] = {part for word in words for part in word.split("&")} & counters
        for word in words & source.equates.keys():
            users.setdefault(word, []).append(name)
    left = [(name, own) for name, own in found.items() if own]
    while left:
        name, own = left.pop()
        for user in users.get(name, ()):
            if own - found[user]:
                found[user] |= own
                left.append((user, own))
    return {name: own for name, own in found.items() if own}


def move_equate(source: Source, lines: list[str], head: Line, users: list[Use]) -> None:
    """Moves an EQU to the beginning of the innermost loop around each of the lines that use it. Its name is joined to
    the counters of all loops around it, since each iteration defines it again. An EQU that no line uses is removed.
    """
    name, copies = head.labels[0], source.equate(head)
    texts, words = [lines[line.number - 1] for line in copies], {*re.findall(r"\w+", "\n".join(lines))}
    for line in copies:
        lines[line.number - 1] = ""
    names: dict[int, str] = {}
    counters: dict[int, str] = {}
    for line, loops in users:
        inner = loops[-1].head.number
        for loop in loops:
            number = loop.head.number
            if number not in counters and not loop.counter:
                counters[number] = new_name("n", words)
                lines[number - 1] = f"{counters[number]} {lines[number - 1].lstrip()}"
            counters.setdefault(number, loop.counter)
        if inner not in names:
            # The names of several loops are distinct.
            base = name + "_" * len(names)
            while names and base in words:
                base += "_"
            own = [counters[loop.head.number] for loop in loops]
            names[inner] = "&".join(dict.fromkeys([base, *name.split("&")[1:], *own]))
            lines[inner - 1] += "\n" + "\n".join([replace_name(texts[0], name, names[inner]), *texts[1:]])
        at = line.number - 1
        lines[at] = replace_name(lines[at], name, names[inner])


def new_name(name: str, words: set[str]) -> str:
    """Returns a name that is not one of the words of a source, and enters it into them."""
    while name in words:
        name += "_"
    words.add(name)
    return name
