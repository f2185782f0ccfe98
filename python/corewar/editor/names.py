"""The tokens of a source with their positions, and which names are the same, by the look of its lines."""
from __future__ import annotations

import re
from collections.abc import Iterator
from dataclasses import dataclass

from ..explain.source import NAME, OPERATIONS, PREDEFINED, TOKEN, Line, Source

ASSERT = re.compile(r"\s*;assert\b", re.I)
# The most digits that the counters around a line have together: 32 loops of five digits.
MAX_DIGITS = 160


@dataclass(frozen=True)
class Token:
    """A token, or a part of a joined one: `x&i` has the names `x` and `i`.

    - `number`: the number of its line, from 1
    - `first`: the column of its first character, from 0
    - `text`: its characters; of `x01`, the label of an iteration, only `x`
    - `whole`: all characters of the token
    - `kind`: comment, operation, modifier, number, sign; equate, counter, label, predefined; stem for a name that is
      joined to a counter; name for one that is not defined
    - `key`: what it has in common with all tokens of the same name, or "" if it is no known name
    - `is_definition`: whether it defines this name
    """

    number: int
    first: int
    text: str
    whole: str
    kind: str
    key: str = ""
    is_definition: bool = False

    @property
    def last(self) -> int:
        """The column after its last character."""
        return self.first + len(self.text)


class Names:
    """The tokens of a source, in their order."""

    def __init__(self, source: Source) -> None:
        self.labels, self.tokens = source.labels(), list[Token]()
        kinds = {"predefined": PREDEFINED, "label": self.labels, "equate": source.equates}
        self._kinds = {name: kind for kind, names in kinds.items() for name in names}
        self._stems = {name.partition("&")[0] for name in (*self.labels, *source.equates) if "&" in name}
        # The line of each counter that can be used in a line.
        self._counters: dict[str, str] = {}
        around, heads = source.around(), {loop.head.number: [loop] for loop in source.loops}
        edges = {*heads, *(loop.last for loop in source.loops)}
        for line in source.lines:
            loops = [*around[line.number], *heads.get(line.number, [])]
            self._counters = {loop.counter: str(loop.head.number) for loop in loops}
            # Of a FOR 0, the line itself and its ROF are read.
            is_read = not line.unread and (not line.skipped or line.number in edges)
            self.tokens += self._tokens(line) if is_read else comment(line, 0)

    def at(self, number: int, column: int) -> Token | None:
        """Returns the token at a column, or else the one that ends there."""
        here = [one for one in self.tokens if one.number == number and one.first <= column <= one.last]
        return here[-1] if here else None

    def same(self, token: Token) -> list[Token]:
        """Returns all tokens of the name that a token is."""
        return [one for one in self.tokens if one.key and (one.kind, one.key) == (token.kind, token.key)]

    def _tokens(self, line: Line) -> Iterator[Token]:
        found = ASSERT.match(line.text)
        begin = found.end() if found else 0
        end = begin + len(line.text[begin:].partition(";")[0])
        parts = [*TOKEN.finditer(line.text, begin, end)]
        # The index of the operation; tokens before it are labels.
        first = 0 if found else len(parts) - len(line.rest) - bool(line.operation)
        before = ""
        for index, part in enumerate(parts, -first):
            role = "label" if index < 0 else "modifier" if before == "." else "name"
            if role == "name" and part[0].upper() in OPERATIONS:
                role = "operation"
            yield from self._parts(line.number, part, role)
            before = part[0]
        yield from comment(line, end)

    def _parts(self, number: int, found: re.Match[str], role: str) -> Iterator[Token]:
        whole, first = found[0], found.start()
        if not NAME.match(whole):
            yield Token(number, first, whole, whole, "number" if whole[0].isdecimal() else "sign")
            return
        for index, part in enumerate(whole.split("&")):
            kind, key = self._kind(whole, part, index)
            # Counters and EQU names are replaced also in place of an operation or a modifier.
            if role in ("operation", "modifier") and kind not in ("counter", "equate"):
                kind, key = role, ""
            name = key if kind == "stem" else part
            yield Token(number, first, name, whole, kind, key, bool(key) and role == "label" and index == 0)
            first += len(part) + 1

    def _kind(self, whole: str, part: str, index: int) -> tuple[str, str]:
        """Returns the kind and the key of a name, or of a part of a joined one."""
        if part in self._counters and (index or whole == part):
            return "counter", self._counters[part]
        if "&" in whole:
            return ("name", "") if index else ("stem", part)
        if part in self._kinds:
            return self._kinds[part], part
        # The label of an iteration, such as `x01`.
        digits = len(part) - len(part.rstrip("0123456789"))
        cuts = range(len(part) - 2, len(part) - min(digits, MAX_DIGITS) - 1, -1)
        stem = next((part[:cut] for cut in cuts if part[:cut] in self._stems), "")
        return ("stem", stem) if stem else ("name", "")


def comment(line: Line, first: int) -> Iterator[Token]:
    """Yields the comment that begins at a column or after it."""
    text = line.text[first:].lstrip()
    if text:
        yield Token(line.number, len(line.text) - len(text), text, text, "comment")
