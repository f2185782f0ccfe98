"""What each error means, and what to do."""
from __future__ import annotations

import re
from collections.abc import Iterable, Iterator
from itertools import islice

from ..model.errors import MarsError
from .causes import CAUSES
from .sentences import SENTENCES, Advice, earlier
from .source import Place, place_of, read_source

# The maximum number of causes that are reported for an error.
MAX_CAUSES = 2
GREATER = "shorten the warrior or, unless it is for a hill, increase `-l`, and `-d` to at least that"
MEANINGS = {
    "bad words": "An argument of the program is wrong; `corewar explain mars ARGUMENTS` finds out which.",
    "out of memory": "A memory allocation failed.",
    "settings 3 Position": "`-F` requires two warriors, and a position from the minimum distance to the core size minus"
    " it.",
    "settings 4 Warriors": "A match has 1 to 16 warriors, a league 2 to 65,536.",
    "parameters 4 Limit": "`--read-limit` or `--write-limit` is above the core size.",
    "parameters 5 Length": "The maximum length is above the core size; set `-l` and `-d`.",
    "parameters 6 Distance": "The minimum distance must be from the maximum length to the core size; set `-d`.",
    "formula 1 Expression 1 Syntax": "The formula is not an expression in W and S, or it has more than 256 bytes.",
    "formula 1 Expression 2 Unknown": "A formula can use only the names W, for the warriors, and S, for the survivors.",
    "placement 1 NoRoom": "The core is too small for these warriors at this minimum distance; set `-s` or `-d`.",
    "score 3 DivideByZero": "The formula divides by zero in a round.",
    "score 4 Range": "The value of the formula, or a sum of points, does not fit in 64 bits.",
    "load 1 Syntax": "This line is not valid in a load file; the name of a source must not end in `.load`.",
    "load 2 TooLong": f"The load file has more cells than the maximum length; {GREATER}.",
    "load 3 Empty": "The load file has no cell; reading stops at an END, even before the first cell.",
    "load 4 BadOrigin": "The start is not one of the cells; ORG and END count them from 0.",
    "load 6 Version": "The first line begins with `;load ` but is not `;load 2 ` followed by a core size.",
    "warrior 1 Length": "The number of cells is not from 1 to the maximum length of the settings.",
    "warrior 2 Start": "The start is not the index of a cell.",
    "warrior 3 Cell": "A cell has an opcode, a modifier or a mode that does not exist.",
    "warrior 4 Field": "A number of a cell is not from 0 to the core size minus 1.",
    "warrior 5 Name": "A name has more than 60 bytes, or a byte that is not a printable ASCII character.",
    "lineup 1 Count": "A lineup has 1 to 16 warriors.",
    "lineup 2 Index": "A lineup has an index for which there is no warrior.",
    **SENTENCES["errors"],
    "8 TooLong": f"This is the first instruction beyond the maximum length; {GREATER}.",
}


# What precedes the error of an expression, which is in an operand or an assert, in the count of a FOR, or in a formula.
OF_EXPRESSIONS = ("4 Expression ", "1 Text 10 Expression ", "formula 1 Expression ")
KINDS = {
    **{head + kind: text for head in OF_EXPRESSIONS for kind, text in SENTENCES["expressions"].items()},
    **MEANINGS,
}
# An error message, after the names of programs and of a file.
MESSAGE = re.compile(rf"(?:(.*?): )?(?:(?:line|index) (\d{{1,9}}): )?({'|'.join(map(re.escape, KINDS))})$")


def explain_error(fault: MarsError, source: bytes) -> list[str]:
    """Explains an error and what to do, in one or two sentences: by the causes that the source shows, or in general."""
    kind = re.sub(r"^(line|index) \d+: ", "", str(fault))
    return explain_kind(kind, fault.line, source, place_of(source, fault.begin, fault.end))


def explain_kind(kind: str, number: int, source: bytes, place: Place | None = None) -> list[str]:
    """Explains an error by its text, the number of its line, and the place that the library reports."""
    causes: list[str] = []
    if kind in CAUSES:
        text = read_source(source)
        # Only a source without instructions has an error in no line.
        if (0 < number or kind == "7 Empty") and number <= len(text.lines):
            causes = [*islice(CAUSES[kind](text, text.lines[number - 1], place), MAX_CAUSES)]
    if causes or kind not in KINDS:
        return causes
    meaning = KINDS[kind]
    if place is None or place.number == number:
        return [meaning]
    # The word at `place` is in the definition of an EQU, in another line than the error.
    lowered = meaning if meaning[1].isupper() else meaning[0].lower() + meaning[1:]
    return [earlier(place.number, Advice(lowered, place.word))]


def read_faults(lines: Iterable[str]) -> Iterator[tuple[str, str, int, str]]:
    """Yields the error messages of any program among some lines, each with the file or "", its line, and the error."""
    for found in filter(None, (MESSAGE.match(line.strip()) for line in lines)):
        parts = (found[1] or "").split(": ")
        while parts and re.fullmatch(r"[a-z]*", parts[0]):
            del parts[0]
        yield found[0], ": ".join(parts), int(found[2] or 0), found[3]
