"""The errors of the package, with the numbers and names of errors in the library's header."""
from __future__ import annotations

from typing import Any

from .header import enumeration, names

RESULTS = enumeration("DONE")
MEMORY, SETTINGS, PARAMETERS = RESULTS["OUT_OF_MEMORY"], RESULTS["SETTINGS"], RESULTS["PARAMETERS"]
FORMULA, ASSEMBLY, LOAD, SCORE = (RESULTS[name] for name in ("FORMULA", "ASSEMBLY", "LOAD", "SCORE"))
BLOCK, EDIT, WARRIOR, LINEUP = (RESULTS[name] for name in ("BLOCK", "EDIT", "WARRIOR", "LINEUP"))
# The number of SCORE for a sum of points that does not fit in 64 bits.
RANGE = enumeration("EXPRESSION_SYNTAX")["EXPRESSION_RANGE"]
# The kinds of results whose kind is not their name in lower case.
WORDS = {MEMORY: "out of memory", EDIT: "refused"}
# Results whose numbers are in an enumeration of another name.
ENUMERATIONS = {FORMULA: "EXPRESSION", SCORE: "EXPRESSION"}
# The kind of each result, and the enumeration of the header that names its numbers.
KINDS = {code: (WORDS.get(code, name.lower()), ENUMERATIONS.get(code, name)) for name, code in RESULTS.items()}


class CorewarError(Exception):
    """The base class of the errors of the package. Its text is one line.

    The package raises it directly for errors that the library does not check.

    `Refused` is its older name, which the next version removes.
    """


class MarsError(CorewarError):
    """An error of a call of the library. Its text is what `mars` prints after the name of the file.

    - `code`: the result of the call, as listed in the API for C; `kind` is the first word of most texts
    - `number`: the number of the error; `name` is its name, or "" if it has none
    - `problem`, `expression`: the numbers of nested errors, or 0
    - `line`: the line of a source or a load file, from 1; or the address or index of a wrong cell; otherwise 0
    - `warrior`: the index of a wrong warrior or lineup, from 0
    - `begin`, `end`: the index of the first byte of the token at which a source has its error, and of the byte after
      the token; for a token from an EQU they are in its definition; both are 0 if the error has no token

    `Fault` is its older name, which the next version removes.
    """

    def __init__(
        self,
        code: int,
        number: int = 0,
        problem: int = 0,
        expression: int = 0,
        line: int = 0,
        warrior: int = 0,
        begin: int = 0,
        end: int = 0,
    ) -> None:
        self.code, self.number, self.problem, self.expression = code, number, problem, expression
        self.line, self.warrior, self.begin, self.end = line, warrior, begin, end
        self.kind, enumeration = KINDS[code]
        self.name = names(enumeration).get(number, "") if number else ""
        head = [] if code == ASSEMBLY else [self.kind, "1 Expression"] if code == FORMULA else [self.kind]
        nested = "PARAMETERS" if code == BLOCK else "TEXT"
        parts = [numbered(enumeration, number), numbered(nested, problem), numbered("EXPRESSION", expression)]
        super().__init__(self._place() + " ".join([*head, *filter(None, parts)]))

    def _place(self) -> str:
        """Returns the beginning of the text, which says where the error is, or "" if the text does not say it."""
        if self.code in (ASSEMBLY, LOAD):
            return f"line {self.line}: "
        return f"index {self.warrior}: " if self.code in (WARRIOR, LINEUP) else ""

    def __reduce__(self) -> tuple[Any, ...]:
        # A pool of processes hangs if an exception cannot be unpickled.
        numbers = self.code, self.number, self.problem, self.expression, self.line, self.warrior
        return MarsError, (*numbers, self.begin, self.end)


class FileError(CorewarError):
    """An error of one file.

    - `file`: the name of the file
    - `fault`: the `MarsError`, or a text such as "No such file or directory"
    - `text`: the content of the file, or b"" if it was not read

    `FileFault` is its older name, which the next version removes.
    """

    def __init__(self, file: str, fault: MarsError | str, text: bytes = b"") -> None:
        super().__init__(f"{file}: {fault}")
        self.file, self.fault, self.text = file, fault, text

    def __reduce__(self) -> tuple[Any, ...]:
        return FileError, (self.file, self.fault, self.text)


def numbered(enumeration: str, number: int) -> str:
    """Returns a number with its name, or "" for 0."""
    return f"{number} {names(enumeration).get(number, '')}" if number else ""
