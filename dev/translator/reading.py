"""Reads the text of a module of LLVM: its functions, line by line, and its constants."""
from __future__ import annotations

import re
from dataclasses import dataclass, field

# A value: a name, a number, or a word.
VALUE = r'%[\w.]+|@"[^"]*"|@[\w.]+|-?\d+|true|false|null|zeroinitializer'
TYPE = r"\{ [^}]*\}|<\d+ x \w+>|\w+"
ATTRIBUTES = (
    r"(?:noundef|zeroext|signext|nonnull|immarg|writeonly|readonly|captures\(none\)|align \d+|dereferenceable\(\d+\))"
)
# The specifiers in C of LLVM's attributes for inlining.
KINDS = {"alwaysinline": "ALWAYS_INLINE ", "noinline": "NEVER_INLINE ", "inlinehint": "inline "}


class CannotTranslate(Exception):
    """The module has something that this translator does not know; the text says what."""


@dataclass
class Function:
    """A function of a module: types and parameters are those of LLVM, and `kind` is its specifier in C."""

    name: str
    result: str
    parameters: list[tuple[str, str]]
    kind: str
    lines: list[str] = field(default_factory=list)
    places: dict[str, int] = field(default_factory=dict)  # the sizes of its local places
    variables: dict[str, str] = field(default_factory=dict)  # the types of the places that become variables


def unescaped(text: str) -> bytes:
    """Returns the bytes of a constant, in which `\\` and two hexadecimal digits are a byte, and `\\\\` a backslash."""
    return re.sub(
        rb"\\(?:([0-9A-F]{2})|\\)", lambda it: bytes([int(it[1], 16)]) if it[1] else b"\\", text.encode("latin-1")
    )


class Module:
    """The functions and constants of a module, and the names of its functions in C."""

    def __init__(self, text: str, exports: list[str]) -> None:
        self.exports = exports
        self.functions: dict[str, Function] = {}
        self.constants: dict[str, list[bytes | tuple[str, int]]] = {}
        self.names: dict[str, str] = {}
        self.read(text)

    def read(self, text: str) -> None:
        """Reads the text of a module. Raises CannotTranslate if a line outside functions has another form."""
        kinds = {}
        for number, words in re.findall(r"^attributes #(\d+) = \{ (.*) \}$", text, re.M):
            kinds[number] = next((KINDS[word] for word in words.split() if word in KINDS), "")
        inside: Function | None = None
        for line in text.split("\n"):
            if line.startswith("define "):
                inside = self.function_of(line, kinds)
            elif line == "}":
                inside = None
            elif inside is not None:
                if line:
                    inside.lines.append(line)
            elif line.startswith("@"):
                self.constant_of(line)
            elif line and not re.match(r";|source_filename|target|declare|attributes|!", line):
                raise CannotTranslate(line)

    def function_of(self, line: str, kinds: dict[str, str]) -> Function:
        """Adds the function that begins in a line; `kinds` has the specifiers in C by the numbers of attributes."""
        found = re.fullmatch(
            rf'define (?:internal )?(?:{ATTRIBUTES} )*({TYPE}) @("[^"]*"|[\w.]+)\((.*)\) (?:unnamed_addr )?#(\d+) \{{',
            line,
        )
        if not found:
            raise CannotTranslate(line)
        parameters = []
        for one in found[3].split(", ") if found[3] else []:
            words = re.fullmatch(rf"({TYPE})(?: {ATTRIBUTES})* (%[\w.]+)", one)
            if not words:
                raise CannotTranslate(line)
            parameters.append((words[1], words[2]))
        name = found[2].strip('"')
        function = Function(name, found[1], parameters, kinds[found[4]])
        self.functions[name] = function
        plain = re.sub(r"\W+", "_", re.sub(r"<#?\w*>", "", name)).strip("_")
        self.names[name] = f"x_{name}" if name in self.exports else f"{plain}_{len(self.names)}"
        return function

    def constant_of(self, line: str) -> None:
        """Reads a constant of bytes, or one of addresses and bytes."""
        found = re.fullmatch(
            r'@([\w.]+) = private unnamed_addr constant \[(\d+) x i8\] (c"(.*)"|zeroinitializer), align \d+', line
        )
        if not found:
            self.mixed_constant_of(line)
            return
        data = bytes(int(found[2])) if found[4] is None else unescaped(found[4])
        if len(data) != int(found[2]):
            raise CannotTranslate(line)
        self.constants[found[1]] = [data]

    def mixed_constant_of(self, line: str) -> None:
        """Reads a constant of addresses and bytes."""
        found = self.match(r"@([\w.]+) = private (?:unnamed_addr )?constant <\{ [^}]* \}> <\{ (.*) \}>, align 8", line)
        pattern = (
            r"ptr getelementptr \(i8, ptr @([\w.]+), i64 (\d+)\)|ptr @([\w.]+)|"
            r'\[(\d+) x i8\] (?:c"([^"]*)"|zeroinitializer)'
        )
        parts = [self.part_of(part) for part in re.finditer(pattern, found[2])]
        rest = re.sub(rf"(?:{pattern})(?:, |$)", "", found[2])
        at = 0
        for part in parts:
            at += 8 if isinstance(part, tuple) else len(part)
            if at % 8 and part is not parts[-1]:
                rest = "an address that is not aligned"
        if rest:
            raise CannotTranslate(line)
        self.constants[found[1]] = parts

    def part_of(self, found: re.Match[str]) -> bytes | tuple[str, int]:
        if found[4] is None:
            return (found[1] or found[3], int(found[2] or 0))
        return unescaped(found[5] or "").ljust(int(found[4]), b"\0")

    def called(self, function: Function) -> set[str]:
        """Returns the functions of the module that a function calls."""
        found = (re.search(r'call [^@]*@("[^"]*"|[\w.]+)\(', line) for line in function.lines)
        return {one[1].strip('"') for one in found if one} & self.functions.keys()

    def reached(self) -> list[Function]:
        """Returns the functions that the exported ones reach, in the module's order."""
        seen, waiting = set(self.exports), list(self.exports)
        while waiting:
            new = self.called(self.functions[waiting.pop()]) - seen
            seen |= new
            waiting += new
        return [function for name, function in self.functions.items() if name in seen]

    def match(self, pattern: str, text: str) -> re.Match[str]:
        found = re.fullmatch(pattern, text)
        if not found:
            raise CannotTranslate(text)
        return found
