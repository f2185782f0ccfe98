"""Writes the calls of mars.h in C, each around a call of the translated library, whose memory is that of a
little-endian machine with addresses of 64 bits.

On such a machine a call only passes its arguments on. On a machine with addresses of 32 bits, it narrows the lengths
that it returns. On a big-endian machine it turns each number that an argument points to, that is, reverses its bytes:
in a copy of a constant argument, otherwise in place, before the inner call and after it. packaging/portable/calls.c has
the macros.
"""
from __future__ import annotations

import re
from collections.abc import Iterator
from dataclasses import dataclass

# The sizes of numbers in bytes.
SIZES = {"uint8_t": 1, "uint16_t": 2, "uint32_t": 4, "int32_t": 4, "uint64_t": 8, "int64_t": 8}
# The name of each parameter that points to a battle: some words of a battle are four numbers of one byte.
BATTLE = "battle"


@dataclass
class Parameter:
    """A parameter of a call; `count` is the number of values that it points to, as an expression in C."""

    type: str
    name: str
    is_pointer: bool
    is_constant: bool
    count: str = "1"

    @property
    def declared(self) -> str:
        return f"{'const ' if self.is_constant else ''}{self.type} {'*' if self.is_pointer else ''}{self.name}"

    @property
    def is_length(self) -> bool:
        """Whether the call returns a length through this parameter."""
        return self.is_pointer and self.type == "size_t"

    @property
    def is_turned(self) -> bool:
        """Whether the parameter points to numbers of several bytes, or to structs, but not to a length."""
        return self.is_pointer and self.type not in ("uint8_t", "size_t")

    @property
    def is_copied(self) -> bool:
        return self.is_turned and self.is_constant

    @property
    def given(self) -> str:
        """The argument for the library."""
        if self.is_length:
            return f"(u8 *)&wide_{self.name}"
        if self.is_copied:
            return f"GIVEN({self.name})"
        return f"(u8 *){self.name}" if self.is_pointer else self.name

    def turning(self, name: str, after: str = "") -> str:
        """Returns the macro that turns the numbers at a pointer of this name. After the inner call `after` is _BACK."""
        macro = "TURN_BATTLE" if self.name == BATTLE else "TURN"
        return f"{macro}{after}({name}, {self.type}, {self.count})"


@dataclass
class Call:
    """A call of the header."""

    result: str
    name: str
    parameters: list[Parameter]

    @property
    def declared(self) -> str:
        return f"{self.result} {self.name}({', '.join(one.declared for one in self.parameters) or 'void'})"


def plain(header: str) -> str:
    return re.sub(r"/\*.*?\*/", "", header, flags=re.S)


def calls_of(header: str) -> list[Call]:
    """Returns the calls of a header. Raises ValueError for a parameter of another form."""
    found = []
    for result, name, given in re.findall(r"^(uint32_t|size_t) (mars_\w+)\(([^;]*)\);", plain(header), re.M):
        parameters: list[Parameter] = []
        for one in re.split(r",\s*", given.strip()) if given.strip() != "void" else []:
            words = re.fullmatch(r"(const )?(\w+) (\*?)(\w+)", one.strip())
            if not words:
                raise ValueError(f"the parameter {one} of {name}")
            if words[2] == "size_t" and not words[3] and parameters:
                parameters[-1].count = words[4]
            parameters.append(Parameter(words[2], words[4], bool(words[3]), bool(words[1])))
        found.append(Call(result, name, parameters))
    return found


def shapes_of(header: str) -> dict[str, list[int]]:
    """Returns for each type the sizes of its numbers in bytes, in their order in memory. No struct has padding."""
    shapes = {name: [size] for name, size in SIZES.items()}
    for body, name in re.findall(r"typedef struct \{(.*?)\} (\w+);", plain(header), re.S):
        fields = re.findall(r"(\w+) \w+(?:\[(\d+)\])?;", body)
        shapes[name] = [size for kind, count in fields for size in shapes[kind] * int(count or 1)]
    return shapes


def body(call: Call) -> Iterator[str]:
    """Yields the lines between the braces of a call."""
    lengths = [one for one in call.parameters if one.is_length]
    copies = [one for one in call.parameters if one.is_copied]
    in_place = [one for one in call.parameters if one.is_turned and not one.is_constant]
    yield f"    {'u32' if call.result == 'uint32_t' else 'u64'} answer;"
    yield from (f"    u64 wide_{one.name} = 0;" for one in lengths)
    yield from (f"    COPY({one.name}, {one.type}, {one.count})" for one in copies)
    release = " ".join(f"RELEASE({one.name})" for one in copies)
    if copies:
        missing = " || ".join(f"MISSING({one.name})" for one in copies)
        failure = "return no_memory(fault);" if call.result == "uint32_t" else "return 0;"
        yield f"    if ({missing}) {{ {release} {failure} }}"
    yield from (f"    {one.turning(f'copy_{one.name}')}" for one in copies)
    yield from (f"    {one.turning(one.name)}" for one in in_place)
    yield f"    answer = x_{call.name}({', '.join(one.given for one in call.parameters)});"
    yield from (f"    {one.turning(one.name, '_BACK')}" for one in in_place)
    if release:
        yield f"    {release}"
    for one in lengths:
        narrowed = f"(size_t)length_of((u8 *)&wide_{one.name})"
        yield f"    if (answer == MARS_DONE || answer == MARS_ROOM) *{one.name} = {narrowed};"
    yield "    return (size_t)answer;" if call.result == "size_t" else "    return answer;"


def boundary(header: str, template: str) -> str:
    """Returns the source in C: the template with the shapes of the types, as in `shapes_of`, and the header's calls."""
    shapes, calls = shapes_of(header), calls_of(header)
    used = {one.type for call in calls for one in call.parameters if one.is_turned}
    tables = [
        f"static const u8 shape_{name}[] = {{{','.join(map(str, shape))},0}};"
        for name, shape in shapes.items()
        if name in used
    ]
    lines = [template.replace("@SHAPES@", "\n".join(tables)).rstrip()]
    for call in calls:
        lines += ["", f"MARS_CALL {call.declared}", "{", *body(call), "}"]
    return "\n".join(lines) + "\n"
