"""Writes the proved library as C: the module that the native library is compiled from, instruction by instruction.

The prover's module is not optimised. It has about thirty kinds of instructions, no phi, no select and no calls through
pointers, and an address takes 64 bits of its memory. This translator knows just these, and raises CannotTranslate for
anything else, so that no instruction is ever translated by a guess.

What each part of the module becomes:

- a function: a static function of C whose name is the same, with underscores for what C does not allow in names, and a
  number
- a value: a variable that is assigned once; an integer is unsigned, and wraps as C's unsigned integers do
- memory: bytes. All loads and stores copy bytes (`ld32`, `st32` and so on), so that alignment and aliasing do not
  matter. Numbers are little-endian on every machine; an address has the byte order of the machine, and takes 8 bytes
- a local place whose address is used for nothing but whole loads and stores of one type: a variable
- what is undefined behaviour in LLVM (`unreachable`): a call of abort

Flags and attributes that only allow LLVM to assume more (nuw, noundef, !range, ..) are dropped, except for `inbounds`:
it allows an address to be computed by the pointer addition of C.
"""
from __future__ import annotations

import re
from collections.abc import Iterator

from translator.instructions import Instructions
from translator.reading import TYPE, CannotTranslate, Function


def numbers(data: bytes) -> str:
    return ",".join(str(byte) for byte in data)


class Translator(Instructions):
    """Writes a module as C."""

    def find_places(self) -> None:
        """Finds the local places of the function, each with its size. All are allocated in its first block."""
        is_entry = True
        for line in self.here.lines:
            found = re.fullmatch(r"  (%[\w.]+) = alloca (\w+|<\d+ x \w+>|\[(\d+) x i8\]), align \d+", line)
            if found:
                if not is_entry:
                    raise CannotTranslate(f"outside the first block: {line}")
                self.here.places[found[1]] = int(found[3]) if found[3] else self.size_of(found[2])
            elif " = alloca " in line:
                raise CannotTranslate(line)
            elif re.match(r"[\w.]+:", line):
                is_entry = line.startswith("start:")

    def find_variables(self) -> None:
        """Finds the places that become variables: they are only loaded, stored, copied and cleared as a whole, as one
        type.
        """
        types: dict[str, set[str]] = {name: set() for name in self.here.places}
        for line in self.here.lines:
            if " = alloca " not in line:
                for name in set(re.findall(r"%[\w.]+", line)) & set(types):
                    types[name] |= self.types_used(name, line)
        for name, kinds in types.items():
            if len(kinds) == 1 and not kinds & {""} and not next(iter(kinds)).startswith("{"):
                self.here.variables[name] = next(iter(kinds))

    def types_used(self, name: str, line: str) -> set[str]:
        """Returns the type as which an instruction loads or stores all of a place, no type if it copies or clears all
        of it, or "" for any other use.
        """
        size = self.here.places[name]
        found = re.search(rf"(?:load|store) ({TYPE})[, ]", line)
        # A load or a store has the place that it uses last in its line; a stored value comes before that place.
        at = re.search(r"ptr (%[\w.]+), align", line)
        if found and at and at[1] == name and line.count(name + ",") == 1 and self.size_of(found[1]) == size:
            return {found[1]}
        cleared = re.match(r"  call void @llvm.memset.p0.i64\(ptr (%[\w.]+), i8 0, i64 (\d+), ", line)
        places = r"ptr ([%@][\w.]+), ptr ([%@][\w.]+), i64 (\d+), "
        copied = re.match(rf"  call void @llvm.memmove.p0.p0.i64\({places}", line)
        is_whole = cleared and int(cleared[2]) == size or copied and int(copied[3]) == size and copied[1] != copied[2]
        return set() if is_whole else {""}

    def declaration(self, function: Function) -> str:
        given = ", ".join(f"{self.type_of(kind)} {self.local(name)}" for kind, name in function.parameters)
        return f"static {function.kind}{self.type_of(function.result)} {self.names[function.name]}({given or 'void'})"

    def function(self, function: Function) -> str:
        """Returns the definition of a function in C."""
        self.here = function
        self.find_places()
        self.find_variables()
        lines = []
        for name, kind in function.variables.items():
            lines.append(f"{self.type_of(kind)} {self.local(name)};")
        for name, size in function.places.items():
            if name not in function.variables and size:
                lines.append(f"u64 {self.local(name)}[{(size + 7) // 8}];")
        places = [name for name, size in function.places.items() if not size]
        lines += [
            f"u8 {self.local(name)}[1];"
            for name in places
            if any(name + "," in line or name + ")" in line for line in function.lines)
        ]
        waiting: list[str] = []
        for line in function.lines:
            if " = alloca " in line or line.startswith(";"):
                continue
            # A switch has several lines.
            if waiting or line.startswith("  switch "):
                waiting.append(line.strip())
                if line == "  ]":
                    lines.append(self.switch(" ".join(waiting)))
                    waiting = []
                continue
            label = re.fullmatch(r"([\w.]+):(?: .*)?", line)
            lines.append(f"{self.label(label[1])}:;" if label else self.instruction(line.strip()))
        used = {found for line in lines for found in re.findall(r"goto (\w+);", line)}
        lines = [line for line in lines if not line.endswith(":;") or line[:-2] in used]
        return "\n".join([f"\n{self.declaration(function)}", "{", *(f"    {line}" for line in lines), "}"])

    def structs(self) -> Iterator[str]:
        for name, struct in self.records.items():
            if name.startswith("{"):
                fields = " ".join(f"{self.type_of(kind)} {letter};" for _, letter, kind in self.offsets(name))
                yield f"typedef struct {{ {fields} }} {struct};"

    def tables(self) -> Iterator[str]:
        for name in self.constants:
            yield self.table(name)

    def table(self, name: str) -> str:
        """Returns the definition of a constant: bytes or, if it has addresses, a struct with 8 bytes for each."""
        parts, place = self.constants[name], self.constant(f"@{name}")
        if len(parts) == 1 and isinstance(parts[0], bytes):
            return f"static const u8 {place}[{len(parts[0]) or 1}] = {{{numbers(parts[0]) or 0}}};"
        fields, values = [], []
        for at, part in enumerate(parts):
            if isinstance(part, bytes):
                fields.append(f"u8 b{at}[{len(part)}];")
                values.append(f"{{{numbers(part)}}}")
            else:
                fields.append(f"ADDRESS({at})")
                values.append(f"TO({self.constant('@' + part[0])}, {part[1]})")
        return f"static const struct {place}_type {{ {' '.join(fields)} }} {place} = {{{', '.join(values)}}};"

    def text(self, before: str, between: str, after: str) -> str:
        """Returns the source in C. The given parts come before the structs, before the tables, and at the end."""
        functions = self.reached()
        bodies = [self.function(function) for function in functions]
        declared = [self.declaration(function) + ";" for function in functions]
        blocks = [f"BLOCK({size})" for size in sorted(self.blocks)]
        return "\n".join([before, *blocks, *self.structs(), between, *self.tables(), "", *declared, *bodies, "", after])
