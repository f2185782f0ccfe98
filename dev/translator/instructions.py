"""Translates the instructions of a module to C: each to a statement, or to the type and the expression of its value."""
from __future__ import annotations

import re

from translator.reading import ATTRIBUTES, TYPE, VALUE, CannotTranslate
from translator.values import BITS, Values

# LLVM's comparisons in C: of unsigned and signed integers of up to 64 bits, and of integers of 128 bits.
UNSIGNED = {"eq": "==", "ne": "!=", "ult": "<", "ule": "<=", "ugt": ">", "uge": ">="}
SIGNED = {"slt": "<", "sle": "<=", "sgt": ">", "sge": ">="}
WIDE = {
    "eq": "eq128({0}, {1})",
    "ne": "!eq128({0}, {1})",
    "ult": "ult128({0}, {1})",
    "ule": "!ult128({1}, {0})",
    "slt": "slt128({0}, {1})",
    "sle": "!slt128({1}, {0})",
}
# LLVM's arithmetic in C: of unsigned integers, and of signed ones if the two differ.
PLAIN = {
    "add": "+",
    "sub": "-",
    "mul": "*",
    "and": "&",
    "or": "|",
    "xor": "^",
    "shl": "<<",
    "lshr": ">>",
    "udiv": "/",
    "urem": "%",
}
OF_SIGNED = {"sdiv": "/", "srem": "%"}
# Memory of at most this number of bytes is copied and cleared as a value, which more compilers keep in registers.
MAX_BLOCK = 256


class Instructions(Values):
    """Translates instructions one by one: `do_load` gets what follows `load` in a line, and so on. `blocks` has the
    sizes in bytes of what is copied or cleared as a value.
    """

    def __init__(self, text: str, exports: list[str]) -> None:
        super().__init__(text, exports)
        self.blocks: set[int] = set()

    def label(self, text: str) -> str:
        return "L_" + re.sub(r"\W", "_", text)

    def switch(self, text: str) -> str:
        found = re.fullmatch(rf"switch (i\d+) ({VALUE}), label %([\w.]+) \[ (.*?) ?\]", text)
        if not found:
            raise CannotTranslate(text)
        arms = re.findall(rf"{found[1]} (-?\d+), label %([\w.]+)", found[4])
        cases = " ".join(f"case {self.value(found[1], number)}: goto {self.label(label)};" for number, label in arms)
        return f"switch ({self.value(found[1], found[2])}) {{ {cases} default: goto {self.label(found[3])}; }}"

    def instruction(self, line: str) -> str:
        """Returns the statement for a line. Raises CannotTranslate if there is none."""
        line = re.sub(r"(, ![a-z]+ !\d+)+$", "", line)
        found = re.fullmatch(r"(?:(%[\w.]+) = )?(?:tail )?(\w+)(.*)", line)
        translate = getattr(self, f"do_{found[2]}", None) if found else None
        if not found or not translate:
            if found and found[1] and found[2] in (*PLAIN, *OF_SIGNED, "ashr"):
                kind, value = self.arithmetic(found[2], found[3].strip())
                return self.assign(found[1], kind, value)
            raise CannotTranslate(line)
        made = translate(found[3].strip())
        if found[1]:
            return self.assign(found[1], *made)
        return str(made if isinstance(made, str) else made[1] + ";")

    def assign(self, name: str, kind: str, value: str) -> str:
        return f"{self.type_of(kind)} {self.local(name)} = {value};"

    def do_load(self, text: str) -> tuple[str, str]:
        found = self.match(rf"({TYPE}), ptr ({VALUE}), align \d+", text)
        return found[1], self.load(found[1], found[2])

    def do_store(self, text: str) -> str:
        found = self.match(rf"({TYPE}) ({VALUE}), ptr ({VALUE}), align \d+", text)
        return self.store(found[1], found[3], self.value(found[1], found[2]))

    def do_getelementptr(self, text: str) -> tuple[str, str]:
        found = self.match(rf"(inbounds )?(?:nuw )?i8, ptr ({VALUE}), i64 ({VALUE})", text)
        base, index = self.value("ptr", found[2]), self.value("i64", found[3])
        if not found[3].startswith("%"):
            return "ptr", f"{base} + {found[3]}"
        if found[1]:
            return "ptr", f"{base} + (size_t){index}"
        # The sum may be outside of what the base points to, which C allows only for integers.
        return "ptr", f"shifted({base}, {index})"

    def do_br(self, text: str) -> str:
        found = self.match(rf"label %([\w.]+)|i1 ({VALUE}), label %([\w.]+), label %([\w.]+)", text)
        if found[1]:
            return f"goto {self.label(found[1])};"
        return f"if ({self.value('i1', found[2])}) goto {self.label(found[3])}; else goto {self.label(found[4])};"

    def do_ret(self, text: str) -> str:
        if text == "void":
            return "return;"
        found = self.match(rf"({TYPE}) ({VALUE})", text)
        return f"return {self.value(found[1], found[2])};"

    def do_unreachable(self, text: str) -> str:
        return "NOT_REACHED;"

    def do_zext(self, text: str) -> tuple[str, str]:
        found = self.match(rf"(i\d+) ({VALUE}) to (i\d+)", text)
        value = self.value(found[1], found[2])
        if found[3] == "i256" and found[1] == "i128":
            return found[3], f"zext256({value})"
        if found[3] == "i128":
            return found[3], f"wide(0, {value})"
        return found[3], f"({self.type_of(found[3])}){value}"

    def do_trunc(self, text: str) -> tuple[str, str]:
        found = self.match(rf"(i\d+) ({VALUE}) to (i\d+)", text)
        value = self.value(found[1], found[2])
        if found[1] == "i256":
            if found[3] != "i128":
                raise CannotTranslate(f"trunc {text}")
            return found[3], f"({value}).low"
        if found[1] == "i128":
            value = f"({value}).low"
        return found[3], f"({value}) & 1" if found[3] == "i1" else f"({self.type_of(found[3])}){value}"

    def do_sext(self, text: str) -> tuple[str, str]:
        found = self.match(rf"({TYPE}) ({VALUE}) to ({TYPE})", text)
        value = self.value(found[1], found[2])
        if found[3].startswith("<") and found[1].endswith("x i1>"):
            return found[3], f"sext_{self.type_of(found[1])}({value})"
        if found[3] == "i256" and found[1] == "i128":
            return found[3], f"sext256({value})"
        if found[3] == "i128" and found[1] == "i64":
            return found[3], f"wide(0 - ({value} >> 63), {value})"
        raise CannotTranslate(f"sext {text}")

    def do_ptrtoaddr(self, text: str) -> tuple[str, str]:
        found = self.match(rf"ptr ({VALUE}) to i64", text)
        return "i64", f"(u64)(uintptr_t)({self.value('ptr', found[1])})"

    def do_extractvalue(self, text: str) -> tuple[str, str]:
        found = self.match(rf"(\{{ [^}}]*\}}) ({VALUE}), (\d+)", text)
        _, letter, kind = list(self.offsets(found[1]))[int(found[3])]
        return kind, f"{self.value(found[1], found[2])}.{letter}"

    def do_icmp(self, text: str) -> tuple[str, str]:
        found = self.match(rf"(\w+) ({TYPE}) ({VALUE}), ({VALUE})", text)
        how, kind = found[1], found[2]
        a, b = self.value(kind, found[3]), self.value(kind, found[4])
        if kind == "i256" and how == "eq":
            return "i1", f"eq256({a}, {b})"
        if kind == "i128" and how in WIDE:
            return "i1", WIDE[how].format(a, b)
        if kind.endswith("x i8>") and how in ("eq", "ne", "slt"):
            return kind.replace("i8", "i1"), f"{how}_{self.type_of(kind)}({a}, {b})"
        if kind == "ptr" and how in UNSIGNED:
            return (
                "i1",
                f"{a} {UNSIGNED[how]} {b}"
                if how in ("eq", "ne")
                else f"(uintptr_t)({a}) {UNSIGNED[how]} (uintptr_t)({b})",
            )
        if kind in BITS and how in UNSIGNED:
            return "i1", f"{a} {UNSIGNED[how]} {b}"
        if kind in BITS and how in SIGNED and kind != "i1":
            top = f"((u64)1 << {BITS[kind] - 1})"
            return "i1", f"((u64){a} ^ {top}) {SIGNED[how]} ((u64){b} ^ {top})"
        raise CannotTranslate(f"icmp {text}")

    def arithmetic(self, what: str, text: str) -> tuple[str, str]:
        found = self.match(rf"(?:(?:nuw|nsw|exact|disjoint) )*(i\d+) ({VALUE}), ({VALUE})", text)
        kind, a, b = found[1], self.value(found[1], found[2]), self.value(found[1], found[3])
        if kind == "i256":
            if what not in ("add", "sub", "mul"):
                raise CannotTranslate(f"{what} {text}")
            return kind, f"{what}256({a}, {b})"
        if kind == "i128":
            if what in ("lshr", "ashr"):
                if found[3] != "64":
                    raise CannotTranslate(f"{what} {text}")
                b = ""
            return kind, f"{what}128({a}{', ' if b else ''}{b})"
        if what in PLAIN:
            # C promotes integers that are smaller than int; the cast to their type drops the bits above.
            mask = " & 1" if kind == "i1" and what in ("add", "sub", "mul") else ""
            small = "(u32)" if kind in ("i8", "i16") else ""
            return kind, f"({self.type_of(kind)})({small}{a} {PLAIN[what]} {b}){mask}"
        if what in OF_SIGNED and kind in ("i32", "i64"):
            return kind, f"(u{BITS[kind]})((int{BITS[kind]}_t){a} {OF_SIGNED[what]} (int{BITS[kind]}_t){b})"
        raise CannotTranslate(f"{what} {text}")

    def do_insertelement(self, text: str) -> tuple[str, str]:
        found = self.match(rf"(<\d+ x i8>) ({VALUE}), i8 ({VALUE}), i32 (\d+)", text)
        kind = self.type_of(found[1])
        return found[1], f"insert_{kind}({self.value(found[1], found[2])}, {self.value('i8', found[3])}, {found[4]})"

    def do_shufflevector(self, text: str) -> tuple[str, str]:
        """Translates two forms: a vector of copies of the first element of another vector, and 16 adjacent elements of
        a vector of 64.
        """
        found = self.match(rf"(<(\d+) x i8>) ({VALUE}), \1 zeroinitializer, <(\d+) x i32> (zeroinitializer|<.*>)", text)
        value, kind = self.value(found[1], found[3]), f"<{found[4]} x i8>"
        if found[5] == "zeroinitializer" and kind == found[1]:
            return kind, f"splat_{self.type_of(kind)}({value})"
        places = [int(one) for one in re.findall(r"i32 (\d+)", found[5])]
        if len(places) == int(found[4]) == 16 and found[2] == "64" and places == list(range(places[0], places[0] + 16)):
            self.type_of(kind)
            return kind, f"part_{self.type_of(found[1])}({value}, {places[0]})"
        raise CannotTranslate(f"shufflevector {text}")

    def do_bitcast(self, text: str) -> tuple[str, str]:
        found = self.match(rf"(<16 x i1>) ({VALUE}) to i16", text)
        return "i16", f"bits_{self.type_of(found[1])}({self.value(found[1], found[2])})"

    def do_call(self, text: str) -> str | tuple[str, str]:
        found = self.match(rf'(?:{ATTRIBUTES} )*({TYPE}) @("[^"]*"|[\w.]+)\((.*)\)(?: #\d+)?', text)
        name, given = found[2].strip('"'), []
        for one in re.findall(rf"({TYPE})((?: {ATTRIBUTES})*) ({VALUE})(?:, |$)", found[3]):
            given.append((one[0], one[2]))
        if len(given) != (found[3].count(", ") + 1 if found[3] else 0) - sum(kind.count(", ") for kind, _ in given):
            raise CannotTranslate(text)
        if name.startswith("llvm."):
            return self.intrinsic(name, given, text)
        if name not in self.names and name not in ("rattle_alloc", "rattle_realloc", "rattle_dealloc"):
            raise CannotTranslate(text)
        if name in self.functions and [kind for kind, _ in given] != [
            kind for kind, _ in self.functions[name].parameters
        ]:
            raise CannotTranslate(text)
        words = ", ".join(self.value(kind, value) for kind, value in given)
        self.type_of(found[1])
        return found[1], f"{self.names.get(name, name)}({words})"

    def intrinsic(self, name: str, given: list[tuple[str, str]], text: str) -> str | tuple[str, str]:
        """Translates a call of a function that LLVM has itself; `given` has the type and the value of each argument."""
        names = [value for _, value in given]
        if name == "llvm.trap":
            return "NOT_REACHED;"
        if name in ("llvm.cttz.i64", "llvm.cttz.i32", "llvm.ctlz.i64") and names[1] == "false":
            kind = name.rpartition(".")[2]
            return kind, f"{name.split('.')[1]}{BITS[kind]}({self.value(kind, names[0])})"
        if name == "llvm.memset.p0.i64":
            if names[0] in self.here.variables:
                kind = self.here.variables[names[0]]
                return f"{self.local(names[0])} = {self.zero(kind)};"
            if names[2] == "1":
                return f"*({self.value('ptr', names[0])}) = {self.value('i8', names[1])};"
            if names[1] == "0" and names[2].isdigit() and int(names[2]) <= MAX_BLOCK:
                return f"clear_{self.block(names[2])}({self.value('ptr', names[0])});"
            return f"memset({self.value('ptr', names[0])}, {self.value('i8', names[1])}, {self.length(names[2])});"
        if name == "llvm.memmove.p0.p0.i64":
            # A variable is loaded or stored as a whole.
            if names[0] in self.here.variables:
                return self.store(kind := self.here.variables[names[0]], names[0], self.load(kind, names[1]))
            if names[1] in self.here.variables:
                return self.store(kind := self.here.variables[names[1]], names[0], self.load(kind, names[1]))
            if names[2] == "1":
                return self.store("i8", names[0], self.load("i8", names[1]))
            if names[2].isdigit() and int(names[2]) <= MAX_BLOCK:
                return f"copy_{self.block(names[2])}({self.value('ptr', names[0])}, {self.value('ptr', names[1])});"
            return f"memmove({self.value('ptr', names[0])}, {self.value('ptr', names[1])}, {self.length(names[2])});"
        raise CannotTranslate(text)

    def block(self, size: str) -> str:
        self.blocks.add(int(size))
        return size

    def length(self, text: str) -> str:
        return text if text.isdigit() else f"(size_t){self.value('i64', text)}"

    def zero(self, kind: str) -> str:
        return "wide(0, 0)" if kind == "i128" else f"zero_{self.type_of(kind)}" if kind.startswith("<") else "0"
