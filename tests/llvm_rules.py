"""Functions in the language of LLVM, each for a rule of the translator, from two numbers of 64 bits to one.

Each generator yields names of rules, each with the body of its function: the arguments are %a0 and %a1, the result %r.
"""
from __future__ import annotations

from collections.abc import Iterator

NARROW = ("i8", "i16", "i32", "i64")
PLAIN = ("add", "sub", "mul", "and", "or", "xor")
UNSIGNED, SIGNED = ("eq", "ne", "ult", "ule", "ugt", "uge"), ("slt", "sle", "sgt", "sge")
WIDE = ("eq", "ne", "ult", "ule", "slt", "sle")
# Both numbers as type {0}.
CUT = "%a = trunc i64 %a0 to {0}\n%b = trunc i64 %a1 to {0}\n"
# %a and %b of 128 bits: the product of the arguments, of which the first is signed, and their signed exclusive or.
BOTH = """%a2 = sext i64 %a0 to i128
%a3 = zext i64 %a1 to i128
%a = mul i128 %a2, %a3
%b2 = xor i64 %a0, %a1
%b = sext i64 %b2 to i128
"""
# The result %r of 64 bits, from %v of 128.
FOLD = """%h = lshr i128 %v, 64
%l = trunc i128 %v to i64
%g = trunc i128 %h to i64
%m = mul i64 %g, 3
%r = add i64 %l, %m
"""
PLACE = "%p = alloca [{0} x i8], align 1\ncall void @llvm.memset.p0.i64(ptr %p, i8 0, i64 {0}, i1 false)\n"
AFTER = "%q = getelementptr inbounds i8, ptr %p, i64 8\n"
BITS = "%n = icmp slt <16 x i8> %w, zeroinitializer\n%k = bitcast <16 x i1> %n to i16\n%r = zext i16 %k to i64\n"
TEXT = '@text = private unnamed_addr constant [8 x i8] c"ab\\00\\FF\\22Z\\5C!", align 1\n'
TABLE = '<{ ptr getelementptr (i8, ptr @text, i64 3), [8 x i8] c"12345678" }>'
TABLES = f"{TEXT}@table = private unnamed_addr constant <{{ ptr, [8 x i8] }}> {TABLE}, align 8\n"
DECLARED = """declare void @llvm.memset.p0.i64(ptr, i8, i64, i1 immarg)
declare void @llvm.memmove.p0.p0.i64(ptr, ptr, i64, i1 immarg)
declare i64 @llvm.cttz.i64(i64, i1 immarg)
declare i32 @llvm.cttz.i32(i32, i1 immarg)
declare i64 @llvm.ctlz.i64(i64, i1 immarg)
attributes #0 = { nounwind }
"""


def widened(kind: str) -> str:
    return "%r = add i64 %v, 0\n" if kind == "i64" else f"%r = zext {kind} %v to i64\n"


def cut(kind: str) -> str:
    return "%a = add i64 %a0, 0\n%b = add i64 %a1, 0\n" if kind == "i64" else CUT.format(kind)


def arithmetic() -> Iterator[tuple[str, str]]:
    for kind in NARROW:
        bits = int(kind[1:])
        for what in PLAIN:
            yield f"{what} {kind}", cut(kind) + f"%v = {what} {kind} %a, %b\n" + widened(kind)
        for what in ("shl", "lshr"):
            yield f"{what} {kind}", cut(
                kind
            ) + f"%c = and {kind} %b, {bits - 1}\n%v = {what} {kind} %a, %c\n" + widened(kind)
        for what in ("udiv", "urem"):
            yield f"{what} {kind}", cut(kind) + f"%c = or {kind} %b, 1\n%v = {what} {kind} %a, %c\n" + widened(kind)
        if bits >= 32:
            for what in ("sdiv", "srem"):
                divisor = f"%c = and {kind} %b, 511\n%d = sub {kind} %c, 600\n"
                yield f"{what} {kind}", cut(kind) + f"{divisor}%v = {what} {kind} %a, %d\n" + widened(kind)
    for what in ("add", "sub", "mul", "and"):
        yield f"{what} i128", BOTH + f"%v = {what} i128 %a, %b\n" + FOLD
    for what in ("lshr", "ashr"):
        yield f"{what} i128", BOTH + f"%v = {what} i128 %a, 64\n" + FOLD
    for extend in ("sext", "zext"):
        for what in ("add", "sub", "mul"):
            wide = f"%x = {extend} i128 %a to i256\n%y = {extend} i128 %b to i256\n%z = {what} i256 %x, %y\n"
            same = f"%t = trunc i256 %z to i128\n%u = {extend} i128 %t to i256\n%e = icmp eq i256 %u, %z\n"
            joined = "%f = zext i1 %e to i128\n%v = add i128 %t, %f\n"
            yield f"{what} i256 of {extend}", BOTH + wide + same + joined + FOLD


def comparisons() -> Iterator[tuple[str, str]]:
    for kind in NARROW:
        for how in (*UNSIGNED, *SIGNED):
            yield f"{how} {kind}", cut(kind) + f"%v = icmp {how} {kind} %a, %b\n" + widened("i1")
    for how in WIDE:
        yield f"{how} i128", BOTH + f"%v = icmp {how} i128 %a, %b\n" + widened("i1")
    yield "trunc i1", "%c = trunc i64 %a0 to i1\n%d = trunc i64 %a1 to i1\n%v = add i1 %c, %d\n" + widened("i1")


def bits() -> Iterator[tuple[str, str]]:
    yield "cttz i64", "%r = call i64 @llvm.cttz.i64(i64 %a0, i1 false)\n"
    yield "ctlz i64", "%r = call i64 @llvm.ctlz.i64(i64 %a0, i1 false)\n"
    yield "cttz i32", cut("i32") + "%v = call i32 @llvm.cttz.i32(i32 %a, i1 false)\n" + widened("i32")
    filled = PLACE.format(16) + AFTER + "store i64 %a0, ptr %p, align 1\nstore i64 %a1, ptr %q, align 1\n"
    loaded = "%x = load <16 x i8>, ptr %p, align 1\n%c = trunc i64 %a0 to i8\n"
    one = "%y = insertelement <16 x i8> zeroinitializer, i8 %c, i32 0\n"
    splat = "%z = shufflevector <16 x i8> %y, <16 x i8> zeroinitializer, <16 x i32> zeroinitializer\n"
    for how in ("eq", "ne"):
        same = f"%e = icmp {how} <16 x i8> %x, %z\n%w = sext <16 x i1> %e to <16 x i8>\n"
        yield f"{how} vector", filled + loaded + one + splat + same + BITS
    yield "slt vector", filled + loaded + "%w = insertelement <16 x i8> %x, i8 %c, i32 9\n" + BITS
    large = "%o = getelementptr inbounds i8, ptr %p, i64 16\nstore i64 %a0, ptr %o, align 1\n"
    large += "%j = load <64 x i8>, ptr %p, align 1\n"
    places = ", ".join(f"i32 {place}" for place in range(16, 32))
    part = f"%w = shufflevector <64 x i8> %j, <64 x i8> zeroinitializer, <16 x i32> <{places}>\n"
    yield "part of a vector", PLACE.format(64) + large + part + BITS


def memory() -> Iterator[tuple[str, str]]:
    for size in (1, 8, 24, 300):
        stored = PLACE.format(320) + AFTER + "store i64 %a0, ptr %p, align 1\nstore i64 %a1, ptr %q, align 1\n"
        near = "%o = getelementptr inbounds i8, ptr %p, i64 3\n"
        moved = f"call void @llvm.memmove.p0.p0.i64(ptr %o, ptr %p, i64 {size}, i1 false)\n"
        both = "%x = load i64, ptr %o, align 1\n%y = load i64, ptr %q, align 1\n%r = sub i64 %x, %y\n"
        yield f"memmove {size}", stored + near + moved + both
        cleared = f"call void @llvm.memset.p0.i64(ptr %o, i8 0, i64 {size}, i1 false)\n"
        yield f"memset {size}", stored + near + cleared + "%r = load i64, ptr %p, align 1\n"
    yield "memset of a byte", PLACE.format(16).replace("i8 0", "i8 7") + "%r = load i64, ptr %p, align 1\n"
    filled = "%c = and i64 %a1, 15\ncall void @llvm.memset.p0.i64(ptr %p, i8 7, i64 %c, i1 false)\n"
    yield "memset of a length", PLACE.format(16) + filled + "%r = load i64, ptr %p, align 1\n"
    for kind in ("i16", "i32"):
        low = PLACE.format(16) + f"%c = trunc i64 %a0 to {kind}\nstore {kind} %c, ptr %p, align 1\n"
        yield f"pun of {kind}", low + "%r = load i64, ptr %p, align 1\n"
    # Only the lowest byte of a stored number of 64 bits is loaded, which the library does, too.
    pun = PLACE.format(8) + "store i64 %a0, ptr %p, align 8\n%v = load i8, ptr %p, align 8\n"
    yield "pun of i64", pun + widened("i8")
    pair = PLACE.format(16) + AFTER + "store i64 %a0, ptr %p, align 8\nstore i64 %a1, ptr %q, align 8\n"
    loaded = "%v = load { i64, i64 }, ptr %p, align 8\n%c = extractvalue { i64, i64 } %v, 1\n"
    yield "struct", pair + loaded + "%d = extractvalue { i64, i64 } %v, 0\n%r = sub i64 %c, %d\n"
    back = "%o = getelementptr i8, ptr %q, i64 -8\n%r = load i64, ptr %o, align 8\n"
    yield "address before another", pair + back
    read = "%c = load ptr, ptr @table, align 8\n%v = load i8, ptr %c, align 1\n"
    yield "constants", read + widened("i8")


def numbers() -> Iterator[tuple[str, str]]:
    yield "true", "%c = icmp ult i64 %a0, %a1\n%v = xor i1 %c, true\n" + widened("i1")
    yield "trunc to i1", "%v = trunc i64 %a0 to i1\n" + widened("i1")
    yield "null", PLACE.format(8) + "store ptr null, ptr %p, align 8\n%r = load i64, ptr %p, align 8\n"
    yield "i128", BOTH + f"%v = add i128 %a, {(5 << 64) + 7}\n" + FOLD
    for kind in NARROW:
        yield f"negative {kind}", cut(kind) + f"%v = and {kind} %a, -6\n" + widened(kind)


def variables() -> Iterator[tuple[str, str]]:
    """Yields functions with places in memory that are used as a whole, and with others that only seem to be."""
    one = "%p = alloca i64, align 8\nstore i64 %a0, ptr %p, align 8\n"
    two = one + "%s = alloca i64, align 8\nstore i64 %a1, ptr %s, align 8\n"
    ends = "%x = load i64, ptr %p, align 8\n%y = load i64, ptr %s, align 8\n%r = sub i64 %x, %y\n"
    clear = "call void @llvm.memset.p0.i64(ptr %p, i8 0, i64 {0}, i1 false)\n"
    copy = "call void @llvm.memmove.p0.p0.i64(ptr %{0}, ptr %{1}, i64 {2}, i1 false)\n"
    for size in (8, 3):
        yield f"cleared, {size} of 8 bytes", two + clear.format(size) + ends
        yield f"copied, {size} of 8 bytes", two + copy.format("p", "s", size) + ends
    wide = PLACE.format(16) + AFTER + "store i64 %a1, ptr %p, align 8\nstore i64 %a1, ptr %q, align 8\n"
    part = "%s = alloca i64, align 8\nstore i64 %a0, ptr %s, align 8\n"
    yield "copied to bytes", wide + part + copy.format("p", "s", 8) + ends.replace("%s", "%q")
    yield "copied from bytes", wide + part + copy.format("s", "q", 8) + ends
    half = (
        "%s = alloca [16 x i8], align 8\n" + clear.format(16).replace("%p", "%s") + "store i64 %a0, ptr %s, align 8\n"
    )
    yield "half of a place", wide + half + copy.format("p", "s", 16) + "%r = load i64, ptr %q, align 8\n"


def addresses() -> Iterator[tuple[str, str]]:
    moved = PLACE.format(8) + "%q = getelementptr i8, ptr %p, i64 %a0\n"
    for how in UNSIGNED:
        yield f"{how} ptr", moved + f"%v = icmp {how} ptr %p, %q\n" + widened("i1")
    integers = "%x = ptrtoaddr ptr %p to i64\n%y = ptrtoaddr ptr %q to i64\n%r = sub i64 %x, %y\n"
    yield "ptrtoaddr", moved + integers
    padded = PLACE.format(16) + AFTER + "store i64 %a0, ptr %p, align 8\nstore i64 %a1, ptr %q, align 8\n"
    yield "padding", padded + "%v = load { i8, i64 }, ptr %p, align 8\n%r = extractvalue { i8, i64 } %v, 1\n"


def jumps() -> Iterator[tuple[str, str]]:
    arms = "switch i64 %c, label %other [\n    i64 0, label %zero\n    i64 -1, label %last\n  ]\n"
    ends = "zero:\n  ret i64 10\nlast:\n  ret i64 20\nother:\n"
    yield "switch", "%d = and i64 %a0, 2\n%c = sub i64 0, %d\n" + arms + ends + "%r = add i64 %c, %a1\n"
    short = "%c = trunc i64 %a1 to i8\n" + arms.replace("i64", "i8") + ends
    yield "switch i8", short + "%r = add i64 %a0, %a1\n"
    branch = "%c = icmp ult i64 %a0, %a1\nbr i1 %c, label %less, label %more\n"
    yield "br", branch + "less:\n  ret i64 1\nmore:\n" + "%r = add i64 %a0, 7\n"


RULES = dict([*arithmetic(), *comparisons(), *bits(), *memory(), *numbers(), *variables(), *addresses(), *jumps()])


def module(rules: dict[str, str]) -> str:
    """Returns a module in which the rules are the functions f0, f1 and so on."""
    functions = []
    for number, text in enumerate(rules.values()):
        lines = (
            line if line.endswith(":") or line.startswith(" ") else f"  {line}" for line in text.strip().split("\n")
        )
        body = "\n".join([*lines, "  ret i64 %r"])
        functions.append(f"define i64 @f{number}(i64 %a0, i64 %a1) #0 {{\nstart:\n{body}\n}}\n")
    return TABLES + "\n" + "\n".join(functions) + "\n" + DECLARED
