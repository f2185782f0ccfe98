"""Builds mars.wasm: the proved library for browsers and Node, from the module that the native library is compiled from.
"""
from __future__ import annotations

import os
import re

from modules import CannotBuild, clang_of, run, text_of
from program import TOP

HEAP = os.path.join(TOP, "site", "src", "engine", "heap.c")
HEADER = os.path.join(TOP, "crates", "mars_c", "include", "mars.h")
# wasm64 has pointers of 64 bits, as the native target has; the memory is lowered to 32 bits afterwards.
TARGET = "wasm64-unknown-unknown"
LAYOUT = "e-m:e-p:64:64-p10:8:8-p20:8:8-i64:64-i128:128-n32:64-S128-ni:1:10:20"
COMPILE = [f"--target={TARGET}", "-mcpu=lime1", "-mbulk-memory", "-O2", "--no-default-config"]
# The options of the native library.
AS_NATIVE = ["-ffunction-sections", "-fno-vectorize", "-fno-slp-vectorize"]
# The crates that no turn runs through, and those of the toolchain, whose code in turns is inlined. They are compiled
# for size, and so are all calls but those that make turns one by one.
SMALL = "redcode_text|redcode_asm|mars_cell|mars_match|mars_session|mars_app|mars_c"
SMALL += "|core|std|std_alloc|arrayvec|indexmap|itoa"
FAST = "follow|moments|outcomes|play"
# Functions with equal instances for battles with and without limits. They are not inlined, and wasm-opt merges them. No
# function belongs here that returns a structure: each call of it would clear the result in every turn.
MERGED = "mars_core::machine::rare::effect_of_number"
# The stack and the maximum memory of the module, in bytes.
STACK, MAX_MEMORY = 1 << 20, 1 << 30
LINK = [
    "-mwasm64",
    "--no-entry",
    "--gc-sections",
    "--stack-first",
    "-z",
    f"stack-size={STACK}",
    f"--max-memory={MAX_MEMORY}",
]
FEATURES = "memory64 bulk-memory sign-ext nontrapping-float-to-int multivalue mutable-globals".split()
# The numbers of two kinds of sections in a module.
TABLE, ELEMENTS = 4, 9


def for_webassembly(text: str) -> str:
    """Returns the text of a module of x86-64 as one of wasm64."""
    text = re.sub(r"^target datalayout = .*", f'target datalayout = "{LAYOUT}"', text, flags=re.M)
    text = re.sub(r"^target triple = .*", f'target triple = "{TARGET}"', text, flags=re.M)
    small = rf'(?:"(?:{SMALL})::|mars_(?!{FAST})).*'
    text = re.sub(rf"^(define .*@{small}\)) (#\d+ {{)$", r"\1 minsize optsize \2", text, flags=re.M)
    text = re.sub(rf'^(define .*@"{MERGED}::.*\)) #\d+ {{$', r"\1 noinline nounwind {", text, flags=re.M)
    return re.sub(r' ?"(probe-stack|stack-probe-size|target-cpu)"="[^"]*"', "", text)


def with_narrow_table(code: bytes) -> bytes:
    """Returns the module with 32-bit limits of its table, which is empty: Debian's binaryen reads no others."""
    # The first section is after 8 bytes: the magic number and the version.
    code, at = bytearray(code), 8

    def number(at: int) -> tuple[int, int]:
        """Returns the number in LEB128 at an index, and the index after it."""
        value = shift = 0
        while True:
            byte, at = code[at], at + 1
            value, shift = value | (byte & 127) << shift, shift + 7
            if byte < 128:
                return value, at

    while at < len(code):
        kind, (size, body) = code[at], number(at + 1)
        if kind == TABLE:
            # After the number of tables and the type of its elements: the flags of its limits, of which 4 is 64 bits.
            code[number(body)[1] + 1] &= ~4
        if kind == ELEMENTS:
            raise CannotBuild("the module has calls through a table, which cannot be lowered")
        at = body + size
    return bytes(code)


def exports() -> list[str]:
    """Returns the names of the calls of the header, all that the module exports."""
    with open(HEADER) as file:
        return re.findall(r"^(?:uint32_t|size_t) (mars_\w+)\(", file.read(), re.M)


def compiled(source: str, toolchain: str, room: str) -> list[str]:
    """Compiles the text of the module, and the heap that it calls, for wasm64. Returns the files of both."""
    clang, text = clang_of(toolchain), os.path.join(room, "module.ll")
    with open(text, "w") as file:
        file.write(for_webassembly(source))
    objects = [os.path.join(room, "library.o"), os.path.join(room, "heap.o")]
    run(clang, *COMPILE, *AS_NATIVE, "-c", "-x", "ir", text, "-o", objects[0])
    run(clang, *COMPILE, "-ffreestanding", "-fno-builtin", "-c", HEAP, "-o", objects[1])
    return objects


def build_wasm(module: str, archive: str, toolchain: str, room: str, out: str) -> None:
    """Builds mars.wasm in the file `out`. Raises CannotBuild if a tool fails or the module does not fit."""
    build_wasm_of(text_of(module, archive, toolchain), toolchain, room, out)


def build_wasm_of(source: str, toolchain: str, room: str, out: str) -> None:
    """Builds mars.wasm from the text of a module."""
    objects, linked = compiled(source, toolchain, room), os.path.join(room, "linked.wasm")
    # LLVM's linker is one program, which links for WebAssembly if it is called by this name.
    linker = os.path.join(room, "wasm-ld")
    os.symlink(os.path.join(toolchain, "bin", "ld.lld"), linker)
    run(linker, *LINK, *(f"--export={name}" for name in exports()), "-o", linked, *objects)
    with open(linked, "rb") as file:
        code = with_narrow_table(file.read())
    with open(linked, "wb") as file:
        file.write(code)
    run("wasm-opt", *(f"--enable-{name}" for name in FEATURES), linked, "--memory64-lowering", "-Oz", "-o", out)
