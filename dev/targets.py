"""Compiles the proved library for other systems: from the module that the native library is compiled from, with the
same compiler and its linkers.

Only what names the target differs: the layout of its data, which has the sizes and alignments of all types that the
module uses, and its processor, which is the oldest one of the target, since a wheel cannot say that it needs a later
one. The library calls nothing but malloc, realloc, free and functions that copy and fill memory; on Linux it names no
other library, since the program that loads it has a C library, glibc or musl.
"""
from __future__ import annotations

import os
import re
from collections.abc import Callable
from dataclasses import dataclass

from modules import CannotBuild, clang_of, run
from program import TOP
from webassembly import AS_NATIVE, exports

PARTS = os.path.join(TOP, "packaging", "portable")
HEAP, STACK = os.path.join(PARTS, "native.c"), os.path.join(PARTS, "stack.s")
OPTIONS = ["-O3", "--no-default-config", "-fPIC", *AS_NATIVE]
# The options with which clang writes the module of a source in C as text. The module of an empty source has the lines
# that name the target.
AS_MODULE = "--no-default-config -O1 -fno-builtin -fvisibility=hidden -S -emit-llvm -xc -o -".split()
# A layout with little-endian order and addresses of 64 bits. The module has both in its code.
FITTING = re.compile(r'target datalayout = "e-(?!.*\bp:32)')
# The functions that the library may call on Windows and on macOS, each from one library of the system.
WINDOWS = "malloc realloc free memcpy memmove memset".split()
MACOS = [*WINDOWS, "bzero", "__bzero", "memset_pattern16", "dyld_stub_binder"]


@dataclass(frozen=True)
class Target:
    """A system: the tags of its wheel, the compiler's name for it, and the name of the library there."""

    tags: str
    triple: str
    library: str


ARM64_LINUX = "manylinux_2_17_aarch64.manylinux2014_aarch64.musllinux_1_1_aarch64"
TARGETS = [
    Target(ARM64_LINUX, "aarch64-unknown-linux-gnu", "libmars.so.2"),
    Target("win_amd64", "x86_64-w64-windows-gnu", "mars-2.dll"),
    Target("macosx_11_0_arm64", "arm64-apple-macos11.0", "libmars.2.dylib"),
    Target("macosx_10_13_x86_64", "x86_64-apple-macos10.13", "libmars.2.dylib"),
]


class Compiler:
    """The clang of the toolchain, which is also each of its linkers, and a folder for what it makes."""

    def __init__(self, toolchain: str, room: str) -> None:
        self.clang, self.room = clang_of(toolchain), room

    def path(self, name: str) -> str:
        return os.path.join(self.room, name)

    def write(self, name: str, text: str) -> str:
        with open(self.path(name), "w") as file:
            file.write(text)
        return self.path(name)

    def link(self, linker: str, *words: str) -> None:
        """Runs the linker of this name."""
        if not os.path.lexists(self.path(linker)):
            os.symlink(self.clang, self.path(linker))
        run(self.path(linker), *words)

    def module_of(self, source: str, triple: str) -> str:
        """Returns the text of the module of a source in C."""
        return run(self.clang, f"--target={triple}", *AS_MODULE, source)

    def head_of(self, triple: str) -> str:
        """Returns the lines that name a target in a module. Raises CannotBuild if the library's code cannot fit it."""
        head = "".join(re.findall(r"^target .*\n", self.module_of(os.devnull, triple), re.M))
        if not FITTING.match(head):
            raise CannotBuild(f"{triple}: not little-endian with addresses of 64 bits; compile the library as C for it")
        return head

    def compiled(self, name: str, text: str, triple: str) -> str:
        """Compiles a module or, if the name ends with .s, assembles a text. Returns the path of the object file."""
        words = [] if name.endswith(".s") else ["-x", "ir"]
        source, out = self.write(name, text), self.path(f"{name}.o")
        run(self.clang, f"--target={triple}", *OPTIONS, "-c", *words, source, "-o", out)
        return out


def for_target(text: str, head: str) -> str:
    """Returns the text of the library's module for another target, in which only the calls of the header are visible
    from outside. Windows has its own way to touch the pages of the stack.
    """
    text = re.sub(r"^target .*\n", "", text, flags=re.M)
    text = re.sub(r"^define (?!internal )(?!.*@(mars|rattle)_)", "define internal ", text, flags=re.M)
    unknown = "target-cpu|target-features|tune-cpu" + ("|probe-stack|stack-probe-size" if "windows" in head else "")
    return head + re.sub(rf' ?"({unknown})"="[^"]*"', "", text)


def link_linux(compiler: Compiler, target: Target, objects: list[str], out: str) -> None:
    names = compiler.write("exports.map", "{ global: mars_*; local: *; };")
    words = "-shared --gc-sections -s -z now -z noexecstack".split()
    compiler.link("ld.lld", *words, "-soname", target.library, "--version-script", names, "-o", out, *objects)


def link_windows(compiler: Compiler, target: Target, objects: list[str], out: str) -> None:
    """Links to the C library of Windows 10 and later."""

    def definitions(library: str, names: list[str]) -> str:
        return "/def:" + compiler.write(f"{library}.def", "\n".join([f"LIBRARY {library}", "EXPORTS", *names, ""]))

    called = compiler.path("ucrtbase.lib")
    compiler.link("lld-link", "/lib", "/machine:x64", definitions("ucrtbase.dll", WINDOWS), f"/out:{called}")
    words = "/dll /noentry /machine:x64 /opt:ref /Brepro".split()
    given = definitions(target.library, exports())
    compiler.link("lld-link", *words, given, f"/implib:{compiler.path('mars.lib')}", f"/out:{out}", *objects, called)


def link_macos(compiler: Compiler, target: Target, objects: list[str], out: str) -> None:
    architecture, _, system = target.triple.split("-")
    version = system.removeprefix("macos")
    listed = ", ".join(f"_{name}" if "stub" not in name else name for name in MACOS)
    systems = f"targets: [ {architecture}-macos ]"
    called = f"--- !tapi-tbd\ntbd-version: 4\n{systems}\ninstall-name: '/usr/lib/libSystem.B.dylib'\n"
    called = compiler.write("libSystem.tbd", f"{called}exports:\n  - {systems}\n    symbols: [ {listed} ]\n...\n")
    names = compiler.write("exports.txt", "".join(f"_{name}\n" for name in exports()))
    words = ["-dylib", "-arch", architecture, "-platform_version", "macos", version, version, "-dead_strip", "-x"]
    words += ["-install_name", f"@rpath/{target.library}", "-exported_symbols_list", names]
    compiler.link("ld64.lld", *words, "-o", out, *objects, called)


# For each system, how objects are linked to a shared library that exports the calls of the header.
LINKS: dict[str, Callable[[Compiler, Target, list[str], str], None]] = {
    "linux": link_linux,
    "windows": link_windows,
    "apple": link_macos,
}


def build_native(compiler: Compiler, text: str, target: Target, folder: str) -> str:
    """Builds the library for a target, below `folder` in a folder that has the name of its tags. Returns its path."""
    head, system = compiler.head_of(target.triple), next(name for name in LINKS if name in target.triple)
    heap = for_target(compiler.module_of(HEAP, "x86_64-unknown-linux-gnu"), head)
    objects = [
        compiler.compiled(name, source, target.triple)
        for name, source in (("library.ll", for_target(text, head)), ("heap.ll", heap))
    ]
    if system == "windows":
        with open(STACK) as file:
            objects.append(compiler.compiled("stack.s", file.read(), target.triple))
    out = os.path.join(folder, target.tags, target.library)
    os.makedirs(os.path.dirname(out), exist_ok=True)
    LINKS[system](compiler, target, objects, out)
    return out
