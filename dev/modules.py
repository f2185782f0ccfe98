"""Keeps the module of LLVM that the prover passes to clang when the library is built, and reads it as text."""
from __future__ import annotations

import os
import subprocess
import tempfile

# A clang that also keeps the largest module that it compiles, which is that of the library, and the object file made
# from this module. If these cannot be copied, the native library is built all the same.
KEEPING_CLANG = """#!/bin/sh
'{clang}' "$@" || exit
size() {{ stat -c %s "$1" 2>/dev/null || echo 0; }}
case " $* " in *" module.bc -o module.o "*)
    if [ "$(size module.bc)" -gt "$(size '{kept}')" ]; then cp module.bc '{kept}' && cp module.o '{code}'; fi
esac
exit 0
"""
# The options with which clang writes a module as text, unchanged.
DISASSEMBLE = "-S -emit-llvm -Xclang -disable-llvm-passes --no-default-config -x ir".split()


class CannotBuild(Exception):
    """The library cannot be built for another machine; the text says why."""


def code_of(module: str) -> str:
    """Returns the path of the object file made from a module. Its name is not `module.bc.o`, from which a built-in rule
    of make would make `module.bc`.
    """
    return f"{module.removesuffix('.bc')}.o"


def keeping_toolchain(toolchain: str, folder: str, kept: str) -> str:
    """Makes a folder like that of the toolchain, whose clang keeps its module in the file `kept`, and the object file
    beside it. Returns the folder.
    """
    os.makedirs(os.path.join(folder, "bin"))
    for name in os.listdir(toolchain):
        if name != "bin":
            os.symlink(os.path.join(toolchain, name), os.path.join(folder, name))
    for name in os.listdir(os.path.join(toolchain, "bin")):
        if name != "clang":
            os.symlink(os.path.join(toolchain, "bin", name), os.path.join(folder, "bin", name))
    clang = os.path.join(folder, "bin", "clang")
    with open(clang, "w") as file:
        file.write(KEEPING_CLANG.format(kept=kept, code=code_of(kept), clang=clang_of(toolchain)))
    os.chmod(clang, 0o755)
    return folder


def clang_of(toolchain: str) -> str:
    return os.path.join(toolchain, "bin", "clang")


def run(*words: str) -> str:
    """Runs a program and returns what it prints. Raises CannotBuild if it fails."""
    done = subprocess.run(words, capture_output=True, text=True)
    if done.returncode:
        raise CannotBuild(f"{os.path.basename(words[0])}: {(done.stderr or done.stdout).strip()[-600:]}")
    return done.stdout


def check_module(module: str, archive: str) -> None:
    """Raises CannotBuild unless the archive has just the code that was made from the module."""
    if not os.path.isfile(module):
        raise CannotBuild("the module of the library is missing, which only a build without --keep stores")
    with open(code_of(module), "rb") as made:
        if made.read() != subprocess.run(["ar", "p", archive], capture_output=True).stdout:
            raise CannotBuild("the kept module is not that of the native library")


def text_of(module: str, archive: str, toolchain: str) -> str:
    """Returns the text of the module that an archive is made from. Raises CannotBuild if it is not kept."""
    check_module(module, archive)
    with tempfile.TemporaryDirectory() as room:
        text = os.path.join(room, "module.ll")
        run(clang_of(toolchain), *DISASSEMBLE, module, "-o", text)
        with open(text) as file:
            return file.read()
