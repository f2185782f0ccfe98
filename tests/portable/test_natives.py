"""Tests the libraries for other systems that `make wheels` packs. Those of ARM64 Linux and Windows leave after 2,000
random calls what the native library leaves, and a program prints the same over them; that of ARM64 needs as small a
stack. That of Windows has the calls of the header, and needs what Windows has.
"""
from __future__ import annotations

import os
import re
import shutil
import subprocess
import sys
from collections.abc import Callable
from pathlib import Path

import pytest
from conftest import TOP
from test_install import make_well, require
from test_machines import PROGRAM, SOURCES

sys.path.insert(0, str(TOP / "dev"))
from machine import toolchain  # noqa: E402
from modules import CannotBuild  # noqa: E402
from targets import ARM64_LINUX, WINDOWS, Compiler  # noqa: E402
from webassembly import exports  # noqa: E402

NATIVE = TOP / "build" / "native"
INCLUDE = f"-I{TOP}/crates/mars_c/include"
# Programs over the library, each with its arguments.
CALLS: tuple[list[object], list[str]] = [TOP / "packaging" / "portable" / "check.c", "-O1"], ["2000", "1"]
CONTEST: tuple[list[object], list[str]] = [PROGRAM], SOURCES


@pytest.fixture(scope="module", autouse=True)
def natives() -> None:
    make_well("build/native")


def output(*words: object, **variables: object) -> str:
    """Returns what a program prints, with these variables of its environment besides ours."""
    environment = {**os.environ, **{name: str(value) for name, value in variables.items()}}
    options = {"env": environment, "capture_output": True, "text": True, "check": True, "timeout": 600}
    return str(subprocess.run(list(map(str, words)), **options).stdout)  # type: ignore[call-overload]


def run_here(folder: Path, words: list[object], arguments: list[str]) -> str:
    """Compiles a program with the native library, and returns what it prints."""
    output("gcc", *words, INCLUDE, TOP / "build" / "libmars.a", "-o", folder / "here")
    return output(folder / "here", *arguments)


def run_on_arm64(folder: Path, words: list[object], arguments: list[str]) -> str:
    """Compiles a program with the library of ARM64 Linux, and returns what it prints."""
    require({"aarch64-linux-gnu-gcc": "gcc-aarch64-linux-gnu", "qemu-aarch64-static": "qemu-user-static"})
    library = NATIVE / ARM64_LINUX
    output("aarch64-linux-gnu-gcc", *words, INCLUDE, library / "libmars.so.2", "-o", folder / "there")
    emulator = ["qemu-aarch64-static", "-L", "/usr/aarch64-linux-gnu", "-E", f"LD_LIBRARY_PATH={library}"]
    return output(*emulator, folder / "there", *arguments)


def run_on_windows(folder: Path, words: list[object], arguments: list[str]) -> str:
    """Compiles a program with the library of Windows, and returns what it prints under wine.

    The variables let wine find its libraries where Debian installs them, as while it fills a new folder with 700 MB of
    copies. So it needs no such folder, no services and no display.
    """
    require({"x86_64-w64-mingw32-gcc": "gcc-mingw-w64-x86-64-win32", "wine": "wine"})
    library, prefix = shutil.copy(NATIVE / "win_amd64" / "mars-2.dll", folder), folder / "wine"
    output("x86_64-w64-mingw32-gcc", *words, INCLUDE, library, "-o", folder / "there.exe")
    prefix.mkdir()
    (prefix / ".update-timestamp").write_text("disable")
    variables = {"WINEPREFIX": prefix, "WINEBOOTSTRAPMODE": 1, "WINEDEBUG": "-all"}
    return output("wine", folder / "there.exe", *arguments, **variables)


Runner = Callable[[Path, list[object], list[str]], str]
on_each_system = pytest.mark.parametrize("run_there", [run_on_arm64, run_on_windows])


@on_each_system
def test_calls_agree(tmp_path: Path, run_there: Runner) -> None:
    expected = run_here(tmp_path, *CALLS)
    assert expected.count("\n") == 2000
    assert run_there(tmp_path, *CALLS) == expected


@on_each_system
def test_a_program_prints_the_same(tmp_path: Path, run_there: Runner) -> None:
    """A match, a session of the debugger and a league."""
    expected = run_here(tmp_path, *CONTEST)
    assert "refused 2 Address" in expected
    assert run_there(tmp_path, *CONTEST) == expected


def test_stack_on_arm64(tmp_path: Path) -> None:
    """The calls that execute much leave a third of the 64 KiB that the header promises to be sufficient."""
    source = TOP / "tests" / "library" / "stack.c"
    lines = run_on_arm64(tmp_path, ["-O2", "-pthread", source], []).splitlines()
    used = [int(line.rpartition(" ")[2]) for line in lines]
    assert len(used) == 9 and 30_000 < max(used) <= 40 * 1024, lines


def test_calls_of_windows() -> None:
    listed = output("objdump", "-p", NATIVE / "win_amd64" / "mars-2.dll")
    assert set(re.findall(r"^\t\[ *\d+\] (\w+)$", listed, re.M)) == set(exports())
    assert re.findall(r"DLL Name: (.*)", listed) == ["ucrtbase.dll"]
    assert set(re.findall(r"^\t\w+\t +\d+  (\w+)$", listed, re.M)) == set(WINDOWS)


@pytest.mark.parametrize("triple", ["s390x-linux-gnu", "i686-linux-gnu", "aarch64_be-linux-gnu", "arm-linux-gnueabihf"])
def test_other_layouts_are_refused(tmp_path: Path, triple: str) -> None:
    """The module depends on little-endian order and addresses of 64 bits, which LLVM does not check."""
    with pytest.raises(CannotBuild, match=f"^{triple}: "):
        Compiler(f"{toolchain()}/toolchain", str(tmp_path)).head_of(triple)
