"""Compiles the library as C for several machines, and compares what 2,000 random calls leave there with what the proved
library leaves; and what a program prints there with what it prints over the proved library.

All are compiled from the archive of `make portable`, by its own makefile, two at a time: together they take six
minutes of a processor.
"""
from __future__ import annotations

import shutil
import subprocess
from collections.abc import Iterator
from concurrent.futures import Future, ThreadPoolExecutor
from dataclasses import dataclass
from pathlib import Path

import corewar
import pytest
from conftest import EXAMPLES, TOP
from counting import skip
from test_install import make_well

NAME = f"libmars-{corewar.__version__}"
# The stack that its README promises.
STACK = 256 * 1024
# A program over the library, and its arguments.
PROGRAM = Path(__file__).with_name("contest.c")
SOURCES = [str(EXAMPLES / f"{name}.red") for name in ("dwarf", "imp", "silk", "paper", "scanner")]
Done = subprocess.CompletedProcess[str]


@dataclass(frozen=True)
class Machine:
    """A compiler with its options, what runs a program for it, and the Debian packages that have both."""

    compiler: str
    run: str
    packages: str

    def missing(self) -> str | None:
        """Returns the package of a command that is missing."""
        commands = (self.compiler.split()[0], self.run.split()[0])
        return next((one for name, one in zip(commands, self.packages.split()) if not shutil.which(name)), None)

    def check(self, folder: Path) -> Done:
        # The tests beside it that wait for a browser come first, and may take half an hour.
        words = ["nice", "-n", "19", "make", "check", f"CC={self.compiler}", "CFLAGS=-O1", f"RUN={self.run}"]
        return subprocess.run(words, cwd=folder, capture_output=True, text=True, timeout=3600)

    def contest(self, library: Path) -> str:
        """Returns what the program prints over a library, whose header is beside it or in the checkout."""
        program = library.parent / "contest"
        include = f"-I{TOP}/crates/mars_c/include"
        words = [*self.compiler.split(), f"-I{library.parent}", include, str(PROGRAM), str(library)]
        subprocess.run([*words, "-o", str(program)], check=True)
        done = subprocess.run([*self.run.split(), str(program), *SOURCES], capture_output=True, text=True, check=True)
        return done.stdout


# The slowest first.
MACHINES = {
    "s390x": Machine("s390x-linux-gnu-gcc -static", "qemu-s390x-static", "gcc-s390x-linux-gnu qemu-user-static"),
    "clang": Machine("clang", f"prlimit --stack={STACK}", "clang util-linux"),
    "arm64": Machine("aarch64-linux-gnu-gcc -static", "qemu-aarch64-static", "gcc-aarch64-linux-gnu qemu-user-static"),
    "gcc": Machine("gcc", f"prlimit --stack={STACK}", "gcc util-linux"),
}


@pytest.fixture(scope="module")
def folder(tmp_path_factory: pytest.TempPathFactory) -> Path:
    return tmp_path_factory.mktemp("machines")


@pytest.fixture(scope="module")
def checks(folder: Path) -> Iterator[dict[str, Future[Done]]]:
    """What the checks of the machines print, which are compiled two at a time."""
    make_well("portable")
    shutil.unpack_archive(TOP / "build" / f"{NAME}.tar.gz", folder)
    with ThreadPoolExecutor(2) as pool:
        yield {
            name: pool.submit(machine.check, shutil.copytree(folder / NAME, folder / name))
            for name, machine in MACHINES.items()
            if not machine.missing()
        }


def skip_missing(name: str) -> None:
    missing = MACHINES[name].missing()
    if missing:
        skip(f"the library as C on {name}", "a compiler or an emulator is missing", missing)


@pytest.mark.parametrize("name", MACHINES)
def test_calls_agree(name: str, checks: dict[str, Future[Done]]) -> None:
    skip_missing(name)
    done = checks[name].result()
    assert (done.returncode, done.stdout.split("\n")[-2:]) == (0, ["2000 calls agree", ""]), done.stderr


@pytest.mark.parametrize("name", ["clang", "arm64", "gcc"])
def test_a_program_prints_the_same(name: str, checks: dict[str, Future[Done]], folder: Path, tmp_path: Path) -> None:
    """A match, a session of the debugger and a league."""
    skip_missing(name)
    checks[name].result()
    proved = MACHINES["gcc"].contest(Path(shutil.copy(TOP / "build" / "libmars.a", tmp_path)))
    assert MACHINES[name].contest(folder / name / "libmars.a") == proved
    assert "refused 2 Address" in proved and proved.count("points") == 7
