"""Proves crates in one of two ways: from scratch, given the statements of the crates below, or with stored work."""
from __future__ import annotations

import os
import re
import shutil
import subprocess
import tempfile
from collections.abc import Iterable

from machine import free_memory, max_parallel, toolchain
from modules import keeping_toolchain
from program import BUILT as PROGRAM_FILE, CRATE, TOP
from rooms import all_below, crate_lines, make_room

# The lines of crates.txt of the program and of the library for C, and the files that are built from them.
PROGRAM, LIBRARY = CRATE, "mars_c staticlib"
ARCHIVE = os.path.join(TOP, "crates", "mars_c", "out", "libmars_c.a")
# The module that the archive is compiled from.
MODULE = os.path.join(TOP, "crates", "mars_c", "out", "module.bc")
BUILT = {PROGRAM: PROGRAM_FILE, LIBRARY: ARCHIVE}
# Marks the statements of a crate that come from a build that was stopped or is still running.
MARK = "of-a-first-start"
# The memory that each job needs, in parallel with other crates, in bytes.
MEMORY_OF_A_JOB = 2_500_000_000


class NotProved(Exception):
    """A crate could not be proved; `output` is that of the prover."""

    def __init__(self, name: str, output: str) -> None:
        super().__init__(f"cannot prove {crate_of(name)}")
        self.output = output


def crate_of(name: str) -> str:
    return name.split()[0]


def lines_of(*built: str) -> dict[str, list[str]]:
    """Returns the lines of crates.txt for what is built and for everything that it uses, without crates of tests."""
    lines = crate_lines()
    wanted = {*built, *(name for one in built for name in all_below(one, lines))}
    return {name: lines[name] for name in lines if name in wanted}


def folder_of(name: str) -> str:
    return os.path.join(TOP, "crates", crate_of(name))


def output_of(name: str) -> str:
    """Returns the path of the result of proving a crate: the file that is built from it, or its statements."""
    return BUILT.get(name) or os.path.join(folder_of(name), "out", "rlib", f"{name}.rlib")


def has_work(name: str) -> bool:
    """Returns whether there is stored work for later checks."""
    return os.path.isdir(os.path.join(folder_of(name), "out", "incremental"))


def time_of(path: str) -> float | None:
    """Returns when a file or a folder of statements was written, or None if there is none. For statements with a mark,
    returns when their proof began, so that a source that was changed during the proof is newer.
    """
    if not os.path.isdir(path):
        return os.stat(path).st_mtime if os.path.exists(path) else None
    written, mark = os.path.join(path, "format"), os.path.join(os.path.dirname(path), MARK)
    if not os.path.exists(written):
        return None
    return os.stat(mark if os.path.exists(mark) else written).st_mtime


def is_newer(output: str, names: Iterable[str]) -> bool:
    """Returns whether a result is newer than all sources of these crates."""
    when = time_of(output)
    folders = [os.path.join(folder_of(name), part) for name in names for part in ("src", "specs", "proofs")]
    files = [os.path.join(here, file) for folder in folders for here, _, found in os.walk(folder) for file in found]
    return when is not None and all((time_of(path) or 0) < when for path in (os.path.join(TOP, "crates.txt"), *files))


def up_to_date(lines: dict[str, list[str]]) -> set[str]:
    """Returns which of the program and the archive are newer than all their sources."""
    return {name for name in BUILT.keys() & lines.keys() if is_newer(BUILT[name], [name, *all_below(name, lines)])}


def builder_of(library: str) -> str | None:
    """Returns the line of a folder of statements that names the build of the prover that wrote it, or None."""
    with open(os.path.join(library, "format"), errors="replace") as file:
        return next((line for line in file if line.startswith("rattle-build ")), None)


def run(words: list[str], name: str, folder: str) -> str:
    """Runs a command in a folder and returns its output. Raises NotProved if it fails."""
    done = subprocess.run(
        words, cwd=folder, stdout=subprocess.PIPE, stderr=subprocess.STDOUT, text=True, errors="replace"
    )
    if done.returncode:
        raise NotProved(name, done.stdout)
    return done.stdout


class FromScratch:
    """Proves each crate from scratch, given the statements of those below it, as `rt ci` does, and leaves its
    statements in the same place.
    """

    def __init__(self, lines: dict[str, list[str]]) -> None:
        self.lines, self.kit, self.max_jobs = lines, toolchain(), max_parallel(MEMORY_OF_A_JOB)
        self.memory = free_memory()

    def jobs(self, at_once: int) -> int:
        """Returns the number of jobs of each of `at_once` crates: one for each processor, if there is memory for that.
        With fewer jobs, processors would be idle when one crate is proved and the others continue.
        """
        return max(1, min(self.max_jobs, self.memory // (at_once * MEMORY_OF_A_JOB)))

    def proved(self) -> set[str]:
        """Returns the crates that need not be proved: those that are unchanged since the program or the archive was
        built, or since they were proved in this way.
        """
        found = up_to_date(self.lines)
        for name in self.lines:
            output, below = output_of(name), [one for one in self.lines[name] if one in self.lines]
            if (
                name not in BUILT
                and found.issuperset(below)
                and self.has_statements(name)
                and all((time_of(output_of(one)) or 0) <= (time_of(output) or 0) for one in below)
            ):
                found.add(name)
        return found

    def has_statements(self, name: str) -> bool:
        """Returns whether the statements of a crate are newer than its sources, and written by this prover in this
        way.
        """
        output = output_of(name)
        is_whole = os.path.exists(os.path.join(os.path.dirname(output), "stamp"))
        return (
            is_newer(output, [name]) and not is_whole and builder_of(output) == builder_of(f"{self.kit}/rlibs/std.rlib")
        )

    def prove(self, name: str, jobs: int) -> None:
        """Proves a crate in `jobs` jobs. The program is proved in one job, since every other job would read the
        statements of all crates again.
        """
        output = output_of(name)
        if name not in BUILT:
            shutil.rmtree(os.path.dirname(output), ignore_errors=True)
            os.makedirs(os.path.dirname(output))
            open(os.path.join(os.path.dirname(output), MARK), "w").close()
            self.build(name, ["--jobs", str(jobs), "--statements", "-o", output])
            return
        os.makedirs(os.path.dirname(output), exist_ok=True)
        tools = f"{self.kit}/toolchain"
        if name == LIBRARY:
            # The clang that keeps the module replaces only a smaller one, and an older module may be larger.
            if os.path.exists(MODULE):
                os.remove(MODULE)
            with tempfile.TemporaryDirectory() as room:
                keeping = keeping_toolchain(tools, os.path.join(room, "toolchain"), MODULE)
                self.build(
                    name, ["--toolchain", keeping, "--jobs", str(jobs), "--crate-type", "staticlib", "-o", output]
                )
        else:
            self.build(name, ["--toolchain", tools, "--jobs", "1", "-o", f"{output}.o"])
            self.link(f"{output}.o", output)

    def build(self, name: str, words: list[str]) -> None:
        """Calls the prover to check a crate and build something from it."""
        crate, root = crate_of(name), "src/main.rt" if name == PROGRAM else "src/lib.rt"
        command = [f"{self.kit}/bin/rattle", "build", "--crate-name", crate, root]
        for library in ["std", *self.lines[name]]:
            output = output_of(library) if library in self.lines else f"{self.kit}/rlibs/{library}.rlib"
            command += ["--extern", f"{library}={output}"]
        below = [os.path.dirname(output_of(one)) for one in sorted(all_below(name, self.lines))]
        for folder in [f"{self.kit}/rlibs", *below]:
            command += ["-L", f"dependency={folder}"]
        command += ["--links", f"{crate}=", "--antt-project", f"{self.kit}/rattle/logic/antt-project.json"]
        command += ["--logic-built", f"{self.kit}/logic_built"]
        text = run([*command, *words], name, folder_of(name))
        if not re.search(r"^logic=proved ", text, re.M):
            raise NotProved(name, text)

    def link(self, compiled: str, program: str) -> None:
        """Links the program and replaces an older one, which may be running."""
        command = [f"{self.kit}/bin/rattle-link", "--target", "x86_64-unknown-linux-gnu"]
        command += ["--toolchain", f"{self.kit}/toolchain", "-o", f"{program}.new", compiled]
        run([*command, f"{self.kit}/c/libos_c.a", f"{self.kit}/c/liblibc_c.a"], PROGRAM, TOP)
        os.replace(f"{program}.new", program)
        os.remove(compiled)

    def tidy(self) -> None:
        """Removes what a build has left of the crates, except the built files."""
        for folder in (os.path.dirname(output_of(name)) for name in self.lines if name not in BUILT):
            if os.path.exists(os.path.join(folder, MARK)):
                shutil.rmtree(folder)


class WithStoredWork:
    """Proves crates with `rt lib` and `rt run`, which store work for later checks. `rt` runs one check at a time in a
    crate and in those below it, so each is proved in a room of its own with links to them; the results are moved out of
    there."""

    def __init__(self, lines: dict[str, list[str]], rooms: str) -> None:
        self.lines, self.rooms, self.max_jobs = lines, rooms, max_parallel(MEMORY_OF_A_JOB)

    def jobs(self, _at_once: int) -> int:
        """Returns all jobs for each crate, since a check begins and ends with one busy job and leaves the others to
        other crates.
        """
        return self.max_jobs

    def proved(self) -> set[str]:
        """Returns the results, program or archive, that need not be built again, since they are newer than all sources
        and all work is stored. Of the other crates, `rt` itself finds those that have changed.
        """
        return {name for name in up_to_date(self.lines) if all(map(has_work, (name, *all_below(name, self.lines))))}

    def prove(self, name: str, jobs: int) -> None:
        """Proves a crate in `jobs` jobs, with those below it, and stores the results."""
        room = os.path.join(self.rooms, crate_of(name))
        wanted = {name, *all_below(name, self.lines)}
        make_room(room, {one: self.lines[one] for one in self.lines if one in wanted})
        words = ["run", "--jobs", str(jobs), "--", "--help"] if name == PROGRAM else ["lib", "--jobs", str(jobs)]
        crate, kept = os.path.join(room, "crates", crate_of(name)), os.path.join(folder_of(name), "out")
        try:
            run(["rt", *words], name, crate)
        finally:
            if os.path.isdir(os.path.join(crate, "out")):
                shutil.rmtree(kept, ignore_errors=True)
                os.rename(os.path.join(crate, "out"), kept)

    def tidy(self) -> None:
        """Leaves everything, since later checks use it."""
