"""Tests ./mars and dev/prove with a stub for the toolchain: which crates are proved, in which order, the messages,
and the files that are left.
"""
from __future__ import annotations

import json
import os
import shutil
import signal
import stat
import subprocess
import sys
import tempfile
import time
from collections.abc import Iterator
from typing import Any

import pytest

from counting import DEV, TOP

sys.path.insert(0, DEV)
import progress  # noqa: E402

# Replaces rt, rattle and rattle-link. It logs each proof, fails or sleeps at the crates of its environment, and makes
# the files that the next ones expect.
STAND_IN = """#!/usr/bin/env python3
import os
import shutil
import sys
import time
command, words, log = os.path.basename(sys.argv[0]), sys.argv[1:], os.environ["RT_LOG"]
kit = os.path.dirname(os.path.dirname(os.path.abspath(sys.argv[0])))
after = lambda word: words[words.index(word) + 1]

def program(path):
    with open(path, "w") as file:
        file.write('#!/bin/sh\\necho "played $*"\\n')
    os.chmod(path, 0o755)

def make(path, is_rlib):
    os.makedirs(path if is_rlib else os.path.dirname(path), exist_ok=True)
    with open(os.path.join(path, "format") if is_rlib else path, "w") as file:
        file.write("rattle rlib\\nrattle-build 1\\n")

if words == ["doc"]:
    sys.exit(print(kit + "/START-HERE.md"))
if command == "rattle-link":
    sys.exit(program(after("-o")))
name = after("--crate-name") if command == "rattle" else os.path.basename(os.getcwd())
with open(log, "a") as file:
    file.write(" ".join([name, command, *words]) + "\\n")
shutil.copy("../../crates.txt", f"{log}-{name}")
time.sleep(float(os.environ.get("RT_SECONDS", 60)) if name == os.environ["RT_SLEEPS"] else 0)
if name == os.environ.get("RT_CHANGES"):
    open("src/lib.rt", "w").close()
if name == os.environ["RT_FAILS"]:
    sys.exit(print(f"no proof of {name}") or 1)
needed = [word.partition("=")[2] for flag, word in zip(words, words[1:]) if flag in ("--extern", "-L")]
if not all(map(os.path.isdir, needed)):
    sys.exit(f"{name}: {needed} aren't all there")
if command == "rattle":
    make(after("-o"), "--statements" in words)
    print("logic=proved functions=1")
else:
    make("out/incremental/work", False)
    (program if words[0] == "run" else lambda path: None)("out/mars")
"""


# The crates that each crate uses.
Below = dict[str, set[str]]


@pytest.fixture
def folder() -> Iterator[str]:
    with tempfile.TemporaryDirectory() as folder:
        yield folder


@pytest.fixture
def place(folder: str) -> Place:
    return Place(folder)


class Place:
    """A copy of what ./mars reads, with the stub on the path."""

    def __init__(self, folder: str) -> None:
        self.folder, self.log = folder, os.path.join(folder, "log")
        for name in ("mars", "crates.txt", "HANDLES"):
            shutil.copy(os.path.join(TOP, name), folder)
        os.mkdir(os.path.join(folder, "dev"))
        for name in (
            "library",
            "prove",
            "machine.py",
            "modules.py",
            "program.py",
            "progress.py",
            "proving.py",
            "rooms.py",
            "webassembly.py",
        ):
            shutil.copy(os.path.join(TOP, "dev", name), os.path.join(folder, "dev"))
        for crate in dependencies(os.path.join(TOP, "crates.txt"), ""):
            for part in ("src", "specs", "proofs"):
                os.makedirs(os.path.join(folder, "crates", crate, part))
            self.touch(crate)
        include = os.path.join("crates", "mars_c", "include")
        shutil.copytree(os.path.join(TOP, include), os.path.join(folder, include))
        self.tools = os.path.join(folder, "kit", "bin")
        os.makedirs(self.tools)
        os.makedirs(os.path.join(folder, "kit", "toolchain", "bin"))
        for name in ("rt", "rattle", "rattle-link"):
            with open(os.path.join(self.tools, name), "w") as file:
                file.write(STAND_IN)
            os.chmod(file.name, os.stat(file.name).st_mode | stat.S_IXUSR)
        for line in open(os.path.join(TOP, "crates.txt")):
            for library in ("std", *line.partition(":")[2].split()):
                os.makedirs(os.path.join(folder, "kit", "rlibs", f"{library}.rlib"), exist_ok=True)
        with open(os.path.join(folder, "kit", "rlibs", "std.rlib", "format"), "w") as file:
            file.write("rattle-build 1\n")

    def touch(self, crate: str) -> None:
        """Changes a source of the crate."""
        time.sleep(0.01)
        open(os.path.join(self.folder, "crates", crate, "src", "lib.rt"), "w").close()

    def work(self) -> list[str]:
        """Returns the names of the files in the `out` folders of the crates."""
        crates = os.path.join(self.folder, "crates")
        return sorted(
            name
            for crate in os.listdir(crates)
            for _, _, names in os.walk(os.path.join(crates, crate, "out"))
            for name in names
        )

    def leave_out(self, crate: str, library: str) -> None:
        """Removes a library from the line of a crate, which still uses it through others."""
        path = os.path.join(self.folder, "crates.txt")
        lines = [line.replace(f" {library} ", " ") if line.startswith(f"{crate}:") else line for line in open(path)]
        with open(path, "w") as file:
            file.writelines(lines)

    def environment(self, fails: str = "", sleeps: str = "") -> dict[str, str]:
        return {
            **os.environ,
            "PATH": self.tools + ":" + os.environ["PATH"],
            "RT_LOG": self.log,
            "RT_FAILS": fails,
            "RT_SLEEPS": sleeps,
        }

    def run(self, *words: str, script: str = "mars", fails: str = "") -> subprocess.CompletedProcess[str]:
        return subprocess.run(
            [os.path.join(self.folder, script), *words], capture_output=True, text=True, env=self.environment(fails)
        )

    def interrupted(self, sleeps: str) -> tuple[bool, str, str, bool]:
        """Interrupts a start by Ctrl-C during the proof of this crate. Returns whether it fails, its output, the last
        line of its errors, and whether they have a traceback.
        """
        process = subprocess.Popen(
            [os.path.join(self.folder, "mars"), "a.red"],
            stdout=subprocess.PIPE,
            stderr=subprocess.PIPE,
            text=True,
            env=self.environment(sleeps=sleeps),
            start_new_session=True,
            # A background process of a shell ignores the signal.
            preexec_fn=lambda: signal.signal(signal.SIGINT, signal.SIG_DFL),
        )
        while not os.path.exists(f"{self.log}-{sleeps}"):
            time.sleep(0.05)
        time.sleep(0.5)
        os.killpg(process.pid, signal.SIGINT)
        output, errors = process.communicate(timeout=60)
        return process.returncode != 0, output, errors.splitlines()[-1], "Traceback" in errors

    def calls(self) -> list[list[str]]:
        return [line.split() for line in open(self.log)] if os.path.exists(self.log) else []

    def proved(self) -> list[str]:
        return [words[0] for words in self.calls()]

    def rooms(self) -> dict[str, Below]:
        """Returns, for each proved crate, the crates of its room with what each uses."""
        return {name: dependencies(f"{self.log}-{name}") for name in self.proved()}

    def jobs(self) -> dict[str, int]:
        """Returns the number of jobs of each crate."""
        return {words[0]: int(words[words.index("--jobs") + 1]) for words in self.calls()}


def dependencies(path: str, except_for: str = "_tests: staticlib:") -> Below:
    """Returns the crates of the repository that each crate of a crates.txt uses, without crates of tests and libraries
    for C.
    """
    names = {line.split(":")[0] for line in open(os.path.join(TOP, "crates.txt")) if line[0].isalpha()}
    lines = [
        line.split(":")
        for line in open(path)
        if line[0].isalpha() and not any(word in line for word in except_for.split())
    ]
    return {name.split()[0]: set(rest.split()) & names for name, rest in lines}


def is_closed(lines: Below) -> bool:
    """Whether each crate that one of these lines names has a line of its own."""
    return all(below <= lines.keys() for below in lines.values())


def is_in_order(order: list[str], below: Below) -> bool:
    """Returns whether each crate is proved once, and none before those that it uses."""
    return sorted(order) == sorted(below) and all(below[name] <= set(order[: order.index(name)]) for name in order)


def test_first_start(place: Place) -> None:
    done = place.run("-b", "a.red")
    order, below = place.proved(), dependencies(os.path.join(TOP, "crates.txt"))
    assert (done.stdout, done.returncode) == ("played -b a.red\n", 0), "the arguments reach the program"
    assert is_in_order(order, below), "each crate is proved once, after those that it uses"
    assert all(f"mars: proved {name}, " in done.stderr for name in below), "each crate is reported"
    assert f", {len(below)} of {len(below)} (" in done.stderr, "the number of proved crates is reported"
    assert (min(place.jobs().values()) >= 1, place.jobs()["mars"]) == (
        True,
        1,
    ), "each crate has at least one job, and the program has one"
    assert place.work() == ["mars"], "only the program is left"
    place.run("again")
    assert place.proved() == order, "a second start proves nothing"
    place.touch("mars_core_tests")
    done = place.run("again")
    assert (place.proved() == order, done.stdout) == (True, "played again\n"), "a changed test does not cause a build"
    place.touch("mars_match")
    place.run("again")
    assert is_in_order(
        place.proved()[len(order) :], below
    ), "after a change of a source, each crate is proved again, after those that it uses"


def test_failure(place: Place) -> None:
    done = place.run("-b", "a.red", fails="mars_core")
    assert (
        done.returncode == 1
        and "mars: cannot prove mars_core" in done.stderr
        and "no proof of mars_core" in done.stderr
    ), "a failed proof is reported"
    assert ("mars" in place.proved(), done.stdout) == (False, ""), "the program is not built"
    assert "format" in place.work(), "the proofs of other crates are stored"
    before = len(place.proved())
    place.touch("redcode_asm")
    place.run("-b", "a.red")
    assert set(place.proved()[before:]) & {"mars_cell", "redcode_text", "mars_core"} == {
        "mars_core"
    }, "the next start does not prove the proved crates again"
    assert place.work() == ["mars"], "only the program is left"


def test_changes_meanwhile(place: Place) -> None:
    """A source that changes during its proof is proved again, whether that start succeeded or failed."""
    for fails in ("mars_core", ""):
        subprocess.run(
            [os.path.join(place.folder, "mars")],
            env={**place.environment(fails), "RT_CHANGES": "mars_cell"},
            capture_output=True,
        )
        before = len(place.proved())
        place.run("-b", "a.red")
        assert "mars_cell" in place.proved()[before:]
        place.touch("mars_cell")


def test_stopped(place: Place) -> None:
    assert place.interrupted("mars_core") == (
        True,
        "",
        "mars: stopped; the proved crates are stored",
        False,
    ), "Ctrl-C ends a start with one line"
    before = len(place.proved())
    place.run("-b", "a.red")
    assert "mars_cell" not in place.proved()[before:], "a crate that was proved before Ctrl-C is not proved again"


def test_two_starts(place: Place) -> None:
    """A second start waits for the first one, says so, and finds the program built."""
    command = [os.path.join(place.folder, "mars"), "a.red"]
    how: dict[str, Any] = {"stdout": subprocess.PIPE, "stderr": subprocess.PIPE, "text": True}
    first = subprocess.Popen(command, env={**place.environment(), "RT_SLEEPS": "mars_cell", "RT_SECONDS": "2"}, **how)
    while not os.path.exists(f"{place.log}-mars_cell"):
        time.sleep(0.05)
    second = subprocess.run(command, env=place.environment(), **how)
    assert (first.communicate()[0], second.stdout) == ("played a.red\n", "played a.red\n"), "both run the program"
    assert (
        second.stderr == "mars: waiting for another build in this folder to end\n"
    ), "the second one reports why it waits"
    assert len(place.proved()) == len({*place.proved()}), "each crate is proved once"


def test_stored_work(place: Place) -> None:
    """With --keep, and if files of such a run are left, `rt` proves each crate in a room, and its files are stored."""
    place.leave_out("mars_match", "redcode_text")
    done = place.run("--keep", script="dev/prove")
    assert (done.returncode, {words[1] for words in place.calls()}) == (0, {"rt"}), "rt proves each crate"
    assert all(
        name in room and is_closed(room) for name, room in place.rooms().items()
    ), "each room has all crates that its crate uses, directly or through others"
    assert len({*place.jobs().values()}) == 1, "each crate has all jobs"
    left = place.work()
    assert (left.count("mars"), left.count("work")) == (
        1,
        len(place.proved()),
    ), "the program and the files of each crate are stored"
    place.touch("mars_cell")
    place.run("-b", "a.red")
    assert ({words[1] for words in place.calls()}, place.work()) == (
        {"rt"},
        left,
    ), "the next start uses the stored files and stores them again"
    count = len(place.proved())
    place.touch("mars_core_tests")
    place.run("-b", "a.red")
    assert len(place.proved()) == count, "a program that is newer than its sources is not built again"
    place.run("--library", script="dev/prove")
    assert "mars" not in place.proved()[count:], "the library does not cause a build of the program"
    link = os.path.join(place.folder, "linked")
    os.symlink(os.path.join(place.folder, "mars"), link)
    assert (
        subprocess.run([link, "x"], capture_output=True, text=True).stdout == "played x\n"
    ), "a link to ./mars runs the program"


def test_terminal(place: Place) -> None:
    """A start writes to a terminal its expected time, a line that it overwrites, and the time that it took."""
    mine, theirs = os.openpty()
    subprocess.run(
        [os.path.join(place.folder, "mars")], env=place.environment(), stdout=subprocess.DEVNULL, stderr=theirs
    )
    lines = os.read(mine, 100_000).decode().split("\r\n")
    first, last = lines[0], lines[-2]
    assert (
        "the program is proved before it is built: 8 crates, 11 to 23 minutes on four processors" in first
    ), "the first line has the expected time"
    assert last.rpartition("\r\033[K")[2].startswith(
        "mars: proved 8 crates in 0 min "
    ), "the last line has the time that it took"
    assert (len(lines), lines[-1]) == (3, ""), "there is no other line"
    with open(os.path.join(place.folder, "out", "last-start.json")) as file:
        assert list(json.load(file))[-1] == "mars", "the times are stored for the next start"
    environment = {**place.environment(), "PATH": "/usr/bin:/bin"}
    place.touch("mars")
    done = subprocess.run([os.path.join(place.folder, "mars")], env=environment, capture_output=True, text=True)
    assert (done.returncode, "`rt`" in done.stderr, "make packages" in done.stderr) == (
        1,
        True,
        True,
    ), "without the toolchain, the message names the packages"


def test_progress(folder: str, monkeypatch: pytest.MonkeyPatch) -> None:
    """The remaining time is estimated from the last build, and a build without a terminal prints lines."""
    path = os.path.join(folder, "last-start.json")
    unknown = progress.Estimate(path, ["a", "b", "c"], 600)
    assert [unknown.left({}, 0), unknown.left({"a": 50}, 100)] == [
        600,
        500,
    ], "without a last start, the default time is expected"
    unknown.keep({"a": 100, "b": 200, "c": 400})
    known = progress.Estimate(path, ["a", "b", "c"], 600)
    assert [known.left({}, 50), known.left({"a": 100}, 150)] == [350, 250], "a build of the same speed as the last one"
    assert [known.left({"a": 50}, 50), known.left({"a": 200}, 200), known.left({}, 200)] == [
        150,
        600,
        600,
    ], "a faster and a slower build"
    assert progress.Estimate(path, ["a", "d"], 600).due == {"d": 600}, "a crate without a time of the last start"
    lines: list[str] = []
    monkeypatch.setattr(progress, "SILENCE", 0)
    monkeypatch.setattr(progress.Progress, "print_line", lambda _, line: lines.append(line))
    one = progress.Progress(2)
    one.is_terminal = False
    one.add("a")
    one.update(["b", "c"])
    assert lines == [
        "mars: proved a, 1 of 2 (0 min 0 s)",
        "mars: 1 of 2 crates proved in 0 min 0 s; proving b and c",
    ], "a line for each crate, and a line for those under way"


def test_library(place: Place) -> None:
    """The library for C is proved in the same run as the program, and again if a source is newer than its archive."""
    below = {**dependencies(os.path.join(TOP, "crates.txt"), "_tests:"), "mars": {"mars_app"}}
    done = place.run(script="dev/library")
    assert is_in_order(place.proved(), below), "the library and the program are proved in one run"
    assert place.jobs()["mars"] == 1, "the program has one job"
    assert place.work() == ["libmars_c.a", "mars"], "the archive and the program are left"
    assert (done.returncode, done.stderr.splitlines()[-1].partition(":")[0]) == (
        1,
        "library",
    ), "the stub's archive is reported as an error"
    count = len(place.proved())
    place.run(script="dev/library")
    place.run("b.red")
    assert len(place.proved()) == count, "nothing is proved again"
    place.touch("mars_c")
    place.run(script="dev/library")
    assert "mars_c" in place.proved()[count:], "an archive that is older than its source is built again"
    assert "mars" not in place.proved()[count:], "the program is not built again"


def test_after_rt_ci(place: Place) -> None:
    """The files that `rt ci` leaves are used if they are newer than the sources, so that only the program and the
    library are proved.
    """
    environment = {**place.environment(), "RT_LOG": os.path.join(place.folder, "of-rt-ci")}
    for crate in ("mars_cell", "redcode_text", "redcode_asm", "mars_core", "mars_session", "mars_match", "mars_app"):
        target = os.path.join("out", "rlib", f"{crate}.rlib")
        subprocess.run(
            ["rattle", "--crate-name", crate, "--statements", "-o", target],
            cwd=os.path.join(place.folder, "crates", crate),
            env=environment,
            stdout=subprocess.DEVNULL,
        )
    place.run("--library", script="dev/prove")
    assert sorted(place.proved()) == ["mars", "mars_c"]
    assert place.work().count("format") == 7, "the files of the crates are left"
    place.touch("mars_match")
    place.run("--library", script="dev/prove")
    assert sorted(place.proved()[2:]) == [
        "mars",
        "mars_app",
        "mars_c",
        "mars_match",
    ], "after a change, the crate and those that use it are proved"
