"""Tests dev/try: what it passes to a stub for `rt`, and once with the toolchain that the unproved run has the
output of the program.
"""
from __future__ import annotations

import os
import subprocess
from pathlib import Path

from counting import DEV, PROGRAM, TOP

STAND_IN = """#!/bin/sh
[ "$1" != doc ] || { echo /kit/START-HERE.md; exit 0; }
printf '%s\\n' "$PWD" "$@"
exit 3
"""
WORDS = ["-b", "-r", "10", "examples/dwarf.red", "examples/imp.red"]


def tried(folder: str, *words: str) -> tuple[int, list[str], str]:
    """Returns the status, the arguments of `rt`, and the messages."""
    done = subprocess.run(
        [os.path.join(DEV, "try"), *words],
        cwd=folder,
        capture_output=True,
        text=True,
        env={**os.environ, "PATH": f"{folder}:{os.environ['PATH']}"},
    )
    return done.returncode, done.stdout.split("\n")[:-1], done.stderr


def test_words(tmp_path: Path) -> None:
    """Files that exist are passed as data, under names that are no paths; `rt` has to be on the path."""
    folder = os.path.realpath(tmp_path)
    with open(os.path.join(folder, "rt"), "w") as file:
        file.write(STAND_IN)
    os.chmod(file.name, 0o755)
    for name in ("a.red", "more/a.red", "x=y.red", "stdin"):
        os.makedirs(os.path.dirname(os.path.join(folder, name)), exist_ok=True)
        open(os.path.join(folder, name), "w").close()
    status, words, errors = tried(folder, "-b", "more/a.red", "x=y.red", "stdin", "none.red", "more/a.red")
    assert words[0] == os.path.join(TOP, "crates", "mars")
    data = [
        part
        for name, path in (("a.red", "more/a.red"), ("file-x=y.red", "x=y.red"), ("file-stdin", "stdin"))
        for part in ("--data", f"{name}={folder}/{path}")
    ]
    assert words[1:] == ["try", *data, "--", "-b", "a.red", "file-x=y.red", "file-stdin", "none.red", "a.red"]
    assert status == 3
    assert errors.startswith("try: this runs the program unproved")
    assert tried(folder, "a.red", "more/a.red") == (
        1,
        [],
        "try: two files have the name a.red; rename one of them\n",
    )
    assert (tried(folder)[0], tried(folder, "--help")[0]) == (2, 0)
    os.remove(os.path.join(folder, "rt"))
    done = subprocess.run(
        [os.path.join(DEV, "try"), "a.red"],
        cwd=folder,
        capture_output=True,
        text=True,
        env={**os.environ, "PATH": "/usr/bin:/bin"},
    )
    assert (done.returncode, done.stderr) == (1, "try: cannot find `rt` of the Rattle toolchain on the path\n")


def test_run() -> None:
    """The match of the README, unproved and proved."""
    # Other tests run at the same time, perhaps on a machine with two processors.
    patient = {**os.environ, "RT_SECONDS": "600"}
    unproved, proved = (
        subprocess.run([program, *WORDS], cwd=TOP, capture_output=True, text=True, env=patient)
        for program in (os.path.join(DEV, "try"), PROGRAM)
    )
    assert (unproved.returncode, unproved.stdout) == (0, proved.stdout)
    assert unproved.stderr.endswith(" proved=no\n")
