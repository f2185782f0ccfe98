"""Tests dev/checks/run with stubs for its steps: what it counts, and which skipped tests fail.
"""
from __future__ import annotations

import os
import shutil
import subprocess
import tempfile
from typing import Any

import pytest

from counting import TOP

STEPS = [
    "bin/rt",
    "bin/make",
    "dev/library",
    *(f"dev/checks/{name}" for name in ("memory", "documents", "tests", "evaluate", "trust", "rules")),
]


def run_checks(**lines: Any) -> Any:
    """Returns the status and the last lines of dev/checks/run. The steps that are given have this status and print
    these lines; each other step prints that one test has passed.
    """
    with tempfile.TemporaryDirectory() as folder:
        for name in STEPS:
            path, (status, *printed) = os.path.join(folder, name), lines.get(
                os.path.basename(name), (0, "1 passed, 0 failed")
            )
            os.makedirs(os.path.dirname(path), exist_ok=True)
            with open(path, "w") as file:
                file.write("#!/bin/sh\n" + "".join(f"echo '{line}'\n" for line in printed) + f"exit {status}\n")
            os.chmod(path, 0o755)
        shutil.copy(os.path.join(TOP, "dev", "checks", "run"), os.path.join(folder, "dev", "checks"))
        for name in ("machine.py", "setup"):
            shutil.copy(os.path.join(TOP, "dev", name), os.path.join(folder, "dev"))
        environment = {**os.environ, "PATH": os.path.join(folder, "bin") + ":" + os.environ["PATH"]}
        checks = os.path.join(folder, "dev", "checks", "run")
        done = subprocess.run([checks], capture_output=True, text=True, env=environment)
        printed = done.stdout.splitlines()
        return done.returncode, [line for line in printed if line.startswith("FAILED")] + printed[-2:]


ALL = (0, ["0 skipped", "9 passed, 0 failed"])
SKIPPED = "FAILED: skipped: a: it is away, though no package is missing"


@pytest.mark.parametrize(
    "lines, expected",
    [
        ({}, ALL),
        ({"library": (0, "build/libmars.so")}, ALL),
        ({"make": (0, "build/site/app.js: 94 kB gzipped")}, ALL),
        ({"make": (2, "make: no")}, (1, ["FAILED: make site", "0 skipped", "8 passed, 1 failed"])),
        ({"library": (1, "library: no")}, (1, ["FAILED: dev/library", "0 skipped", "8 passed, 1 failed"])),
        ({"memory": (0, "")}, (1, ["FAILED: dev/checks/memory", "0 skipped", "8 passed, 1 failed"])),
        ({"rules": (1, "3 passed, 0 failed")}, (1, ["FAILED: dev/checks/rules", "0 skipped", "11 passed, 1 failed"])),
        (
            {"tests": (0, "skipped: a: it is away (package no-such-package)", "4 passed, 0 failed")},
            (0, ["1 skipped", "12 passed, 0 failed"]),
        ),
        (
            {"tests": (0, "skipped: a: it is away (package sh)", "4 passed, 0 failed")},
            (1, [SKIPPED, "1 skipped", "12 passed, 1 failed"]),
        ),
        (
            {"tests": (0, "skipped: a: it is away", "4 passed, 0 failed")},
            (1, [SKIPPED, "1 skipped", "12 passed, 1 failed"]),
        ),
    ],
)
def test_what_counts(lines: Any, expected: Any) -> None:
    """The counts of the steps are added. A step fails if it counts nothing, if its status contradicts its line, or if
    it skips a test though no package is missing.
    """
    assert run_checks(**lines) == expected
