"""What tests of the program and of the library share: the path of the program, and how tests are skipped."""
from __future__ import annotations

import os
from pathlib import Path
from typing import NoReturn

import pytest

TOP = str(Path(__file__).resolve().parents[1])
DEV = os.path.join(TOP, "dev")
# The program that `./mars` or CI has built, or the one that MARS names.
PROGRAM = os.path.abspath(os.environ.get("MARS") or f"{TOP}/crates/mars/out/mars")


def skip(name: str, why: str, package: str | None = None) -> NoReturn:
    """Skips a test that can't run on this machine, and names the Debian package that it requires."""
    pytest.skip(f"{name}: {why}" + (f" (package {package})" if package else ""))
