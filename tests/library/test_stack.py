"""A stack of 64 KiB is sufficient for each call of the library for C, and no measured call uses more than 40 KiB."""
from __future__ import annotations

import shutil
import subprocess
from pathlib import Path

from counting import TOP, skip

MEASURED = 40 * 1024


def test_stack(tmp_path: Path) -> None:
    if not shutil.which("gcc"):
        skip("the stack of the library", "there is no gcc", "gcc")
    text, program = str(Path(__file__).with_name("stack.c")), str(tmp_path / "stack")
    include = f"-I{TOP}/crates/mars_c/include"
    words = ["gcc", "-O2", "-Wall", "-Wextra", "-Werror", "-pthread", include, text, "-o", program]
    subprocess.run([*words, f"{TOP}/build/libmars.a"], check=True)
    lines = subprocess.run([program], stdout=subprocess.PIPE, text=True, check=True).stdout.splitlines()
    used = {call: int(size) for call, size in (line.rsplit(" ", 1) for line in lines)}
    assert len(used) == 9 and max(used.values()) <= MEASURED, used
    # Battles in lanes use the most: the measure reaches them.
    assert used["mars_match"] > 30_000, used
