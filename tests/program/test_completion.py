"""Tests the completion of the program's arguments: it has each option and no other, and bash offers the right words.
"""
from __future__ import annotations

import os
import re
import shutil
import subprocess
import sys
from pathlib import Path

import pytest
from counting import PROGRAM, TOP, skip

# Prints what bash offers for the last of these words.
OFFER = """source "$0"; COMP_WORDS=(mars "$@"); COMP_CWORD=$#; _mars; printf '%s\\n' "${COMPREPLY[@]}" """


@pytest.fixture(scope="module")
def made(tmp_path_factory: pytest.TempPathFactory) -> Path:
    """The folder with the completion, as it is installed."""
    folder = tmp_path_factory.mktemp("completion")
    subprocess.run([sys.executable, os.path.join(TOP, "packaging", "mars.py"), PROGRAM, folder, folder], check=True)
    return folder


def words_of_the_program() -> set[str]:
    help_text = subprocess.run([PROGRAM, "--help"], capture_output=True, text=True).stdout
    return set(re.findall(r"^ {2,6}(--?[\w-]+)", help_text, re.M))


def offered(made: Path, folder: str, *words: str) -> tuple[list[str], str]:
    done = subprocess.run(["bash", "-c", OFFER, made / "mars.bash", *words], cwd=folder, capture_output=True, text=True)
    return sorted(done.stdout.split()), done.stderr


def test_zsh(made: Path) -> None:
    zsh = (made / "_mars").read_text()
    assert sorted(re.findall(r"^    '(--?[\w-]+)\[", zsh, re.M)) == sorted(words_of_the_program())
    if not shutil.which("zsh"):
        skip("the completion by zsh", "there is no zsh", "zsh")
    assert subprocess.run(["zsh", "-n", str(made / "_mars")]).returncode == 0


def test_bash(made: Path, tmp_path: Path) -> None:
    folder = str(tmp_path)
    for name in ("imp.red", "imp.load", "notes.txt"):
        open(os.path.join(folder, name), "w").close()
    os.mkdir(os.path.join(folder, "more"))
    assert offered(made, folder, "") == (["imp.load", "imp.red", "more"], "")
    assert offered(made, folder, "-b", "--re") == (["--read-limit"], "")
    assert offered(made, folder, "-s", "") == ([], "")
    assert offered(made, folder, "-")[0] == sorted(words_of_the_program())
