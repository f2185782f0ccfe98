"""What tests of the package share: the command as a process, and the examples."""
from __future__ import annotations

import os
import signal
import subprocess
import sys
from collections.abc import Callable
from pathlib import Path
from typing import Any

import pytest
from hypothesis import settings

# CI tries the same examples each time; `--hypothesis-profile=wide` tries others, and more of them.
settings.register_profile("ci", deadline=None, derandomize=True)
settings.register_profile("wide", deadline=None, max_examples=3000)
settings.load_profile("ci")

# Processes of tests receive Ctrl-C, even if a shell runs the tests in the background, where it makes them ignore
# Ctrl-C.
signal.signal(signal.SIGINT, signal.default_int_handler)

TOP = Path(__file__).resolve().parents[1]
EXAMPLES = TOP / "examples"
sys.path[:0] = [str(TOP / "python"), str(TOP / "tests")]

# The command, as its script starts it.
COMMAND = [sys.executable, "-P", str(TOP / "python" / "corewar" / "__main__.py")]
ENVIRONMENT = {**os.environ, "PYTHONPATH": str(TOP / "python"), "PYTHONUNBUFFERED": "1"}
Run = Callable[..., "subprocess.CompletedProcess[str]"]


class StartedCommand(subprocess.Popen[str]):
    """A command whose `with` does not wait for it if the test has failed."""

    def __exit__(self, *failure: Any) -> None:
        if failure[0]:
            self.kill()
        super().__exit__(*failure)


def begin(*words: object, **how: Any) -> StartedCommand:
    """Starts `corewar` with arguments, and does not wait for it."""
    options: dict[str, Any] = {"env": ENVIRONMENT, "stdout": subprocess.PIPE, "stderr": subprocess.PIPE, "text": True}
    return StartedCommand([*COMMAND, *map(str, words)], **{**options, **how})


@pytest.fixture
def run(tmp_path: Path) -> Run:
    """Runs `corewar` with arguments in a new folder; `input` is its standard input. `@dwarf` is a file of examples/."""

    def started(*words: object, input: str | bytes = "", **how: object) -> subprocess.CompletedProcess[str]:
        named = [str(EXAMPLES / f"{str(word)[1:]}.red") if str(word).startswith("@") else str(word) for word in words]
        environment = {**ENVIRONMENT, "NO_COLOR": "1", "XDG_STATE_HOME": str(tmp_path / "state")}
        data = input.encode() if isinstance(input, str) else input
        options = {"cwd": tmp_path, "env": environment, "capture_output": True, "timeout": 300, **how}
        done: Any = subprocess.run([*COMMAND, *named], input=data, **options)  # type: ignore[call-overload]
        text = [part.decode(errors="replace") if part is not None else "" for part in (done.stdout, done.stderr)]
        return subprocess.CompletedProcess(done.args, done.returncode, *text)

    return started


@pytest.fixture(scope="session")
def pmars() -> Path:
    """Returns the path of pMARS, which is built first if it is missing."""
    from peer import build_pmars

    return build_pmars()
