"""league and challenge on a Dask cluster whose workers come and go: a scheduler and workers on this machine."""
from __future__ import annotations

import json
import os
import re
import shutil
import signal
import subprocess
import sys
import time
from collections.abc import Callable, Iterator
from pathlib import Path
from typing import Any

import pytest
from conftest import ENVIRONMENT, EXAMPLES, TOP, Run, begin

pytest.importorskip("distributed", reason="package python3-distributed")

FILES = sorted(path.name for path in EXAMPLES.glob("*.red"))[:8]
ABSENT = "corewar: the scheduler has no workers; waiting for one\n"
# The number of rounds of a league of FILES that takes a worker some seconds.
LONG = 400
Start = Callable[..., "subprocess.Popen[bytes]"]


def wait_for(condition: Callable[[], Any]) -> None:
    end = time.monotonic() + 60
    while not condition() and time.monotonic() < end:
        time.sleep(0.05)


@pytest.fixture
def start(tmp_path: Path) -> Iterator[Start]:
    """Starts a part of a cluster, which ends with the test. A worker has the package if its path leads to it."""
    started: list[subprocess.Popen[bytes]] = []

    def start_part(*words: str, path: str = str(TOP / "python")) -> subprocess.Popen[bytes]:
        command = [sys.executable, "-m", "dask", *words, "--host", "127.0.0.1", "--no-dashboard"]
        environment = {**os.environ, "PYTHONPATH": path}
        process = subprocess.Popen(
            command, cwd=tmp_path, env=environment, stdout=subprocess.DEVNULL, stderr=subprocess.DEVNULL
        )
        started.append(process)
        return process

    yield start_part
    for process in started:
        process.kill()
        process.wait()


@pytest.fixture
def scheduler(start: Start, tmp_path: Path) -> tuple[str, subprocess.Popen[bytes]]:
    """Starts a scheduler, and returns its address and its process."""
    file = tmp_path / "scheduler.json"
    process = start("scheduler", "--port", "0", "--scheduler-file", str(file))
    wait_for(lambda: file.exists() and file.stat().st_size)
    return json.loads(file.read_text())["address"], process


def worker(start: Start, address: str, **how: str) -> subprocess.Popen[bytes]:
    return start("worker", address, "--no-nanny", "--nthreads", "1", **how)


def start_league(*words: object) -> subprocess.Popen[str]:
    """Starts a league of the examples."""
    return begin("league", *words, *FILES, cwd=EXAMPLES)


def test_tables_are_the_same(run: Run, start: Start, scheduler: tuple[str, Any]) -> None:
    worker(start, scheduler[0])
    for command in ("league", "challenge"):
        words = [command, "-r", 3, *FILES]
        here, there = run(*words, cwd=EXAMPLES), run(*words, "--scheduler", scheduler[0], cwd=EXAMPLES)
        # The command may be there before its worker.
        assert (there.stdout, there.stderr.removeprefix(ABSENT)) == (here.stdout, "")
    done = run("league", "--scheduler", scheduler[0], "--score", "1/(S-1)", *FILES, cwd=EXAMPLES)
    assert done.returncode == 1 and "corewar: score 3 DivideByZero" in done.stderr


def test_a_worker_dies_and_another_comes(start: Start, scheduler: tuple[str, Any], tmp_path: Path, run: Run) -> None:
    first = worker(start, scheduler[0])
    process = start_league("-r", LONG, "--scheduler", scheduler[0], "--results", tmp_path / "kept.sqlite")
    wait_for(lambda: (tmp_path / "kept.sqlite").exists())
    time.sleep(2)
    first.kill()
    assert process.stderr is not None
    read = process.stderr.readline
    wait_for(lambda: read() == ABSENT)
    worker(start, scheduler[0])
    output, _ = process.communicate(timeout=240)
    assert output == run("league", "-r", LONG, *FILES, cwd=EXAMPLES).stdout


def test_ends(start: Start, scheduler: tuple[str, Any]) -> None:
    """Ctrl-C and the end of a scheduler are each reported in a line."""
    worker(start, scheduler[0])
    for status in (130, 1):
        process = start_league("-r", LONG, "--scheduler", scheduler[0])
        time.sleep(4)
        (process if status == 130 else scheduler[1]).send_signal(signal.SIGINT if status == 130 else signal.SIGKILL)
        output, errors = process.communicate(timeout=120)
        assert (process.returncode, output, errors.removeprefix(ABSENT).strip().count("\n")) == (status, "", 0)


def test_a_worker_without_the_package(run: Run, start: Start, scheduler: tuple[str, Any]) -> None:
    worker(start, scheduler[0], path="")
    done = run("league", "--scheduler", scheduler[0], *FILES, cwd=EXAMPLES)
    assert done.returncode == 1
    assert (
        done.stderr.removeprefix(ABSENT)
        == "corewar: this package is not installed on a worker: No module named 'corewar'\n"
    )


def test_a_worker_of_another_version(run: Run, start: Start, scheduler: tuple[str, Any], tmp_path: Path) -> None:
    kit = tmp_path / "kit"
    shutil.copytree(TOP / "python", kit / "python")
    package = kit / "python" / "corewar" / "__init__.py"
    package.write_text(re.sub('__version__ = ".*"', '__version__ = "0.9"', package.read_text()))
    for name in ("build", "crates"):
        (kit / name).symlink_to(TOP / name)
    worker(start, scheduler[0], path=str(kit / "python"))
    done = run("league", "--scheduler", scheduler[0], *FILES, cwd=EXAMPLES)
    assert done.returncode == 1
    assert done.stderr.removeprefix(ABSENT).startswith("corewar: a worker has corewar 0.9, library ")


def test_no_scheduler_and_no_package(run: Run) -> None:
    result = run("league", "--scheduler", "127.0.0.1:9", "@imp", "@dwarf")
    assert result.returncode == 1 and result.stderr.startswith("corewar: --scheduler 127.0.0.1:9: ")
    hidden = "import sys; sys.modules['distributed'] = None; from corewar.cli.main import main; main()"
    command = [sys.executable, "-c", hidden, "league", "--scheduler", "127.0.0.1:9", "imp.red", "dwarf.red"]
    done = subprocess.run(command, cwd=EXAMPLES, env=ENVIRONMENT, capture_output=True, text=True)
    assert done.returncode == 1 and "install Debian's python3-distributed, or with pip corewar[cluster]" in done.stderr


PROGRAM = """
import sys
from functools import partial
import distributed, numpy as np
import corewar
from corewar.engine import outcomes as module
warriors = [corewar.read(f"{name}.red", settings="tiny") for name in ("dwarf", "imp", "clear", "gate")]
lineups = [[a, b] for a in range(4) for b in range(4)] + [[0, 1, 2]]
how = dict(seeds=range(1, 18), rounds=3, settings="tiny")
with distributed.Client(sys.argv[1], set_as_default=False) as client:
    client.wait_for_workers(2)
    executor = client.get_executor(pure=False)
    # The lineups of a part: each by itself, some, and all.
    for size in (1, 5, 100):
        module.DISTANT_TURNS = size * 3 * 8000 * 3
        for more in ({}, {"counts": True}, {"reduce": partial(corewar.shares, cycles=8000)}):
            there = corewar.outcomes(warriors, lineups, executor=executor, **how, **more)
            assert np.array_equal(there, corewar.outcomes(warriors, lineups, **how, **more))
        contest = corewar.Contest("tiny", rounds=3)
        for call in (contest.league, partial(contest.melee, size=3, lineups=20)):
            assert call(warriors, executor=executor).to_dict() == call(warriors).to_dict()
    assert all(client.run(lambda dask_worker: dask_worker.state.executed_count).values())
print("equal")
"""


def test_any_call_runs_on_a_cluster(start: Start, scheduler: tuple[str, Any]) -> None:
    """Outcomes, reduced or not, and contests are the same on the workers of a Dask client."""
    for _ in range(2):
        worker(start, scheduler[0])
    words = [sys.executable, "-c", PROGRAM, scheduler[0]]
    done = subprocess.run(words, cwd=EXAMPLES, env=ENVIRONMENT, capture_output=True, text=True, timeout=240)
    assert done.stdout == "equal\n", done.stderr
