"""The process of an `Assembler`: each caller gets its own answers, also after an interrupt or a fork and in a pool."""
from __future__ import annotations

import multiprocessing
import os
import signal
import subprocess
import sys
import threading
import time
from pathlib import Path

import pytest
from conftest import ENVIRONMENT, EXAMPLES
from costly import slow

import corewar
from corewar import Assembler

SHARED = Assembler()


def ask(number: int) -> tuple[int, int]:
    """Returns a number, and the number in the cell that SHARED assembles from it, which must be the same."""
    return number, int(SHARED.assemble(f"DAT 0, {number}\n").cells[0]["b"])


@pytest.mark.parametrize("seconds", (0.001, 0.01, 0.2))
def test_an_interrupt(seconds: float) -> None:
    """The next sources get their own answers, and the process of the interrupted one is ended."""
    old = signal.signal(signal.SIGALRM, signal.default_int_handler)
    try:
        with Assembler() as assembler:
            assembler.assemble("NOP\n")
            for number in range(1, 4):
                with pytest.raises(KeyboardInterrupt):
                    signal.setitimer(signal.ITIMER_REAL, seconds)
                    assembler.assemble(slow())
                assert assembler.assemble(f"DAT 0, {number}\n").cells[0]["b"] == number
                assert len(multiprocessing.active_children()) <= 2
    finally:
        signal.setitimer(signal.ITIMER_REAL, 0)
        signal.signal(signal.SIGALRM, old)


def test_forks() -> None:
    """The parent and its children ask at once, each a process of its own."""
    ask(0)
    children = []
    for child in range(1, 4):
        process = os.fork()
        if not process:
            os._exit(int([ask(1000 * child + n) for n in range(100)] != [(1000 * child + n,) * 2 for n in range(100)]))
        children.append(process)
    assert [ask(number) for number in range(100)] == [(number, number) for number in range(100)]
    assert [os.waitstatus_to_exitcode(os.waitpid(child, 0)[1]) for child in children] == [0, 0, 0]
    SHARED.end()


def test_a_fork_that_ends_ends_no_assembler_of_its_parent() -> None:
    """Python in the fork then terminates the children of the parent, whose assembler starts its process again."""
    code = "import os, sys, corewar; a = corewar.Assembler(); a.assemble('NOP'); child = os.fork() or sys.exit(); "
    code += "os.waitpid(child, 0); print(len(a.assemble('NOP')))"
    done = subprocess.run([sys.executable, "-c", code], env=ENVIRONMENT, capture_output=True, text=True, timeout=60)
    assert (done.stdout, done.returncode) == ("1\n", 0)


@pytest.mark.parametrize("way", ("fork", "spawn", "forkserver"))
def test_a_pool(way: str) -> None:
    """The workers of a pool, which may start no other processes, have an assembler each."""
    ask(0)
    with multiprocessing.get_context(way).Pool(2) as pool:
        assert pool.map_async(ask, range(200), chunksize=5).get(120) == [(number, number) for number in range(200)]
    SHARED.end()


def test_a_fork_while_a_thread_asks() -> None:
    """The lock that the thread holds is not the child's."""
    with Assembler() as assembler:
        thread = threading.Thread(target=lambda: pytest.raises(corewar.CorewarError, assembler.assemble, slow()))
        thread.start()
        time.sleep(0.5)
        process = os.fork()
        if not process:
            signal.alarm(60)
            os._exit(len(assembler.assemble("NOP\nNOP\n")))
        assert os.waitstatus_to_exitcode(os.waitpid(process, 0)[1]) == 2
        # The thread waits until its process ends.
        for child in multiprocessing.active_children():
            child.kill()
        thread.join()


def test_threads() -> None:
    """All threads get their own answers from one process."""
    wrong: list[tuple[int, int]] = []

    def work(first: int) -> None:
        wrong.extend(pair for pair in map(ask, range(first, first + 50)) if pair[0] != pair[1])

    threads = [threading.Thread(target=work, args=(1000 * n,)) for n in range(4)]
    for thread in threads:
        thread.start()
    for thread in threads:
        thread.join()
    assert not wrong
    SHARED.end()


def test_files(tmp_path: Path) -> None:
    """Files are read as by `corewar.read`, and a source that takes more than a limit is an error of its file."""
    (tmp_path / "slow.red").write_text(slow())
    (tmp_path / "bad.red").write_text("foo 1\n")
    (tmp_path / "imp.load").write_bytes(corewar.read(EXAMPLES / "imp.red").load)
    with Assembler(corewar.Limit(1, 500)) as assembler:
        for path in (EXAMPLES / "dwarf.red", tmp_path / "imp.load"):
            found, expected = (call(path, settings="tiny", rounds=3) for call in (assembler.read, corewar.read))
            assert (found, found.file, found.source) == (expected, expected.file, expected.source)
        for name, error in (
            ("bad", "line 1: 2 Operation"),
            ("none", "No such file or directory"),
            ("slow", "assembling takes more than 1 s of CPU time"),
        ):
            with pytest.raises(corewar.FileError, match=f"{name}.red: {error}"):
                assembler.read(tmp_path / f"{name}.red")
