"""Tests the program with arguments of all kinds, with files and pipes of all sizes, and with streams that fail.
"""
from __future__ import annotations

import contextlib
import fcntl
import itertools
import os
import resource
import select
import shutil
import signal
import struct
import subprocess
import tempfile
import termios
import threading
import time
from collections.abc import Iterator
from functools import partial
from pathlib import Path
from typing import Any, IO

import pytest
from costly import large, slow
from counting import PROGRAM, skip

MAX_FILE_SIZE = 1_048_576
CORE = ["-s", "8", "-l", "1", "-d", "1"]
SMALL = [*CORE, "-c", "20"]
LISTED = "ORG 0\nMOV.I $0, $1\n"
UNNAMED = ";name Unknown\n;author Anonymous\n"
# A user who may read little.
NOBODY = {"user": 65534, "group": 65534, "extra_groups": []}
# Each argument, except for files and for the options that cannot be used with `--league`.
WORDS = "-r 2 --seed 1 --score W -s 8000 -c 10 -p 2 -l 1 -d 1 --read-limit 8 --write-limit 8 --history 5".split()
WORDS += ["-b", "-o", "--league"]


def run(*words: str | bytes, name: str | bytes = PROGRAM, **how: Any) -> tuple[int, str, str]:
    """Runs the program with arguments. `name` is the name under which it is started."""
    if "input" not in how:
        how.setdefault("stdin", subprocess.DEVNULL)
    how = {"executable": PROGRAM, "stdout": subprocess.PIPE, "stderr": subprocess.PIPE, "timeout": 60, **how}
    done = subprocess.run([name, *words], **how)
    return done.returncode, (done.stdout or b"").decode(), (done.stderr or b"").decode()


def load(path: str, **how: Any) -> tuple[int, str, str]:
    """Runs the program with --load on a source, in a core of 8 cells."""
    return run("--load", *SMALL, path, **how)


@pytest.fixture(autouse=True)
def folder() -> Iterator[None]:
    """Runs each test in a folder with an imp, and with the same imp under a name with a letter that is not ASCII."""
    with tempfile.TemporaryDirectory() as folder, contextlib.chdir(folder):
        for name in ("imp.red", "w\u00e4chter.red"):
            Path(name).write_text("MOV 0, 1\n")
        yield


def is_read(stream: IO[bytes]) -> bool:
    """Returns whether everything written to a pipe was read, or the pipe has no reader."""
    watch = select.poll()
    watch.register(stream, 0)
    return bool(watch.poll(0)) or struct.unpack("i", fcntl.ioctl(stream, termios.FIONREAD, bytes(4))) == (0,)


def feed(stream: IO[bytes], text: bytes, size: int) -> None:
    """Writes a text to a pipe in pieces of one size, each after the previous one is read."""
    with contextlib.suppress(BrokenPipeError):
        for start in range(0, len(text), size):
            stream.write(text[start : start + size])
            while not is_read(stream):
                time.sleep(0.0005)


@contextlib.contextmanager
def debugger(*words: str) -> Iterator[subprocess.Popen[bytes]]:
    """The debugger of an imp over pipes, with errors among its replies. It is killed after a minute."""
    with subprocess.Popen(
        [PROGRAM, "-e", *words, "imp.red"],
        stdin=subprocess.PIPE,
        stdout=subprocess.PIPE,
        stderr=subprocess.STDOUT,
        bufsize=0,
    ) as process:
        ending = threading.Timer(60, process.kill)
        ending.start()
        try:
            yield process
        finally:
            ending.cancel()


def test_words() -> None:
    for word in (b"\xff.red", b"-\xff", b"--score=\xc3\x28"):
        assert run(word, "imp.red") == (2, "", "mars: bad words\n"), f"an argument that is not UTF-8, {word!r}"
    assert run() == (2, "", "mars: bad words\n")
    for name in (b"\xff/mars", b"", b"x" * 5000, b"--help"):
        assert load("imp.red", name=name) == load("imp.red"), f"started as {name[:10]!r}"
        assert run("-x", name=name) == (2, "", "mars: bad words\n"), f"a wrong option, started as {name[:10]!r}"
    assert load("w\u00e4chter.red") == (0, f";load 2 8\n{UNNAMED}{LISTED}", "")
    for words in (["imp.red", "--help"], ["--help", "-e", "imp.red"]):
        assert run(*words) == run("--help"), f"--help with other arguments, {words}"


def test_many_words() -> None:
    """The program reads each of many arguments, and each byte of a long one."""
    table = "  points   wins   ties losses  warrior\n" + 16 * "      60      0     30      0  Unknown by Anonymous\n"
    files = ["imp.red"] * 16
    assert run(*WORDS, *files) == (0, table, "")
    assert run(*WORDS, *files[1:], "none.red") == (1, "", "mars: none.red: cannot read\n")
    assert run(*WORDS, *files, *["imp.red"] * 19) == (2, "", "mars: bad words\n")
    assert run("--load", "-s", "8".zfill(5000), *SMALL[2:], "imp.red") == load("imp.red")


def test_names() -> None:
    """The whole name of a file is in its error message, except for control characters."""
    for name in ("x" * 300, "x" * 5000, "\u00e4" * 150, "k\u00e4fer.red", "\u4e16\u754c.red"):
        assert run(name) == (1, "", f"mars: {name}: cannot read\n"), f"{name[:10]}, {len(name)} letters"
    assert run("-b", "no\nsuch\x1b[1m\x85\x9b.red") == (1, "", "mars: no?such?[1m??.red: cannot read\n")
    for line in (2, 10, 1000):
        Path("b\u00f6se.red").write_text("NOP\n" * (line - 1) + "HOP 1\n")
        assert run("-l", "1000", "-d", "1000", "b\u00f6se.red") == (
            1,
            "",
            f"mars: b\u00f6se.red: line {line}: 2 Operation\n",
        )
    longest = "n" * 251 + ".red"
    Path(longest).write_text("MOV 0, 1\n")
    assert load(longest) == load("imp.red")


def source(size: int) -> str:
    """Returns a source of `size` bytes. Its instruction is at the end, so a truncated source has none."""
    code = "\nMOV 0, 1"
    return ";" * (size - len(code)) + code


def test_files() -> None:
    for size in (4_095, 4_096, 4_097, 65_537, MAX_FILE_SIZE):
        name = f"{size}.red"
        Path(name).write_text(source(size))
        status, output, errors = load(name)
        assert (status, output.endswith("\n" + LISTED), errors) == (0, True, ""), f"a file of {size} bytes"
    Path("larger.red").write_text(";" * (MAX_FILE_SIZE + 1))
    os.mkdir("folder.red")
    os.symlink("imp.red", "link.red")
    os.symlink("loop.red", "loop.red")
    for name in ("larger.red", "/dev/zero"):
        assert run("--load", name) == (1, "", f"mars: {name}: too large\n"), name
    for name in ("folder.red", "none.red", "imp.red/none.red", "loop.red", "-"):
        assert run("--load", name, input=b"MOV 0, 1\n") == (1, "", f"mars: {name}: cannot read\n"), name
    assert load("link.red") == load("imp.red")
    assert run("none.red", "larger.red") == (1, "", "mars: none.red: cannot read\n")


def test_limits() -> None:
    """A source that exceeds the limits of the system: the program is ended, or reports that it is out of memory, and
    prints nothing.
    """
    for name, text, seconds, answer in (
        ("slow.red", slow(), 1, (-signal.SIGKILL, "", "")),
        ("large.red", large(), 60, (1, "", "mars: out of memory\n")),
    ):
        Path(name).write_text(text)
        command = ["sh", "-c", f'ulimit -t {seconds} && ulimit -v 200000 && exec "$@"', "sh", PROGRAM, "imp.red", name]
        done = subprocess.run(command, capture_output=True, text=True)
        assert (done.returncode, done.stdout, done.stderr) == answer, name


def test_permissions() -> None:
    """A file without permission to read. As root, the test runs a copy of the program as the user `nobody`."""
    Path("closed.red").write_text("MOV 0, 1\n")
    os.chmod("closed.red", 0)
    os.chmod(".", 0o755)
    copy = os.path.abspath(shutil.copy(PROGRAM, "program"))
    user: dict[str, Any] = NOBODY if os.geteuid() == 0 else {}
    try:
        assert run("closed.red", executable=copy, **user) == (1, "", "mars: closed.red: cannot read\n")
    except PermissionError as error:
        skip("a file that may not be read", str(error))


def feed_fifo(path: str, text: bytes, size: int) -> None:
    with open(path, "wb", buffering=0) as stream:
        feed(stream, text, size)


def test_pipes() -> None:
    """Files from a pipe are read completely."""
    os.mkfifo("fifo.red")
    threading.Thread(target=feed_fifo, args=("fifo.red", b"NOP\nNOP\nNOP\n", 4), daemon=True).start()
    listed = f";load 2 8\n{UNNAMED}ORG 0\n" + 3 * "NOP.F $0, $0\n"
    assert run("--load", "-s", "8", "-l", "3", "-d", "3", "fifo.red") == (0, listed, "")
    Path(f"{MAX_FILE_SIZE}.red").write_text(source(MAX_FILE_SIZE))
    whole = load(f"{MAX_FILE_SIZE}.red")
    for size, answer in ((MAX_FILE_SIZE, whole), (MAX_FILE_SIZE + 1, (1, "", "mars: /dev/stdin: too large\n"))):
        assert load("/dev/stdin", input=source(size).encode()) == answer, f"{size} bytes from a pipe"


def test_long_outputs() -> None:
    """Outputs of more than 4,096 bytes, of the maximum number of warriors, and of the largest core."""
    Path("long.red").write_text("".join(f"DAT 0, {number}\n" for number in range(300)))
    text = f";load 2 8000\n{UNNAMED}ORG 0\n" + "".join(f"DAT.F $0, ${number}\n" for number in range(300))
    assert run("--load", "-l", "300", "-d", "300", "long.red") == (0, text, "")
    listing = "".join(
        f"warrior {number}: Unknown by Anonymous, 1 instructions\n;load 2 8000\n{UNNAMED}{LISTED}\n"
        for number in range(16)
    )
    table = "  points   wins   ties losses  warrior\n" + 16 * "      15      0      1      0  Unknown by Anonymous\n"
    assert run("-c", "10", *["imp.red"] * 16) == (0, listing + table, "")
    lines = b"edit 1048575 NOP.F $1, $-1\nlist 1048575 2\n"
    replies = "turn 0 cycle 0 next 0 alive 1 at 1/1\n1048575 NOP.F $1, $-1\n0 MOV.I $0, $1\n"
    assert run("-e", "-s", "1048576", "imp.red", input=lines) == (0, replies, "")


def test_streams() -> None:
    full = (1, "", "mars: cannot write\n")
    for words in ("--help", "--load imp.red", "imp.red", "-b imp.red", "--league -b imp.red imp.red"):
        with open("/dev/full", "wb") as output:
            assert run(*words.split(), stdout=output) == full, f"{words} to a full device"
    with open("/dev/full", "wb") as output:
        assert run("-e", *SMALL, "imp.red", input=b"show\n", stdout=output) == full
    with open("/dev/full", "wb") as errors:
        assert run("none.red", stderr=errors)[0] == 1
        assert run("-x", stderr=errors)[0] == 2
    commands = os.open(".", os.O_RDONLY)
    assert run("-e", *SMALL, "imp.red", stdin=commands) == (1, "", "mars: cannot read the commands\n")
    os.close(commands)


def test_sizes_of_files() -> None:
    """A file that may not grow gets a part of the output, and the program fails. Unless the signal of the system is
    ignored, it ends the program.
    """
    whole, path = load("imp.red")[1], "kept"
    for size in (0, 10):
        for is_ignored, expected in ((True, (1, "", "mars: cannot write\n")), (False, (-signal.SIGXFSZ, "", ""))):
            with open(path, "wb") as output:
                limit = partial(resource.setrlimit, resource.RLIMIT_FSIZE, (size, size))
                result = load("imp.red", stdout=output, preexec_fn=limit, restore_signals=not is_ignored)
            assert (result, Path(path).read_text()) == (expected, whole[:size]), (size, is_ignored)


CONVERSATION = (
    ("step\r", "turn 1 cycle 1 next 0 alive 1 at 1/1"),
    ("queue 0", "queue 0: 1"),
    ("hop", "unknown"),
    ("undo", "turn 0 cycle 0 next 0 alive 1 at 0/1"),
)


def test_answers() -> None:
    """Each command comes byte by byte, and its reply comes before the next command."""
    with debugger(*SMALL) as process:
        assert process.stdin and process.stdout
        for line, reply in CONVERSATION:
            feed(process.stdin, f"{line}\n".encode(), 1)
            assert (
                process.stdout.readline().decode() == reply + "\n"
            ), f"the reply to {line!r} comes before the next line"
        feed(process.stdin, b"quit\nstep\n", 10)
        assert (process.stdout.read(), process.wait()) == (b"", 0)


def test_stops() -> None:
    """A program that is stopped and continued while it reads loses nothing."""
    with debugger(*SMALL) as process:
        assert process.stdin and process.stdout
        for line, reply in CONVERSATION:
            feed(process.stdin, line[:2].encode(), 1)
            for number in (signal.SIGSTOP, signal.SIGCONT):
                process.send_signal(number)
                time.sleep(0.01)
            feed(process.stdin, f"{line[2:]}\n".encode(), 1)
            assert process.stdout.readline().decode() == reply + "\n", line


def long_session() -> tuple[bytes, bytes]:
    """Returns lines up to a quit, and their replies: many short ones, and two of more than 4,096 bytes."""
    lines, replies = [], []
    for turn in range(1, 1001):
        lines += ["step", "queue 0"]
        replies += [f"turn {turn} cycle {turn} next 0 alive 1 at {turn}/{turn}", f"queue 0: {turn % 8}"]
    lines += ["list 0 1500", *(f"spawn 0 {place % 8}" for place in range(2999)), "queue 0", "quit"]
    replies += [f"{place % 8} MOV.I $0, $1" for place in range(1500)]
    replies += [f"turn 1000 cycle 1000 next 0 alive 1 at {place}/{place}" for place in range(1001, 4000)]
    replies += ["queue 0: 0 " + " ".join(str(place % 8) for place in range(2999))]
    return "".join(f"{line}\n" for line in lines).encode(), "".join(f"{reply}\n" for reply in replies).encode()


def test_pieces() -> None:
    """Long inputs in pieces of about the size that is read at once, and replies that are read in such pieces."""
    lines, replies = long_session()
    for size in range(4_094, 4_099):
        with debugger(*CORE) as process:
            assert process.stdout
            number = process.stdout.fileno()
            feeding = threading.Thread(target=feed, args=(process.stdin, lines, size))
            feeding.start()
            got = b"".join(iter(partial(os.read, number, size), b""))
            feeding.join()
            pairs = itertools.zip_longest(got.splitlines(), replies.splitlines())
            assert (process.wait(), next((pair for pair in pairs if pair[0] != pair[1]), None)) == (0, None), size


def test_many_reads() -> None:
    """A line of 410,000,000 bytes is read in more than 100,000 pieces, and the command after it has a reply."""
    with open("commands", "wb") as file:
        file.seek(410_000_000)
        file.write(b"\nstep\n")
    with open("commands", "rb") as commands:
        answer = run("-e", *SMALL, "imp.red", stdin=commands)
    assert answer == (0, "unknown\nturn 1 cycle 1 next 0 alive 1 at 1/1\n", "")
