"""Measures the time and the memory of `mars --load` on sources that are made to be expensive.

Each source has at most 1,048,576 bytes, which is the maximum size of a file. A line for each source has what repeats in
it, its bytes, the CPU seconds, the peak of memory, and the result of the program, or that it exceeded the limit of
seconds.
"""
from __future__ import annotations

import argparse
import os
import random
import resource
import signal
import tempfile
from collections.abc import Iterator

from program import find_program

from .tools import run

MAX_FILE_SIZE = 1048576


def doubled(last: int) -> str:
    """Returns EQU names e0 to eN, each twice the previous one: eN is 2^N times 1, with + in between."""
    return "e0 EQU 1\n" + "".join(f"e{n} EQU e{n - 1}+e{n - 1}\n" for n in range(1, last + 1))


def in_loops(body: str, outer: int, inner: int) -> str:
    """Returns lines in nested loops with the counters j and i."""
    return f"j FOR {outer}\ni FOR {inner}\n{body}\nROF\nROF\n"


def filled(before: str, byte: str, after: str) -> str:
    """Returns a source of the maximum size, filled with one byte."""
    return before + byte * (MAX_FILE_SIZE - len(before) - len(after)) + after


def in_31_loops(body: str) -> str:
    heads = "".join(f"c{n} FOR {1000 if n == 30 else 1}\n" for n in range(31))
    return heads + body + "\n" + "ROF\n" * 31 + "NOP\n"


def words_at_random() -> str:
    pieces = [
        first + last
        for first in "DAT MOV EQU FOR ROF x y i j 1 2 + - * ( ) , # ; & \n".split(" ")
        for last in ("", " ", "\n")
    ]
    text = "".join(random.Random(2).choices(pieces, k=MAX_FILE_SIZE // 2))
    return text[:MAX_FILE_SIZE]


def cases() -> Iterator[tuple[str, str]]:
    """Yields what repeats in each source, and the source."""
    yield "tokens: 60,000 asserts of 32,767 by EQU", doubled(14) + in_loops(";assert e14", 6, 10000) + "NOP\n"
    yield "tokens: 24,000 operands of 65,535 by EQU", doubled(15) + in_loops("DAT e15", 3, 8000)
    yield "tokens: 20,000 loops counted by 32,767 by EQU", doubled(14).replace("EQU 1", "EQU 0") + in_loops(
        "FOR e14\nNOP\nROF", 2, 10000
    )
    yield "tokens: 16,000 sums of 12,000 labels in a line", "x NOP\nsum EQU " + "+".join(
        ["x"] * 12000
    ) + "\n" + in_loops("DAT sum", 2, 8000)
    yield "bytes: 1 MB of spaces, read 63,000 times", filled("j FOR 7\ni FOR 9000\n", " ", "NOP\nROF\nROF\n")
    yield "bytes: a name of 1 MB, read 27,000 times", filled("FOR 3\nFOR 9000\nDAT ", "x", "\nROF\nROF\n")
    yield "joins: 50,000 in a word, read 60,000 times", in_loops("x" + "&i" * 50000, 6, 10000)
    yield "joins: 50,000 of the outermost of 31 loops, read 1,000 times", in_31_loops(";assert x" + "&c0" * 50000)
    yield "names: 60,000 joined names of 1 MB", filled("j FOR 6\ni FOR 10000\n", "x", "&j&i\nROF\nROF\n")
    yield "names: 63,000 whose hashes collide", in_loops("SQJe5jQU7MjTU0qoA8DjzLWtab&j&i", 7, 9000)
    yield "names: 65,535 labels", "".join(f"l{n}\n" for n in range(65535))
    yield "names: 20,000 EQU names, each eighth used", "".join(f"n{n} EQU {n}\n" for n in range(20000)) + "".join(
        f"DAT n{n}\n" for n in range(0, 20000, 8)
    )
    yield "1 MB of parentheses", "DAT " + "(" * (MAX_FILE_SIZE - 4)
    yield "1 MB of words at random", words_at_random()
    yield "32 nested empty loops, of 10,000 iterations each", "FOR 10000\n" * 32 + "ROF\n" * 32 + "NOP\n"


def measure(words: argparse.Namespace) -> None:
    program = find_program(words.program)

    def bound() -> None:
        resource.setrlimit(resource.RLIMIT_CPU, (words.seconds, words.seconds + 1))
        resource.setrlimit(resource.RLIMIT_AS, (words.megabytes * 1_000_000,) * 2)

    print("| Source | bytes | seconds | MB | result |\n|---|---|---|---|---|")
    with tempfile.TemporaryDirectory() as place:
        path = os.path.join(place, "hostile.red")
        for what, text in cases():
            with open(path, "wb") as file:
                file.write(text.encode("ascii"))
            assert os.path.getsize(path) <= MAX_FILE_SIZE, what
            done = run([program, "--load", "-s", "1048576", "-l", "65536", "-d", "65536", path], bound=bound)
            error = done.errors.decode().strip().removeprefix("mars: ").removeprefix(f"{path}: ")
            result = error or ("over the limit of time" if done.status == -signal.SIGXCPU else "assembled")
            print(f"| {what} | {len(text):,} | {done.cpu:.2f} | {done.peak / 1e6:.0f} | {result} |", flush=True)
