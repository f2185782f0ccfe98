"""Measures the time from a change of a source to the errors that the language server reports, and of each kind of
answer.

A client changes a source of 100 and of 2,000 lines, with no error, with one and with ten. A line for each has the
median and the greatest time in milliseconds, in which the server's wait for more changes is included.
"""
from __future__ import annotations

import argparse
import os
import statistics
import subprocess
import time
from collections.abc import Callable
from typing import Any

from corewar.editor.wire import Wire
from program import TOP

URI = "file:///source.red"
PACKAGE = os.path.join(TOP, "python")
COMMAND = ["/usr/bin/python3", "-P", os.path.join(PACKAGE, "corewar", "__main__.py"), "lsp", "-l", "4000", "-d", "4000"]
# The position of a name in `source`.
HOVER = {"position": {"line": 20, "character": 24}}
REQUESTS: dict[str, dict[str, object]] = {
    "hover": {**HOVER},
    "rename": {"newName": "another", "position": HOVER["position"]},
    "completion": {**HOVER},
    "semanticTokens/full": {},
    "documentSymbol": {},
}


def source(lines: int, errors: int) -> str:
    """Returns a source of this many lines, of which `errors` have an error."""
    opcodes = ["MVO"] * errors + ["MOV"] * (lines - 2 - errors)
    body = [
        f"l{at:<6} {opcode}.I  $l{at * 7 % (lines - 2)}, >step+{at} ; comment {at}" for at, opcode in enumerate(opcodes)
    ]
    return "\n".join([";redcode", "step    EQU     4", *body, ""])


class Client:
    """An editor with one source."""

    def __init__(self) -> None:
        environment = {**os.environ, "PYTHONPATH": PACKAGE}
        self.process = subprocess.Popen(COMMAND, env=environment, stdin=subprocess.PIPE, stdout=subprocess.PIPE)
        assert self.process.stdin and self.process.stdout
        self.wire = Wire(self.process.stdout.fileno(), self.process.stdin.fileno())
        self.wire.send({"id": 0, "method": "initialize", "params": {}})
        self.receive()

    def receive(self) -> Any:
        """Returns the next message of the server, which has not ended."""
        message = self.wire.receive()
        assert message
        return message

    def change(self, text: str) -> list[Any]:
        """Changes the source, and returns the errors that the server reports."""
        params = {"textDocument": {"uri": URI}, "contentChanges": [{"text": text}]}
        self.wire.send({"method": "textDocument/didChange", "params": params})
        return list(self.receive()["params"]["diagnostics"])

    def ask(self, method: str, params: dict[str, object]) -> Any:
        document: dict[str, object] = {"textDocument": {"uri": URI}, **params}
        self.wire.send({"id": 1, "method": f"textDocument/{method}", "params": document})
        return self.receive()["result"]


def print_times(what: str, runs: int, prepare: Callable[[int], object], work: Callable[[int], object]) -> None:
    """Prints the median and the greatest time of `work`, without that of `prepare` before each run."""
    times = []
    for run in range(runs):
        prepare(run)
        start = time.perf_counter()
        work(run)
        times.append(1000 * (time.perf_counter() - start))
    print(f"  {what:24} {statistics.median(times):6.0f} {max(times):6.0f}")


def measure_lines(client: Client, lines: int, runs: int) -> None:
    """Prints the times for a source of this many lines."""
    print(f"{lines} lines:                 median    max")

    def change(text: str) -> Callable[[int], object]:
        return lambda run: client.change(f"{text}; {run}\n")

    for errors in (0, 1, 10):
        text = source(lines, errors)
        assert len(client.change(text)) == errors
        print_times(f"a change; errors: {errors}", runs, lambda _: None, change(text))
    for method, params in REQUESTS.items():
        print_times(method, runs, change(source(lines, 0)), lambda _: client.ask(method, params))


def measure(words: argparse.Namespace) -> None:
    start = time.perf_counter()
    client = Client()
    print(f"start: {1000 * (time.perf_counter() - start):.0f} ms")
    for lines in (100, 2000):
        measure_lines(client, lines, words.runs)
    client.wire.send({"method": "exit"})
    client.process.wait()
