"""Measures the nanoseconds of a turn of mars.wasm in Node and of the native program, in matches in which no warrior
dies.
"""
from __future__ import annotations

import argparse
import os
import subprocess
from statistics import geometric_mean

from program import TOP, find_program

from .matches import times
from .tools import warrior

SCRIPT = os.path.join(os.path.dirname(os.path.abspath(__file__)), "wasm.mjs")
MODULE = os.path.join(TOP, "build", "mars.wasm")
MATCHES = ("imp imp", "dwarf imp", "bomber silk", "paper vampire")


def measure(words: argparse.Namespace) -> None:
    program, ratios = find_program(words.program), []
    print(f"{'a turn of':<16}{'native ns':>13}{'wasm ns':>13}{'ratio':>8}")
    for match in MATCHES:
        files = [warrior("", name) for name in match.split()]
        done = subprocess.run(["node", SCRIPT, MODULE, *files], stdout=subprocess.PIPE, text=True, check=True)
        (native,), wasm = times([program], files, words.runs), float(done.stdout)
        ratios.append(wasm / native)
        print(f"{', '.join(match.split()):<16}{native:>13.2f}{wasm:>13.2f}{ratios[-1]:>8.2f}", flush=True)
    print(f"geometric mean of the ratios {geometric_mean(ratios):.2f}")
