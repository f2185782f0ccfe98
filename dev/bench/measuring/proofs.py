"""Prints the seconds that each function of a crate cost to prove, the most expensive first, and which parts of its
proof cost most.

This reads what a first `rt check --jobs 1` of the crate, from scratch, has left. A check stores each part of its work
as a file of out/incremental as soon as it is done, so the time between one file and the next is the cost of the second,
if one job wrote them all. Parts that a later check replaced have wrong times, and what the check read before its first
proof counts for the function that comes first.
"""
from __future__ import annotations

import argparse
import os
import re
import sys
from collections import Counter, defaultdict

from program import TOP

# The parts of a function's proof, which are counted with it.
PARTS = "Answers Checked Code Instances Invariants Kinds Lts Met Proof Reads Statement Symbol".split()
PARTS += ["TheInvariant", "TheInvariants", "TheLink", "Tie"]
PART = re.compile(rf"\.({'|'.join(PARTS)})\b.*")


def measure(words: argparse.Namespace) -> None:
    files = []
    for folder, _, names in os.walk(os.path.join(TOP, "crates", words.crate, "out", "incremental")):
        files += [(os.stat(os.path.join(folder, name)).st_mtime_ns, name) for name in names if name.endswith(".oantt")]
    if not files:
        sys.exit(f"measure: {words.crate} has no work in out/incremental: check it first")
    files.sort()
    whole: Counter[str] = Counter()
    parts: defaultdict[str, Counter[str]] = defaultdict(Counter)
    before = files[0][0]
    for time, name in files:
        name = name.removesuffix(".oantt").removeprefix(f"Rattle-{words.crate}-")
        part = PART.search(name)
        owner = name[: part.start()] if part else name
        milliseconds, before = (time - before) // 1_000_000, time
        whole[owner] += milliseconds
        parts[owner][part[1] if part else "itself"] += milliseconds
    print(f"{sum(whole.values()) / 1000:8.1f} the whole")
    for owner, cost in whole.most_common(words.count):
        most = ", ".join(f"{part} {cost / 1000:.1f}" for part, cost in parts[owner].most_common(3))
        print(f"{cost / 1000:8.1f} {owner}: {most}")
