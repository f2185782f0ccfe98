"""Sources that exceed limits: one takes a minute of CPU time, the other all memory. Never assemble them without
limits.
"""
from __future__ import annotations


def slow(leaf: str = "1") -> str:
    """Returns a source with a line that is read 60,000 times, each time with 32,767 tokens: 16,384 times the leaf."""
    names = [f"e{n} EQU e{n - 1}+e{n - 1}" for n in range(1, 15)]
    return "\n".join([f"e0 EQU {leaf}", *names, "FOR 6", "FOR 10000", ";assert e14", "ROF", "ROF", "NOP", ""])


def large() -> str:
    """Returns a source with 60,000 names of 1 MB."""
    return f"j FOR 6\ni FOR 10000\n{'x' * 1_000_000}&j&i\nROF\nROF\nNOP\n"
