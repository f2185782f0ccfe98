"""The rounds of a match in portions, and the bar that shows how many have been run."""
from __future__ import annotations

import contextlib
import os
from concurrent.futures import ThreadPoolExecutor
from dataclasses import replace

import pytest
from battles import matches
from conftest import ENVIRONMENT, EXAMPLES, begin
from hypothesis import given, strategies as st

from corewar.cli import rounds as module
from corewar.engine.battles import Battle
from corewar.engine.calls import Match, match, portions
from corewar.engine.sources import read
from corewar.model.errors import MarsError
from corewar.model.settings import FORMULA


@given(matches(), st.integers(1, 12), st.integers(1, 7), st.integers(0, 1))
def test_portions_are_the_match(fight: Match, rounds: int, size: int, fixed: int) -> None:
    """Each round of a portion is that of the match: its warriors, where they start, and who begins."""
    position = 9 if fixed and len(fight.warriors) == 2 else None
    fight = replace(fight, rounds=rounds, position=position)
    number = 0
    for count, seed, _ in portions((rounds, fight.seed, position), len(fight.warriors), size):
        assert 1 <= count < size + len(fight.warriors)
        part = replace(fight, rounds=count, seed=seed)
        for round_ in range(count):
            assert Battle(part, round_) == Battle(fight, number)
            number += 1
    assert number == rounds


def test_a_fight_in_portions(monkeypatch: pytest.MonkeyPatch) -> None:
    """The table is that of the library, and so is the error if points have too large a sum, but fit in each portion."""
    fight = Match([read(EXAMPLES / f"{name}.red") for name in ("dwarf", "imp", "paper")], rounds=100)
    monkeypatch.setattr(module, "TURNS", 7 * 3 * fight.settings.cycles)
    assert module.rows_of(fight, FORMULA) == (match(fight.warriors, rounds=100), 100)
    with pytest.raises(MarsError, match="score 4 Range"):
        module.rows_of(fight, str(2**63 // 20))


def all_of(terminal: int) -> str:
    """Returns all that is written to a terminal until its other end is closed, when reading fails."""
    shown = bytearray()
    with contextlib.suppress(OSError):
        while part := os.read(terminal, 4096):
            shown += part
    os.close(terminal)
    return shown.decode()


@pytest.mark.parametrize("words", [["fight"], ["why"]])
def test_progress(words: list[str]) -> None:
    """On a terminal, standard error has a bar, which is removed, and standard output is the same as without one."""
    ours, theirs = os.openpty()
    files = [EXAMPLES / "dwarf.red", EXAMPLES / "imp.red"]
    process = begin(*words, "-r", 160, *files, env={**ENVIRONMENT, "TERM": "xterm"}, stderr=theirs)
    os.close(theirs)
    # A terminal that is not read stops the command after 4 KB.
    with ThreadPoolExecutor(1) as pool:
        reading = pool.submit(all_of, ours)
        output, _ = process.communicate()
        shown = reading.result()
    # The line of the bar is erased at the end.
    assert "160/160" in shown and "rounds" in shown and "\x1b[2K" in shown.rpartition("160/160")[2]
    assert output == begin(*words, "-r", 160, *files).communicate()[0]
