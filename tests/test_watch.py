"""The core as text, and a battle that is watched in a terminal."""
from __future__ import annotations

import os

import pytest
from conftest import EXAMPLES, Run

from corewar.battle.history import History
from corewar.cli.watching import Show, keys_of
from corewar.engine.calls import Match
from corewar.engine.sources import read
from corewar.model.settings import Settings
from corewar.pictures.colours import COLOURS
from corewar.pictures.terminal import BRAILLE, HALVES, Canvas, canvas_of, draw


def history_of(core: int) -> History:
    settings = Settings(core=core, longest=4, distance=4, cycles=50)
    return History(
        Match([read(EXAMPLES / f"{name}.red", settings=settings) for name in ("dwarf", "imp")], settings=settings)
    )


def test_the_canvas() -> None:
    """Half blocks if they fit, then Braille, then more cells in a dot."""
    assert canvas_of(8000, 120, 35) == Canvas(HALVES, 1, 120) and canvas_of(8000, 80, 19) == Canvas(BRAILLE, 1, 80)
    assert canvas_of(55440, 80, 19) == Canvas(BRAILLE, 5, 80) and canvas_of(1, 0, 0) == Canvas(HALVES, 1, 1)


@pytest.mark.parametrize("columns, rows", [(20, 2), (5, 2), (3, 1)])
def test_each_cell_is_drawn(columns: int, rows: int) -> None:
    """A half block has the colours of two cells; the dots of Braille are those of cells with an owner."""
    history, canvas = history_of(80), canvas_of(80, columns, rows)
    turn, owners = 60, history.owners(60)
    lines = "".join(text for _, text in draw(history, turn, canvas)).split("\n")[:-1]
    assert len(lines) <= rows and {len(line) for line in lines} == {columns}
    wide, tall = canvas.shape
    for dot in range(-(-80 // canvas.cells)):
        is_owned = any(owner != 255 for owner in owners[dot * canvas.cells : (dot + 1) * canvas.cells])
        y, x = divmod(dot, columns * wide)
        letter = lines[y // tall][x // wide]
        if canvas.shape == BRAILLE:
            bit = [[1, 8], [2, 16], [4, 32], [64, 128]][y % 4][x % 2]
            assert bool(ord(letter) - 0x2800 & bit) == is_owned
        elif y % 2 == 0:
            assert (letter == "▀") == is_owned
    styles = {style for style, _ in draw(history, 0, canvas_of(80, 80, 1))}
    # At the start, both warriors have a process on a cell of their own.
    assert f"fg:{COLOURS[0]}" in styles and len([style for style in styles if style]) == 3


def test_keys() -> None:
    """Keys stop the battle, go back, to the end, to a death and to another round."""
    fight = Match([read(EXAMPLES / f"{name}.red") for name in ("dwarf", "imp")], rounds=2)
    show = Show(fight, History(fight), 0, 1)
    bindings = {str(getattr(one.keys[0], "value", one.keys[0])): one.handler for one in keys_of(show).bindings}

    def press(key: str) -> str:
        bindings[key](None)  # type: ignore[arg-type]
        return "".join(text for _, text in show.text())

    assert press(" ").startswith("■ turn ") and press("l").startswith("▶") and press("j").startswith(("◀", "■ turn 0"))
    assert "the battle is over: Dwarf survives" in press("end") and "died in turn 7798" in press("end")
    assert press("left").startswith("■ turn 7797 of 7798") and "turn 7797: Dwarf at 1" in press("k")
    assert press("s-left").startswith("■ turn 7787") and press("d").startswith("■ turn 7798")
    assert press("D").startswith("■ turn 7798") and press("home").startswith("■ turn 0")
    assert ", round 1," in press("]") and ", round 1," in press("]") and ", round 0," in press("[")
    rate = show.rate
    assert press("up") and show.rate > rate and press("down") and round(show.rate) == round(rate)


def test_watching(run: Run) -> None:
    """The screen is left as it was. Without a terminal, the command is a usage error."""
    pexpect = pytest.importorskip("pexpect", reason="package python3-pexpect")
    words = ["watch", str(EXAMPLES / "dwarf.red"), str(EXAMPLES / "imp.red")]
    environment = {**os.environ, "TERM": "xterm"}
    with pexpect.spawn(
        str(EXAMPLES.parent / "corewar"), words, env=environment, timeout=30, dimensions=(24, 80), encoding="utf-8"
    ) as child:
        child.expect("turn")
        child.send("q")
        child.expect_exact("\x1b[?1049l")
        child.expect(pexpect.EOF)
    done = run("watch", "@dwarf", "@imp")
    assert done.returncode == 2 and "expected a terminal" in done.stderr
