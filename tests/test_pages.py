"""Pages and pictures: a page has the fight of its arguments, and a picture shows the states of the machine."""
from __future__ import annotations

import base64
import json
import re
import resource
import sys
import time
import zlib
from pathlib import Path
from typing import Any

import pytest
from conftest import EXAMPLES, TOP, Run
from counting import skip

from corewar.battle.history import History
from corewar.engine.calls import Match
from corewar.engine.sources import read
from corewar.model.settings import Settings
from corewar.pages.site import MAX_TURNS

if not (TOP / "build" / "site").is_dir():
    skip("pages", "the site is not built; `make site` builds it", "esbuild")


def unpacked(page: str) -> dict[str, Any]:
    """Returns the fight of a page."""
    found = re.search(r'<script id="page-fight" type="text/plain">([\w-]+)</script>', page)
    assert found
    fight: dict[str, Any] = json.loads(zlib.decompress(base64.urlsafe_b64decode(found[1] + "=="), wbits=-15))
    return fight


def test_files_are_replaced_whole_or_not_at_all(run: Run, tmp_path: Path) -> None:
    """On a full disk the older file is unchanged; a link remains a link, and no other file is left in the folder."""
    words = ("league", "--format", "csv", "-o", "out.csv", "@dwarf", "@imp")
    (tmp_path / "kept").mkdir()
    (tmp_path / "kept" / "old.csv").write_text("old")
    (tmp_path / "out.csv").symlink_to("kept/old.csv")
    full = run(*words, preexec_fn=lambda: resource.setrlimit(resource.RLIMIT_FSIZE, (10, 10)))
    assert (full.returncode, full.stderr) == (1, "corewar: out.csv: File too large\n")
    assert (tmp_path / "kept" / "old.csv").read_text() == "old"
    (tmp_path / "kept" / "old.csv").chmod(0o640)
    assert run(*words).returncode == 0 and (tmp_path / "out.csv").is_symlink()
    new = tmp_path / "kept" / "old.csv"
    assert new.read_text().startswith("rank,") and new.stat().st_mode & 0o777 == 0o640
    assert sorted(path.name for path in tmp_path.rglob("*") if path.name != "state") == ["kept", "old.csv", "out.csv"]
    assert run("league", "-o", "/dev/stdout", "@dwarf", "@imp").stdout.startswith("  rank ")
    assert run("league", "-o", "/dev/full", "@dwarf", "@imp").stderr == "corewar: /dev/full: No space left on device\n"


def test_a_page_is_written(run: Run, tmp_path: Path) -> None:
    """A page has the sources, the settings, a turn and edits, and is not overwritten without --force."""
    words = ["--round", 2, "-r", 5, "--seed", 9, "-c", 5000, "--score", "W", "--turn", 300]
    words += ["--edit", "100 edit 3 mov 0, 1", "--edit", "200 fill 5 6 dat <1, #2", "--edit", "200 move 0 0 7"]
    done = run("page", *words, "--edit", "200 kill 1 0", "--edit", "200 spawn 0 9", "@dwarf", "@imp")
    assert (done.returncode, done.stdout) == (0, "battle.html: Dwarf against Imp\n"), done.stderr
    fight = unpacked((tmp_path / "battle.html").read_text())
    assert [name for name, _ in fight["w"]] == ["dwarf.red", "imp.red"]
    assert fight["w"][1][1] == (EXAMPLES / "imp.red").read_text()
    assert (fight["h"]["cycles"], fight["r"], fight["n"], fight["s"], fight["f"], fight["t"]) == (
        5000,
        2,
        5,
        9,
        "W",
        300,
    )
    texts = ["edit 3 MOV.I $0, $1", "fill 5 6 DAT.F <1, #2", "move 0 0 7", "kill 1 0", "spawn 0 9"]
    assert fight["e"] == [[turn, text] for turn, text in zip((100, 200, 200, 200, 200), texts)]
    again = run("page", "@dwarf", "@imp")
    assert (again.returncode, again.stderr) == (
        1,
        "corewar: battle.html: already exists; use --force to overwrite it or -o to name another file\n",
    )
    assert run("page", "--force", "@dwarf").stdout == "battle.html: Dwarf\n"


@pytest.mark.parametrize(
    "edit, why",
    [
        ("edit 3 jmp 0", "expected a turn and an edit"),
        ("1 edit 3", "`1 edit 3` is impossible: expected an address and a line of source"),
        ("1 walk 3 4", "expected a turn and an edit"),
        ("1 quit", "expected a turn and an edit"),
        ("1 edit 8000 jmp 0", "`8000` is not an address"),
        ("1 fill 6 5 jmp 0", "the first address is above the last"),
        ("1 edit 3 jmq 0", "`jmq 0` is not an instruction: 2 Operation"),
    ],
)
def test_wrong_edits(run: Run, tmp_path: Path, edit: str, why: str) -> None:
    done = run("page", "--edit", edit, "@imp")
    assert done.returncode == 2 and why in done.stderr and not (tmp_path / "battle.html").exists()


@pytest.mark.parametrize(
    "edits, why",
    [
        (["1 kill 9 0"], "`1 kill 9 0` is impossible: no warrior `9`"),
        (["5 kill 0 0", "3 kill 0 0"], "`5 kill 0 0` is impossible: the battle has turns 0 to 3"),
        (["160001 edit 3 jmp 0"], "is impossible: the battle has turns 0 to 160000"),
        (["1 edit 3 jmp \udcff"], "is not an instruction: 1 Text 1 NotAscii"),
    ],
)
def test_impossible_edits(run: Run, tmp_path: Path, edits: list[str], why: str) -> None:
    """Each edit is checked in the battle, after the edits of earlier turns."""
    done = run("page", *(word for edit in edits for word in ("--edit", edit)), "@imp", "@gate")
    assert done.returncode == 2 and why in done.stderr and not (tmp_path / "battle.html").exists()


def test_edits_are_in_the_order_of_their_turns(run: Run, tmp_path: Path) -> None:
    assert run("page", "--edit", "9 edit 3 jmp 0", "--edit", "5 spawn 0 7", "@imp", "@gate").returncode == 0
    fight = unpacked((tmp_path / "battle.html").read_text())
    assert fight["e"] == [[5, "spawn 0 7"], [9, "edit 3 JMP.B $0, $0"]]


def test_battles_that_the_site_does_not_show(run: Run, tmp_path: Path) -> None:
    """A battle that is too long is rejected, but a short battle may have the same limit of cycles."""
    long = ["-c", 8_000_001]
    done = run("page", *long, "@imp", "@imp")
    assert done.returncode == 1 and "the battle has 16000002 turns, but a page shows at most 16000000" in done.stderr
    assert run("page", *long, "@dwarf", "@imp").returncode == 0
    limits = (TOP / "site" / "src" / "model" / "settings.js").read_text()
    assert f"MAX_TURNS = {MAX_TURNS:_};" in limits


def test_texts_of_strangers_are_no_html(run: Run, tmp_path: Path) -> None:
    source = ";redcode\n;name <script>alert(1)</script>\n;author </script><b>x\nDAT 0, 0\n"
    run("page", "-", "@imp", input=source)
    text = (tmp_path / "battle.html").read_text()
    assert "<script>alert" not in text and unpacked(text)["w"][0] == ["-", source]
    run("rounds", "-", "@imp", "--pages", "pages", input=source)
    assert "<script>alert" not in (tmp_path / "pages" / "index.html").read_text()


def test_pictures_of_each_kind(run: Run, tmp_path: Path) -> None:
    for ending, begin in (("png", b"\x89PNG"), ("svg", b"<?xml"), ("pdf", b"%PDF")):
        words = ["--rows", 50, "--columns", 80, "--cells", "100-900", "--from", 500]
        done = run("picture", "-o", f"fight.{ending}", *words, "@dwarf", "@paper")
        assert (done.returncode, done.stdout) == (0, f"fight.{ending}: 23543 turns\n")
        assert (tmp_path / f"fight.{ending}").read_bytes().startswith(begin)
    assert "expected A-B with addresses from 0 to 7999" in run("picture", "--cells", "9-8000", "@dwarf", "@imp").stderr


def test_a_picture_is_the_same_each_time(run: Run, tmp_path: Path) -> None:
    """A picture has the same bytes if it is drawn at another time, by another process."""
    for ending in ("png", "svg", "pdf"):
        for name in ("a", "b"):
            run("picture", "-o", f"{name}.{ending}", "--rows", 5, "--columns", 5, "@imp", "@gate")
            time.sleep(1.1 if name == "a" and ending == "pdf" else 0)
        assert (tmp_path / f"a.{ending}").read_bytes() == (tmp_path / f"b.{ending}").read_bytes(), ending


def test_the_points_of_a_picture() -> None:
    """An imp in a core of 8 cells: in row K, from 0, its process is in column K + 1, its own cells are before this
    column, and white is after it.
    """
    from corewar.pictures.timeline import View, pixels_of

    imp = read(EXAMPLES / "imp.red", warriors=1)
    history = History(Match((imp,), settings=Settings(core=8, cycles=7, longest=1, distance=1)))
    pixels = pixels_of(history, View(list(range(8)), range(8), 8))
    owned, process = pixels[0, 0], pixels[0, 1]
    for row in range(7):
        assert (pixels[row, row + 1] == process).all()
        assert all((pixels[row, column] == owned).all() for column in range(row + 1))
        assert (pixels[row, row + 2 :] == 1).all()


def test_a_figure_is_the_picture(run: Run, tmp_path: Path, monkeypatch: pytest.MonkeyPatch) -> None:
    """`History.figure` is the picture that `corewar picture` writes; a missing matplotlib is reported."""
    history = History(Match([read(EXAMPLES / f"{name}.red") for name in ("dwarf", "imp")]))
    run("picture", "-o", "fight.png", "@dwarf", "@imp")
    history.figure().savefig(tmp_path / "figure.png")
    assert (tmp_path / "figure.png").read_bytes() == (tmp_path / "fight.png").read_bytes()
    monkeypatch.delitem(sys.modules, "corewar.pictures.timeline")
    modules: dict[str, Any] = sys.modules
    monkeypatch.setitem(modules, "matplotlib", None)
    with pytest.raises(
        ImportError,
        match=r"a figure requires matplotlib, Debian's python3-matplotlib, or with pip corewar\[pictures\]: ",
    ):
        history.figure()


def test_rounds(run: Run, tmp_path: Path) -> None:
    done = run("rounds", "-r", 3, "@dwarf", "@imp", "--pages", "match")
    lines = done.stdout.splitlines()
    assert done.returncode == 0 and lines[0] == "warrior 0: Dwarf by A. K. Dewdney, 4 cells"
    assert lines[3].startswith("    0 1305      win  loss     7798  corewar debug -r 3 ")
    assert lines[4].startswith("    1 ") and "--round 1" in lines[4]
    table = run("fight", "-r", 3, "@dwarf", "@imp").stdout.splitlines()
    assert table[1].split()[1:4] == ["2", "1", "0"] and "Dwarf by A. K. Dewdney: 2 wins, 1 tie, 0 losses" in lines
    assert done.stdout.endswith("match: index.html and match.html\n")
    index = (tmp_path / "match" / "index.html").read_text()
    assert all(f'href="match.html#r={number}"' in index for number in range(3))
    assert unpacked((tmp_path / "match" / "match.html").read_text())["n"] == 3
