"""dev/checks/evaluate, which compares the values of definitions with what the library computes, and dev/checks/vectors.
"""
from __future__ import annotations

import random
import re
import subprocess
import sys
from pathlib import Path

import pytest
from conftest import TOP
from counting import skip
from peer import build_pmars

sys.path.insert(0, str(TOP / "dev" / "checks"))
from comparing.comparison import shown, where_different  # noqa: E402
from comparing.running import AREAS, NEEDS, compare  # noqa: E402

COMMAND = TOP / "dev" / "checks" / "evaluate"


def require(area: str) -> None:
    """Skips a test on a machine without what an area needs. For the area `pmars`, pMARS is built if it is missing."""
    if area == "pmars":
        build_pmars()
    if area in NEEDS and not NEEDS[area][0]():
        skip(area, NEEDS[area][1])


def test_differences_are_shown() -> None:
    one, other = {"a": (1, {"b": 2})}, {"a": (1, {"b": 3})}
    assert where_different(one, other) == ".a[1].b: 2, not 3"
    assert shown("0123456789", 6) == "'01 .. 89'"


@pytest.mark.parametrize("area", [name for name in AREAS if name != "examples"])
def test_definitions_are_what_is_computed(area: str) -> None:
    """The inputs are others than those of dev/checks/evaluate."""
    require(area)
    count = 3 + AREAS[area].usual // 60
    result = compare(area, 2, 0, count)
    assert result.difference == "" and result.inputs == count and result.counts


# Mistakes in definitions: an area that finds each, the file, a text that occurs once in it, and its replacement.
MISTAKES = [
    ("examples", "mars_core/specs/Operand.antt", "(lowered p.core_size)", "(raised p.core_size)"),
    ("machine", "mars_core/specs/Turn.antt", "length (drop 1 queue)) (front", "length (drop 0 queue)) (front"),
    ("machine", "mars_core/specs/ReferenceCode.antt", "(λ y x. y + m - x)", "(λ y x. x + m - x)"),
    ("machine", "mars_core/specs/Touched.antt", "pc b.operand.write ∷ []", "pc b.operand.read ∷ []"),
    ("machine", "mars_c/specs/Records.antt", "slice_get atom.cells.items 2", "slice_get atom.cells.items 1"),
    ("wasm", "mars_core/specs/Addresses.antt", "nat_lt (limit / 2) r", "nat_lt (limit / 3) r"),
    ("pmars", "mars_core/specs/Start.antt", "((s + w.start) % m)", "((s + 0) % m)"),
    ("edits", "mars_core/specs/Edit.antt", "s.params.processes then None", "s.params.cycles then None"),
    ("edits", "mars_c/specs/Codes.antt", "edit_number edit.QueueFull = 7", "edit_number edit.QueueFull = 8"),
    (
        "follows",
        "mars_core/specs/Past.antt",
        "changes s address then s.turns + 1",
        "changes s address then s.turns + 0",
    ),
    ("follows", "mars_core/specs/Past.antt", "if copy.to == address", "if copy.from == address"),
    ("follows", "mars_core/specs/Search.antt", "nat_le first number || nat_le", "nat_le first number && nat_le"),
    ("follows", "mars_core/specs/Search.antt", "&& not (writes s address)", "&& not (changes s address)"),
    ("blocks", "mars_core/specs/Validity.antt", "clock.next + 1", "clock.next + 2"),
    ("loads", "mars_cell/specs/Numbers.antt", "nat_le (length word) 18", "nat_le (length word) 17"),
    ("sources", "redcode_text/specs/Equates.antt", "depth_limit = 32", "depth_limit = 31"),
    ("sources", "redcode_asm/specs/Assembly.antt", "name_value ps source 0 p.index", "name_value ps source 1 p.index"),
    ("formulas", "redcode_text/specs/Expression.antt", "precedence Percent = 1", "precedence Percent = 2"),
    ("placement", "mars_match/specs/Placement.antt", "(16807 * seed)", "(16806 * seed)"),
    ("contests", "mars_match/specs/Populations.antt", "ties = sum.ties + row.ties", "ties = sum.ties + row.wins"),
    (
        "fights",
        "mars_match/specs/Rounds.antt",
        "has_lived i outcome && (how_many outcome.lived == 1)",
        "has_lived i outcome && false",
    ),
    ("debugger", "mars_session/specs/Retention.antt", "take k before", "take 1 before"),
    ("program", "mars_match/specs/Placement.antt", "(16807 * seed)", "(16806 * seed)"),
]


@pytest.mark.parametrize("area, file, before, after", MISTAKES)
def test_a_mistake_in_a_definition_is_found(area: str, file: str, before: str, after: str) -> None:
    require(area)
    text = (TOP / "crates" / file).read_text()
    assert text.count(before) == 1
    result = compare(area, 1, 0, AREAS[area].usual, {f"crates/{file}": text.replace(before, after)})
    assert result.difference.startswith("DIFFERENT in ")
    assert f"\n  again: dev/checks/evaluate --only {area} --seed 1 --first " in result.difference


def test_command() -> None:
    def run(*words: str) -> subprocess.CompletedProcess[str]:
        return subprocess.run([COMMAND, *words], capture_output=True, text=True)

    done = run("--only", "machine", "--count", "3", "--first", str(random.randrange(100)))
    assert done.stdout.startswith("machine: 3 inputs: 3 battles, 3 calls, ") and done.returncode == 0
    assert done.stdout.endswith(": equal\n1 passed, 0 failed\n")
    assert run("--only", "turns").stderr.startswith("evaluate: no area is named turns: examples, machine, ")
    text = "def mars_core__Addresses__raised(a0, a1):\n    return remainder((a1 + 1), a0)\n"
    assert run("--python", "mars_core.Addresses.raised").stdout == text
    found = run("--mistakes", "machine,edits", "--only", "Effect", "--count", "9").stdout.splitlines()
    assert re.fullmatch(r"\d+ found, \d+ not found", found[-1]) and found[0].startswith("mars_core: ")
    assert re.search(r"^mars_core: 1\d\d computed, ", run("--list").stdout, re.M)


def test_vectors(tmp_path: Path) -> None:
    """The same seed gives the same files, and pMARS agrees with them, except with a file that was changed."""
    command = TOP / "dev" / "checks" / "vectors"
    for name in ("one", "other"):
        subprocess.run([command, tmp_path / name, "--count", "25"], check=True)
    texts = {path.name: path.read_text("latin-1") for path in sorted((tmp_path / "one").iterdir())}
    assert [*texts] == ["battles.txt", "matches.txt", "sources.txt"]
    for name, text in texts.items():
        assert text.startswith("number 0\ncore ") and (tmp_path / "other" / name).read_text("latin-1") == text
    require("pmars")
    done = subprocess.run([command, "--pmars", tmp_path / "one"], capture_output=True, text=True)
    assert (done.returncode, len(done.stdout.splitlines())) == (0, 3)
    (tmp_path / "one" / "battles.txt").write_text(texts["battles.txt"].replace("lives 1 0", "lives 0 1"))
    done = subprocess.run([command, "--pmars", tmp_path / "one"], capture_output=True, text=True)
    assert done.returncode == 1 and done.stdout.startswith("wrong: battles ")
