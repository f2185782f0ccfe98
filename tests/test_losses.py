"""Tests what `why`, `study` and `rounds` say of a match or a warrior, how a terminal shows it, and `help` and `new`."""
from __future__ import annotations

import os
import re
from collections import Counter
from pathlib import Path

import pytest
from conftest import ENVIRONMENT, EXAMPLES, Run, begin

from corewar.analysis.endings import last_executed, summarize_last_turns
from corewar.battle.history import History
from corewar.battle.labels import Sources
from corewar.engine.calls import Match, match
from corewar.engine.sources import read
from corewar.model.printing import broken


def test_a_tie(run: Run, tmp_path: Path) -> None:
    """The report on the last turns of survivors has lines of other warriors and cells of load files, at most eight."""
    lines = run("why", "@boot", "@imp").stdout.splitlines()
    assert lines[:5] == [
        "No warrior died; the battle is over: Stranger and Imp survive.",
        "Stranger is alive after turn 160000, the last one, with 1 process.",
        "Its last 1000 turns:",
        "  turns  cells written  line",
        "   1000           1000  Imp 5: MOV.I 0, 1",
    ]
    assert re.fullmatch(r"In its last turns, Imp executed \d+ of the cells written\.", lines[5])
    (tmp_path / "a.load").write_bytes(read(EXAMPLES / "imp.red").load)
    loaded = run("why", "-c", 10, "a.load").stdout
    assert loaded.endswith("Its last 10 turns:\n  turns  cells written  line\n     10             10  MOV.I $0, $1\n")
    (tmp_path / "long.red").write_text("NOP\n" * 20 + "JMP -20\n")
    assert run("why", "long.red").stdout.endswith("in 13 more lines\n")
    (tmp_path / "dat.red").write_text("DAT 0\n")
    melee = run("why", "dat.red", "@gate", "long.red").stdout
    assert melee.startswith("dat.red died in turn 1:\n") and melee.count(" is alive after turn ") == 2
    assert run("why", "dat.red", "@gate").stdout.count(" is alive after turn ") == 0


@pytest.mark.parametrize("names", [("silk", "paper"), ("dwarf", "imp"), ("gate", "silk"), ("boot", "imp", "spiral")])
def test_lines_at_the_end_are_those_of_the_turns(names: tuple[str, ...]) -> None:
    """The lines that are shown for a match are among those found by the origins of the cells, and ties are counted."""
    warriors = [read(EXAMPLES / f"{name}.red") for name in names]
    fight, ties = Match(warriors, rounds=4), Counter[int]()
    for number in range(4):
        history = History(fight, number)
        sources, living = Sources(history), [one for one in range(len(names)) if history.death(one) is None]
        for one in living if len(living) > 1 else []:
            ties[(one + number) % len(names)] += 1
            traced = {
                (line.warrior, line.number)
                for found in last_executed(history, one)
                if (line := sources.line(history, int(found["address"]), int(found["turn"]) - 1))
            }
            summary = summarize_last_turns(history, sources, history.names, one)
            for owner, numbers in re.findall(r"(?:(\w+)'s )?lines? ((?:[\d-]+(?:, (?=\d))?)+)", summary):
                for first, last in re.findall(r"(\d+)(?:-(\d+))?", numbers):
                    of = history.names.index(owner) if owner else one
                    assert {(of, line) for line in range(int(first), int(last or first) + 1)} <= traced, summary
    assert [ties[number] for number in range(len(names))] == [row.ties for row in match(warriors, rounds=4)]


def test_the_ways_to_die(run: Run, tmp_path: Path) -> None:
    """A warrior dies on its own cell that it hit itself, on a cell that has not changed, in empty core, or by a line of
    a load file, which is unknown.
    """
    sources = {
        "suicide": ";name Suicide\nMOV 2, 1\nNOP\nDAT 0\n",
        "dat": ";name Dat\nDAT 0\n",
        "far": ";name Far\nJMP 50\n",
        "wait": ";name Wait\nJMP 0\n",
    }
    for name, text in sources.items():
        (tmp_path / f"{name}.red").write_text(text)
    expected = {
        "suicide": "its line 3: NOP  itself, by line 2: MOV 2, 1",
        "dat": "its line 2: DAT 0  nothing: the cell has not changed",
        "far": "empty core  nothing: the cell has not changed",
    }
    for name, row in expected.items():
        lines = run("why", "-r", 3, f"{name}.red", "wait.red").stdout.splitlines()
        assert lines[0].endswith(" lost 3 of 3 rounds:") and lines[2].split(None, 2) == ["3", "0", row], lines
    (tmp_path / "dwarf.load").write_bytes(read(EXAMPLES / "dwarf.red").load)
    output = run("why", "-r", 20, "dwarf.load", "@imp").stdout
    assert "     7     0  its line 5: MOV.I 0, 1  Dwarf, by an unknown line\n" in output


def test_losses_are_those_of_the_match(run: Run) -> None:
    """For each warrior, `why` counts the losses and ties that `fight` prints: in matches of two and three warriors, and
    in one of a warrior against itself.
    """
    for files in (["@silk", "@paper"], ["@vampire", "@dwarf", "@scanner"], ["@dwarf", "@dwarf"]):
        rows = run("fight", "-r", 9, *files).stdout.splitlines()[1:]
        output = run("why", "-r", 9, *files).stdout
        found = re.findall(r"^(.*) lost (\d+) of 9 rounds:$", output, re.M)
        assert [int(count) for _, count in found] == [int(row.split()[3]) for row in rows if int(row.split()[3])]
        tied = re.findall(r"^(.*) tied (\d+) of 9 rounds:$", output, re.M)
        assert [int(count) for _, count in tied] == [int(row.split()[2]) for row in rows if int(row.split()[2])]
        assert sum(map(int, re.findall(r"^ +(\d+) ", output, re.M))) == sum(int(count) for _, count in found + tied)


def test_why_of_several_processes(run: Run) -> None:
    """The first hit on the loaded code of a warrior with several processes is added."""
    output = run("why", "@paper", "@bomber").stdout
    assert "The first hit of another warrior on its loaded code was:\nturn " in output
    assert "The first hit" not in run("why", "@dwarf", "@imp").stdout


def test_a_round_that_a_match_does_not_have(run: Run) -> None:
    for command in ("why", "trace", "debug", "page"):
        done = run(command, "-r", 3, "--round", 3, "@imp")
        assert done.returncode == 2 and "--round: a match of 3 has rounds 0 to 2" in done.stderr
    assert (
        run("why", "-r", 3, "--round", 2, "@imp").returncode == 0 and run("why", "--round", 7, "@imp").returncode == 0
    )


def test_study(run: Run, tmp_path: Path) -> None:
    assert run("study", "@dwarf").stdout == (
        "Dwarf without an opponent: 4 cells, at most 1 process; survives 80000 turns.\n"
        "It never writes another opcode over its own code.\n"
        "It writes to 2000 of 8000 cells:\n"
        "  writes  cells by turn  stride               line\n"
        "   26667   2000    5999  4                    10: MOV bomb, @bomb\n"
        "   26667      1       1  0                    9: loop ADD #step, bomb\n"
        "It scans nothing outside its code.\n"
    )
    scanner = run("study", "@scanner").stdout
    assert "\n   53232   7990   12002  14                   11: look SEQ scan + hop, scan + hop + gap\n" in scanner
    hit = run("study", "@vampire").stdout
    assert "\nIt first hits itself in turn 2935: line 24 at 14 overwrites line 16 at 5.\n" in hit
    assert run("study", "--hill", "nano", "@imp").stdout.startswith(
        "Imp without an opponent: 1 cell, at most 1 process; survives "
    )
    (tmp_path / "dwarf.load").write_bytes(read(EXAMPLES / "dwarf.red").load)
    assert "4                    cell 1: MOV.I $2, @2\n" in run("study", "dwarf.load").stdout
    (tmp_path / "dat.red").write_text("DAT 0\n")
    assert run("study", "dat.red").stdout == (
        "dat.red without an opponent: 1 cell, at most 1 process; dies after 1 turn.\n"
        "It never writes another opcode over its own code.\nIt writes nothing.\nIt scans nothing outside its code.\n"
    )
    (tmp_path / "dat.red").write_text("dat <2, <3\n")
    assert "It writes to 2 of 8000 cells:" in run("study", "dat.red").stdout
    none = run("study", "none.red")
    assert (none.returncode, none.stderr) == (1, "corewar: none.red: No such file or directory\n")
    # The source and its lines are assembled as for a match of two.
    (tmp_path / "two.red").write_text(";assert WARRIORS == 2\nloop MOV 0, 1\n")
    assert " 2: loop MOV 0, 1\n" in run("study", "two.red").stdout
    # At most a million turns are run.
    assert "survives 1000000 turns." in run("study", "-c", 5_000_000, "@gate").stdout
    assert all(len(run("study", file).stdout.splitlines()) < 24 for file in sorted(EXAMPLES.glob("*.red")))


def test_a_terminal_breaks_lines_at_spaces(run: Run, tmp_path: Path) -> None:
    """Without a terminal, lines are not broken."""
    pexpect = pytest.importorskip("pexpect", reason="package python3-pexpect")
    environment = {**os.environ, "TERM": "xterm", "XDG_STATE_HOME": str(tmp_path), "NO_COLOR": "1"}
    scanner = str(EXAMPLES / "scanner.red")
    for words in (["study", scanner], ["explain", "ADD #step, {ptr"], ["why", scanner, str(EXAMPLES / "silk.red")]):
        whole = run(*words).stdout
        with pexpect.spawn(
            str(EXAMPLES.parent / "corewar"), words, env=environment, timeout=20, dimensions=(40, 50), encoding="utf-8"
        ) as child:
            child.expect(pexpect.EOF)
            lines = child.before.splitlines()
        assert max(map(len, whole.splitlines())) > 50 >= max(map(len, lines)), words
        assert " ".join(lines).split() == whole.split()
    assert broken("help  list all commands", 16) == "help  list all\n      commands"
    assert broken("  a sentence of words", 16) == "  a sentence of\n      words"
    # With the indent of a column further right, it would be three lines.
    assert broken("1  two  a name of seven letters", 18) == "1  two  a name of\n    seven letters"


def test_colours(run: Run) -> None:
    """Colours are for terminals, and can be forced or turned off."""
    forced = run("--color", "always", "trace", "--turns", 1, "@dwarf", "@imp").stdout
    plain = run("trace", "--turns", 1, "@dwarf", "@imp").stdout
    assert "\x1b[94mImp\x1b[0m" in forced and re.sub(r"\x1b\[\d*m", "", forced) == plain
    for when, environment in (("never", ENVIRONMENT), ("auto", {**ENVIRONMENT, "NO_COLOR": "1"})):
        ours, theirs = os.openpty()
        words = ["--color", when, "trace", "--turns", 1, EXAMPLES / "imp.red"]
        with begin(*words, env=environment, stdout=theirs):
            os.close(theirs)
            assert b"\x1b[9" not in os.read(ours, 4096)
        os.close(ours)


def test_a_reader_that_has_enough() -> None:
    words = ["trace", "--from", 1, "--turns", 5000, EXAMPLES / "dwarf.red", EXAMPLES / "imp.red"]
    with begin(*words) as process:
        assert process.stdout and process.stdout.readline().startswith("turn 1: ")
        process.stdout.close()
        assert process.stderr and (process.stderr.read(), process.wait()) == ("", 0)


def test_help_is_a_command(run: Run) -> None:
    assert run("help").stdout == run("--help").stdout and run("help", "why").stdout == run("why", "--help").stdout
    assert run("help", "whi").stderr.endswith("unknown command `whi`; did you mean `why`?\n")


def test_a_first_folder(run: Run, tmp_path: Path) -> None:
    """`new` writes the warrior of the tutorial, and names a command that runs."""
    done = run("new", "mine")
    assert done.returncode == 0 and "next: corewar challenge mine/first.red mine/examples\n" in done.stdout
    tutorial = (EXAMPLES.parent / "docs" / "user" / "TUTORIAL.md").read_text()
    assert (tmp_path / "mine" / "first.red").read_text() in tutorial
    assert len(run("challenge", "-r", 1, "mine/first.red", "mine/examples").stdout.splitlines()) == 15
    again = run("new", "mine")
    assert (again.returncode, again.stderr) == (1, "corewar: mine: already exists\n")


def test_positions_of_rounds(run: Run) -> None:
    """The positions of two warriors are what `-F` accepts; of more warriors, the addresses of all but the first."""
    lines = run("rounds", "-r", 2, "@dwarf", "@imp").stdout.splitlines()
    assert lines[1:3] == ["warrior 1: Imp by A. K. Dewdney, 1 cell", lines[2]] and "position" in lines[2]
    for number, line in enumerate(lines[3:5]):
        same = run("rounds", "-r", 2, "-F", line.split()[1], "@dwarf", "@imp").stdout.splitlines()[3 + number]
        assert same.split()[4] == line.split()[4]
    assert len(run("rounds", "@dwarf", "@imp", "@paper").stdout.splitlines()[4].split()[1:3]) == 2
