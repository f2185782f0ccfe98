"""The reports of `why`, `trace` and `changed` on a battle, and what all commands share: help, wrong arguments, streams,
names of files, and Ctrl-C.
"""
from __future__ import annotations

import os
import re
import signal
import subprocess
import sys
import time
from concurrent.futures import ProcessPoolExecutor
from pathlib import Path

import click
import pytest
from conftest import ENVIRONMENT, EXAMPLES, Run, begin

from corewar.analysis.losses import fates_of_rounds, lost_rounds
from corewar.cli.main import COMMANDS, Commands, commands
from corewar.engine.calls import Match, match
from corewar.engine.sources import read

DEATH = """Imp died in turn 7798:
turn 7798: Imp at 5203: DAT.F #0, #-2800
    line 12 of Dwarf: bomb DAT #0, #0
Cell 5203 was last changed in turn 7797:
turn 7797: Dwarf at 1: MOV.I $2, @2; reads 3 (bomb)
    5203: MOV.I $0, $1 -> DAT.F #0, #-2800
    line 10 of Dwarf: MOV bomb, @bomb
Its turns before that:
turn 7796: Imp at 5202: MOV.I $0, $1
    5203: DAT.F $0, $0 -> MOV.I $0, $1
"""


LIFE = """Dwarf is alive after turn 7798, the last one, with 1 process.
Its last 1000 turns:
  turns  cells written  line
    334            334  10: MOV bomb, @bomb
    333              1  9: loop ADD #step, bomb
    333              0  11: JMP loop
"""


def test_why(run: Run) -> None:
    assert run("why", "--turns", 1, "@dwarf", "@imp").stdout == DEATH
    assert run("why", "--turns", 1, "--of", "imp", "@dwarf", "@imp").stdout == DEATH
    assert run("why", "--of", 0, "@dwarf", "@imp").stdout == LIFE
    lines = run("why", "@imp").stdout.splitlines()
    assert lines[0] == "No warrior died; the battle is over: Imp survives."
    assert lines[-1] == "   1000           1000  5: MOV.I 0, 1"
    bad = run("why", "--of", "nobody", "@dwarf", "@imp")
    assert bad.returncode == 2 and "no warrior `nobody`; the warriors are 0 Dwarf, 1 Imp" in bad.stderr


def test_why_finds_the_bomb_on_an_equal_opcode(run: Run, tmp_path: Path) -> None:
    """A bomb on an empty cell changes no opcode. The victim then counts a number of this cell down, but the instruction
    is not from the victim.
    """
    (tmp_path / "bomber.red").write_text(";name Bomber\nMOV 2, 60\nJMP 0\nDAT #1, #1\n")
    (tmp_path / "victim.red").write_text(";name Victim\nSUB #1, -40\nJMP -41\n")
    lines = run("why", "-F", 100, "bomber.red", "victim.red").stdout.splitlines()
    assert lines[3:11] == [
        "Cell 60 was last changed in turn 2:",
        "turn 2: Victim at 100: SUB.AB #1, $-40",
        "    60: DAT.F #1, #1 -> DAT.F #1, #0",
        "    line 2 of Victim: SUB #1, -40",
        "Its instruction was copied there in turn 1:",
        "turn 1: Bomber at 0: MOV.I $2, $60; reads 2",
        "    60: DAT.F $0, $0 -> DAT.F #1, #1",
        "    line 2 of Bomber: MOV 2, 60",
    ]
    rounds = run("why", "-r", 2, "-F", 100, "bomber.red", "victim.red").stdout
    # In the second round the victim counts before the bomb falls.
    assert "     2     0  empty core  Bomber, by line 2: MOV 2, 60\n" in rounds


def test_why_shows_what_another_wrote(run: Run) -> None:
    """If a warrior executed a cell of another one, the turn that wrote it is reported, however far back."""
    output = run("why", "--turns", 2, "--of", "Dwarf", "@dwarf", "@paper").stdout
    assert output.startswith("Dwarf died in turn 23543:\n")
    assert "Cell 2 was last changed in turn 23538:\nturn 23538: Folder at 5281" in output


def test_a_round_and_names(run: Run) -> None:
    """In round 1 the second file begins, and a name is that of the same file in each round."""
    output = run("why", "-r", 2, "--round", 1, "--of", "imp", "@dwarf", "@imp").stdout
    assert output.startswith("Imp died in turn 6809:\n")
    assert run("trace", "-r", 2, "--round", 1, "--from", 1, "--turns", 1, "@dwarf", "@imp").stdout.startswith(
        "turn 1: Imp at 1139"
    )


def test_trace(run: Run) -> None:
    output = run("trace", "--from", 1, "--turns", 2, "@dwarf", "@imp").stdout
    assert output == (
        "turn 1: Dwarf at 0 (loop): ADD.AB #4, $3\n    3 (bomb): DAT.F #0, #0 -> DAT.F #0, #4\n"
        "turn 2: Imp at 1305: MOV.I $0, $1\n    1306: DAT.F $0, $0 -> MOV.I $0, $1\n"
    )
    assert len([line for line in run("trace", "@dwarf", "@imp").stdout.splitlines() if line.startswith("turn")]) == 20
    assert "the battle ends after turn 7798" in run("trace", "--from", 7799, "@dwarf", "@imp").stderr


def test_changed(run: Run) -> None:
    assert run("changed", "--cell", 5203, "--before", 7797, "@dwarf", "@imp").stdout.startswith(
        "Cell 5203 was last changed in turn 7796:\n"
    )
    both = run("changed", "--cell", "bomb", "@dwarf", "@dwarf")
    assert both.returncode == 2 and "`bomb` is a label of several warriors; use 0.bomb or 1.bomb" in both.stderr
    assert run("changed", "--cell", 4, "@dwarf", "@imp").stdout == "Cell 4 has not changed since the start.\n"
    assert (
        "`8000` is neither a label nor an address below 8000" in run("changed", "--cell", 8000, "@dwarf", "@imp").stderr
    )


def test_wrong_arguments_and_files(run: Run, tmp_path: Path) -> None:
    """A wrong argument and a file with an error are reported, without a traceback."""
    for words, error in (
        (["why", "-r", "0", "@imp"], "expected a number from 1 to 100000, not `0`"),
        (["why", "--hil", "nano", "@imp"], "No such option: --hil"),
        (["frobnicate"], "unknown command `frobnicate`; `corewar --help` lists all commands"),
        (["fght", "@imp"], "unknown command `fght`; did you mean `fight`?"),
        (["why"], "Missing argument 'FILE...'"),
        (["why", "--source-limit", "0", "@imp"], "expected S or S,MB with numbers from 1 to 1000000, not `0`"),
    ):
        done = run(*words)
        assert done.returncode == 2 and error in done.stderr and "Traceback" not in done.stderr
    done = run("why", "nowhere.red")
    assert (done.returncode, done.stderr) == (1, "corewar: nowhere.red: No such file or directory\n")
    seventeen = run("why", *["@imp"] * 17)
    assert seventeen.returncode == 2 and "a match has at most 16 warriors, not 17; `corewar league`" in seventeen.stderr
    (tmp_path / "stone.red").write_text("DAT 0\n")
    for command in ("fight", "why", "study", "explain", "web"):
        meant = run(command, "stone")
        error = "corewar: stone: No such file or directory; did you mean `stone.red`?\n"
        assert (meant.returncode, meant.stderr) == (1, error), command
    folder = run("study", ".")
    assert (folder.returncode, folder.stderr) == (1, "corewar: .: Is a directory; expected a file\n")


def test_the_help_has_a_whole_sentence_for_each_command() -> None:
    """At 80 columns, each sentence fits into a line; at fewer columns, none is cut."""
    assert isinstance(commands, Commands)
    context = click.Context(commands)
    # As click computes it: its help leaves 2 columns of a terminal free, and uses 6 around the names of commands.
    width = 80 - 2 - 6 - max(map(len, COMMANDS))
    for name in COMMANDS:
        command = commands.get_command(context, name)
        assert command and not command.get_short_help_str(width).endswith("..."), name
    narrow, wide = (
        begin("--help", env={**ENVIRONMENT, "COLUMNS": columns}).communicate()[0].split() for columns in ("60", "80")
    )
    assert narrow == wide


def test_streams(run: Run) -> None:
    """A warrior may come from standard input; a full device for standard output is reported in one line."""
    source = (EXAMPLES / "imp.red").read_text()
    assert run("why", "-", input=source).stdout.startswith("No warrior died")
    with open("/dev/full", "w") as full:
        done = run("trace", "@dwarf", "@imp", stdout=full, capture_output=False, stderr=-1)
    assert done.returncode == 1 and done.stderr == "corewar: No space left on device\n"


def test_streams_that_are_closed_or_no_text(run: Run) -> None:
    """A closed stream is no error, and bytes that are not text do not end a session."""
    words = "import os, sys; [os.close(n) for n in map(int, sys.argv[1])]; os.execv(sys.argv[2], sys.argv[2:])"
    for closed in ("0", "1", "01", "012"):
        for command in ("why", "debug"):
            launcher = [sys.executable, "-c", words, closed, str(EXAMPLES.parent / "corewar"), command]
            done = subprocess.run(
                [*launcher, str(EXAMPLES / "imp.red")], stdin=subprocess.DEVNULL, capture_output=True, text=True
            )
            assert (done.returncode, done.stderr) == (0, ""), (closed, command)
    assert run("debug", "@imp", input=b"step\n\xff\nstep\n").stdout.count("turn 2:") == 1


def test_names_of_files_that_are_no_text(run: Run, tmp_path: Path) -> None:
    """A file's name replaces a missing name of a warrior, with `?` for characters unfit for a terminal or a page."""
    name = os.fsdecode(b"a\xff\x1b[31m.red")
    (tmp_path / name).write_text("mov 0, 1\n")
    assert run("why", name).stdout.startswith("No warrior died; the battle is over: a??[31m.red survives.\n")
    assert run("page", "-o", "a.html", name).returncode == 0
    assert run("rounds", "--pages", "folder", name).returncode == 0
    assert "a??[31m.red by Anonymous" in run("fight", name).stdout
    assert run("league", "--pages", "league", name, "@imp").returncode == 0
    assert "a??[31m.red by Anonymous" in (tmp_path / "league" / "index.html").read_text()


def test_arguments_are_printed_safely(run: Run, tmp_path: Path) -> None:
    """Names of strangers' files may begin with a dash, and have any character."""
    for words in (["league", "-\x1b[2J.red", "a.red"], ["fight", "--\x1b[2J", "a.red"], ["fight", "-r", "\x1b[2J"]):
        done = run(*words)
        assert done.returncode == 2 and "?" in done.stderr and "\x1b" not in done.stderr
    for command in ("picture", "page"):
        done = run(command, "-o", "\x1b[2J.svg", "@imp", "@gate")
        assert done.returncode == 0 and done.stdout.startswith("?[2J.svg: ")


def test_a_library_that_is_none_is_reported(run: Run, tmp_path: Path) -> None:
    """Another library and another header are reported by their file names."""
    (tmp_path / "other.h").write_text("int other;\n")
    for name, path, error in (
        ("MARS_LIBRARY", "libc.so.6", "corewar: libc.so.6: "),
        ("MARS_LIBRARY", "other.h", "corewar: other.h: "),
        ("MARS_HEADER", "other.h", "corewar: other.h is not the header of this version: it has no MARS_"),
    ):
        done = run("fight", "@imp", env={**ENVIRONMENT, name: path})
        assert done.returncode == 1 and done.stderr.startswith(error) and done.stderr.count("\n") == 1


def test_names_are_no_formulas(run: Run, tmp_path: Path) -> None:
    """`$` and `_` have a meaning in matplotlib."""
    (tmp_path / "odd.red").write_text(";name _a$x^$\n;author $\\frac$\nmov 0, 1\n")
    for words in (["picture", "-o", "a.svg"], ["league", "--picture", "b.svg", "@dwarf"]):
        done = run(*words, "odd.red")
        assert (done.returncode, done.stderr) == (0, ""), words


def test_impossible_numbers_and_names(run: Run) -> None:
    """Numbers of thousands of digits and empty names of files are reported, without a traceback."""
    long = "1" * 5000
    for words, error in (
        (["why", "--of", long, "@imp"], "no warrior `1111"),
        (["changed", "--cell", long, "@imp"], "is neither a label"),
        (["picture", "--cells", f"0-{long}", "@imp"], "expected A-B"),
        (["why", "--source-limit", long, "@imp"], "expected S or S,MB"),
        (["debug", "--round", long[:30], "@imp"], "expected a number from 0 to 99999"),
        (["picture", "-o", "a.xyz", "@imp"], "expected a name that ends in .png, .svg or .pdf"),
        (["page", "-o", "", "@imp"], "expected a name, not an empty argument"),
        (["rounds", "--pages", "", "@imp"], "expected a name, not an empty argument"),
        (["league", "--results", "", "@imp", "@dwarf"], "expected a name, not an empty argument"),
    ):
        done = run(*words)
        assert done.returncode == 2 and error in done.stderr and "Traceback" not in done.stderr, words
    memory = run("picture", "-o", "a.png", "--rows", 1000000, "--columns", 8000, "-c", 1000000, "@imp")
    assert (memory.returncode, memory.stderr) == (1, "corewar: out of memory\n")


def test_ctrl_c_while_it_is_loaded(tmp_path: Path) -> None:
    """The command ends without a traceback, whichever module it is importing."""
    environment = {**ENVIRONMENT, "PYTHONPROFILEIMPORTTIME": "1"}
    for module in ("corewar.model", "numpy", "cffi", "click", "corewar.cli.options", "prompt_toolkit.shortcuts"):
        with begin("debug", EXAMPLES / "imp.red", env=environment, stdin=subprocess.PIPE) as one:
            assert one.stderr
            errors = next(line for line in one.stderr if line.split("|")[-1].strip() == module)
            one.send_signal(signal.SIGINT)
            errors += one.stderr.read()
        assert one.returncode in (-signal.SIGINT, 130) and "Traceback" not in errors, module


def test_ctrl_c_ends_a_match(tmp_path: Path) -> None:
    """The command does not wait for the rounds that the library is running."""
    words = ["fight", "-r", "100000", "-c", "10000000", *[str(EXAMPLES / f"{name}.red") for name in ("imp", "dwarf")]]
    with begin(*words, stdout=None) as process:
        loaded = Path(f"/proc/{process.pid}/maps")
        while process.poll() is None and "libmars" not in loaded.read_text():
            time.sleep(0.05)
        time.sleep(0.5)
        process.send_signal(signal.SIGINT)
        _, errors = process.communicate(timeout=20)
        assert (
            re.fullmatch(r"\n?corewar: stopped( after \d+ of 100000 rounds)?\n", errors) and process.returncode == 130
        )


@pytest.mark.parametrize("command", ["fight", "why"])
def test_ctrl_c_keeps_what_was_played(command: str) -> None:
    """The rounds so far are those of a shorter match."""
    files = [str(EXAMPLES / f"{name}.red") for name in ("dwarf", "imp")]
    ours, theirs = os.openpty()
    with begin(command, "-r", 20000, *files, env={**ENVIRONMENT, "TERM": "xterm"}, stderr=theirs) as process:
        os.close(theirs)
        shown = b""
        # A match of one round would be explained in another way.
        while not re.search(rb"\b([2-9]|[1-9]\d+)/\d+", shown):
            shown += os.read(ours, 4096)
        process.send_signal(signal.SIGINT)
        output, _ = process.communicate(timeout=60)
        assert process.returncode == 130
    while b" rounds\r\n" not in shown:
        shown += os.read(ours, 4096)
    os.close(ours)
    count = re.findall(rb"stopped after (\d+) of 20000 rounds", shown)[0].decode()
    expected = begin(command, "-r", count, *files).communicate()[0]
    assert 0 < int(count) < 20000 and output == expected


def test_only_rounds_that_are_not_won_are_looked_at() -> None:
    fight = Match([read(EXAMPLES / f"{name}.red") for name in ("dwarf", "imp")], rounds=30)
    rows = match(fight.warriors, rounds=30)
    assert len(lost_rounds(fight, [0])) == 30 - rows[0].wins and len(lost_rounds(fight, [0, 1])) == 30
    with ProcessPoolExecutor(3) as pool:
        one, several = ([*fates_of_rounds(fight, range(30), [0, 1], executor)] for executor in (None, pool))
    assert one == several and sum(len(fates) for fates in one) == 2 * rows[0].ties + rows[0].wins


def test_a_write_that_changes_nothing(run: Run, tmp_path: Path) -> None:
    (tmp_path / "same.red").write_text("mov 3, 4\njmp -1\ndat 0\n")
    assert run("trace", "--from", 1, "--turns", 1, "same.red", "@imp").stdout == (
        "turn 1: same.red at 0: MOV.I $3, $4; reads 3\n    4: DAT.F $0, $0, as before\n"
    )


def test_folders_are_files_of_warriors(run: Run, tmp_path: Path) -> None:
    (tmp_path / "hill").mkdir()
    nothing = run("league", "hill")
    assert (nothing.returncode, nothing.stderr) == (1, "corewar: hill: no file in this folder ends in .red\n")
    for name in ("b", "a"):
        (tmp_path / "hill" / f"{name}.red").write_text(f";name {name}\njmp 0\n")
    assert run("league", "hill").stdout == run("league", "hill/a.red", "hill/b.red").stdout
    # A file of a folder that is also given by its own name counts once.
    assert run("challenge", "hill/a.red", "hill").stdout.endswith("sum of 1\n")
    assert run("league", "hill", "hill/a.red").stdout == run("league", "hill/b.red", "hill/a.red").stdout
    (tmp_path / "hill" / "b.red").unlink()
    done = run("challenge", "hill/a.red", "hill")
    assert done.stderr == "corewar: hill: no other file in this folder ends in .red\n"


def test_why_over_a_match(run: Run) -> None:
    """Losses are counted by the line that was hit and the line that hit it; `--round` selects a round."""
    output = run("why", "-r", 20, "@dwarf", "@imp").stdout
    assert output == (
        "Dwarf tied 13 of 20 rounds:\n  ties round  executed in its last 1000 turns\n"
        "     8     2  cells that Imp wrote\n     5     4  cells that it wrote\n"
        "Imp lost 7 of 20 rounds:\nlosses round  died on                 hit by\n"
        "     7     0  its line 5: MOV.I 0, 1  Dwarf, by line 10: MOV bomb, @bomb\n"
        "Imp tied 13 of 20 rounds:\n  ties round  executed in its last 1000 turns\n"
        "     8     2  cells that it wrote\n     5     4  cells that Dwarf wrote\n"
    )
    lucky = run("why", "-r", 20, "--of", "dwarf", "@dwarf", "@imp").stdout
    assert lucky.startswith("Dwarf lost none of 20 rounds.\nDwarf tied 13 of 20 rounds:\n")
    assert run("why", "-r", 2, "@gate", "@imp").stdout == (
        "No warrior died in 2 rounds.\nGate tied 2 of 2 rounds:\n  ties round  executed in its last 1000 turns\n"
        "     2     0  line 5\n"
        "Imp tied 2 of 2 rounds:\n  ties round  executed in its last 1000 turns\n     2     0  Gate's line 5\n"
    )
    assert run("why", "--turns", 1, "-r", 20, "--round", 0, "@dwarf", "@imp").stdout == DEATH
    assert "no warrior `nobody`" in run("why", "-r", 2, "--of", "nobody", "@dwarf", "@imp").stderr
