"""league: its tables, compared with the program's, its stored results, its errors, and the files that it writes."""
from __future__ import annotations

import csv
import hashlib
import io
import json
import os
import resource
import signal
import sqlite3
import subprocess
import sys
import time
from concurrent.futures import Executor, Future
from pathlib import Path
from typing import Any
from xml.etree import ElementTree

import numpy as np
import pytest
from conftest import ENVIRONMENT, EXAMPLES, TOP, Run, begin
from costly import large, slow
from test_pages import unpacked

import corewar
from corewar.engine.calls import assemble
from corewar.contests.contest import Contest, Execution, Progress, run as run_matches
from corewar.contests.matches import Matches, all_pairs, digests_of
from corewar.contests.results import Results
from corewar.model.errors import CorewarError
from corewar.model.settings import Settings
from corewar.pictures.colours import LOST, NO_MATCH, TIED, WON, mix_colours

PROGRAM = TOP / "crates" / "mars" / "out" / "mars"
NAMES = sorted(path.name for path in EXAMPLES.glob("*.red"))
FILES = {
    "stay.red": ";name Stay\njmp 0\n",
    "same.red": ";name Stay\njmp 0\n",
    "dead.red": ";name Dead\ndat 0\n",
    "late.red": ";name Late, later\n;author Me & you\nnop 0\nnop 0\ndat 0\n",
    "old.load": "JMP 0, 0\n",
    "unnamed.load": ";load 2 80\n;name \n;author \nJMP 0, 79\n",
    "broken.red": "mvo 0, 1\n",
    "alone.red": ";assert WARRIORS == 1\njmp 0\n",
    "made.red": ";name Made\n;assert WARRIORS == 2 && ROUNDS == 4\njmp 0, WARRIORS\ndat 0, ROUNDS\n",
    "-dash.red": ";name Dash\njmp 0\n",
}
HEAD = "  rank   points   wins   ties losses  warrior\n"


@pytest.fixture
def folder(tmp_path: Path) -> Path:
    for name, text in FILES.items():
        (tmp_path / name).write_text(text)
    return tmp_path


def own_rows(folder: Path, words: str) -> list[str]:
    """Returns the lines of the program's own league, without the head."""
    done = subprocess.run([PROGRAM, "-b", "--league", *words.split()], cwd=folder, capture_output=True, text=True)
    assert done.returncode == 0, done.stderr
    return done.stdout.splitlines()[1:]


def rows(output: str) -> list[str]:
    """Returns the lines of a table without their ranks, which count from 1."""
    head, *lines = output.splitlines()
    assert head + "\n" == HEAD and [int(line[:6]) for line in lines] == [*range(1, len(lines) + 1)]
    return [line[7:] for line in lines]


@pytest.mark.parametrize(
    "words",
    [
        "-r 5",
        "-r 4 --seed 9",
        "-r 3 --score=1-S*5",
        "-r 3 --score=(S==1)*7-(S==2)*9",
        "-r 2 -c 10",
        "-r 2 -s 8000 -p 8 -l 150 -d 150 --read-limit 400 --write-limit 300",
    ],
)
def test_it_is_the_programs_league(run: Run, words: str) -> None:
    """Its counts are the program's own, also for ties, negative points, formulas, limits and warriors of equal text."""
    files = [*NAMES, *NAMES[:3]]
    output = run("league", "--same-seed", "--jobs", 3, *words.split(), *files, cwd=EXAMPLES).stdout
    assert rows(output) == own_rows(EXAMPLES, f"-o {words} {' '.join(files)}")


def test_a_hill_is_its_words(run: Run) -> None:
    files, tiny = ["dwarf.red", "imp.red", "fitted.red"], "-o -r 20 -s 800 -c 8000 -p 800 -l 20"
    for words, own in (("", "20"), ("-d 300", "300")):
        output = run("league", "--same-seed", "-r", 20, "--hill", "tiny", *words.split(), *files, cwd=EXAMPLES).stdout
        assert rows(output) == own_rows(EXAMPLES, f"{tiny} -d {own} {' '.join(files)}")


def test_files(run: Run, folder: Path) -> None:
    """A league takes load files, standard input and a name that begins with a dash. Sources get WARRIORS and ROUNDS,
    and a warrior without a name has that of its file.
    """
    own = own_rows(folder, "-o -r 4 old.load made.red unnamed.load late.red dead.red")
    output = run("league", "-r", 4, "old.load", "made.red", "unnamed.load", "late.red", "dead.red").stdout
    shown = [line.replace(" Unknown by", " old.load by").replace("   by ", "  unnamed.load by ") for line in own]
    assert rows(output) == [line.replace("   by", "  unnamed.load by") for line in shown]
    output = run("league", "/dev/stdin", "late.red", "--", "-dash.red", input=FILES["stay.red"]).stdout
    assert rows(output) == own_rows(folder, "-o stay.red late.red -- -dash.red")
    output = run("league", "-r", 4, "-F", 300, "made.red", "dead.red").stdout
    assert rows(output) == [
        "      12      4      0      0  Made by Anonymous",
        "       0      0      0      4  Dead by Anonymous",
    ]


ORDER = ["stay.red", "same.red", "late.red", "dead.red"]
LAST_FIRST = ["-r", 4, "dead.red", "late.red", "stay.red", "same.red"]


def test_csv(run: Run, folder: Path) -> None:
    """Dead has no points. Late survives only Dead, and the two others survive both and tie."""
    head = "rank file name author points wins ties losses rounds win_percent tie_percent loss_percent score error"
    head += " number lead lead_error"
    won, late = ["12", "66.6667", "33.3333", "0.0", "233.3333", "0.0"], [
        "12",
        "33.3333",
        "0.0",
        "66.6667",
        "100.0",
        "0.0",
    ]
    table = [
        head.split(),
        ["1", "stay.red", "Stay", "Anonymous", "28", "8", "4", "0", *won, "2", "0.0", "0.0"],
        ["1", "same.red", "Stay", "Anonymous", "28", "8", "4", "0", *won, "3", "133.3333", "0.0"],
        ["3", "late.red", "Late, later", "Me & you", "12", "4", "0", "8", *late, "1", "100.0", "0.0"],
        [
            "4",
            "dead.red",
            "Dead",
            "Anonymous",
            "0",
            "0",
            "0",
            "12",
            "12",
            "0.0",
            "0.0",
            "100.0",
            "0.0",
            "0.0",
            "0",
            "",
            "",
        ],
    ]
    assert [*csv.reader(io.StringIO(run("league", "--format", "csv", *LAST_FIRST).stdout))] == table
    run("league", "--format", "csv", "--order", "files", "-o", "out.csv", *LAST_FIRST)
    assert [*csv.reader((folder / "out.csv").open())] == [table[0], *(table[rank] for rank in (4, 3, 1, 2))]


def test_json(run: Run, folder: Path) -> None:
    result = json.loads(run("league", "--format", "json", *LAST_FIRST).stdout)
    assert result["seed"] == 1 and result["rounds"] == 4 and "-r=4" in result["words"]
    assert [warrior["file"] for warrior in result["warriors"]] == ORDER
    assert result["warriors"][0] == {
        **{"rank": 1, "number": 2, "file": "stay.red", "name": "Stay", "author": "Anonymous"},
        **{"points": 28, "wins": 8, "ties": 4, "losses": 0, "rounds": 12},
        **{"win_percent": 66.6667, "tie_percent": 33.3333, "loss_percent": 0.0, "score": 233.3333, "error": 0.0},
        **{"lead": 0.0, "lead_error": 0.0},
    }
    assert [warrior["rank"] for warrior in result["warriors"]] == [1, 1, 3, 4]
    first = {"first": 3, "second": 2, "points": 0, "wins": 0, "ties": 0, "losses": 4, "theirs": 12}
    seeds = [match.pop("seed") for match in result["matches"]]
    # Matches of equal warriors have equal seeds.
    assert len(seeds) == 6 and len({*seeds}) == 4 and result["matches"][0] == first
    words = [*result["words"], f"--seed={seeds[0]}"]
    done = subprocess.run([PROGRAM, "-b", *words, "dead.red", "late.red"], cwd=folder, capture_output=True)
    assert done.stdout.splitlines()[1].split()[:4] == [b"0", b"0", b"0", b"4"]


def test_no_error_is_known_from_one_round(run: Run, folder: Path) -> None:
    """One round can be compared with no other, and with a given position nothing is drawn."""
    for words in (["-r", 1], ["-r", 4, "-F", 300]):
        result = json.loads(run("league", "--format", "json", *words, "stay.red", "dead.red").stdout)
        assert [(one["score"], one["error"]) for one in result["warriors"]] == [(300.0, None), (0.0, None)]
        table = run("league", "--format", "csv", *words, "stay.red", "dead.red").stdout.splitlines()
        assert [line.split(",")[-4] for line in table] == ["error", "", ""]
    result = json.loads(run("league", "--format", "json", "-r", 4, "stay.red", "none.red").stdout)
    (warrior,) = result["warriors"]
    assert (warrior["rounds"], warrior["win_percent"], warrior["score"], warrior["error"]) == (0, 0.0, 0.0, None)


def examples() -> list[corewar.Warrior]:
    return [corewar.read(EXAMPLES / f"{name}.red", settings="tiny") for name in ("dwarf", "imp", "clear", "gate")]


def variants() -> list[corewar.Warrior]:
    """Returns five variants of each of two examples, each with a different B-number in the first cell."""
    made = []
    for warrior in examples()[:3:2]:
        for change in range(5):
            cells = warrior.cells.copy()
            cells[0]["b"] = (int(cells[0]["b"]) + change) % 800
            made.append(corewar.Warrior.from_cells(cells, warrior.start, settings="tiny"))
    return made


def clones() -> list[corewar.Warrior]:
    """Returns each example three times, since evolvers breed equal warriors."""
    return [warrior for warrior in examples() for _ in range(3)]


@pytest.mark.parametrize("warriors", [examples(), variants(), clones()], ids=["examples", "variants", "clones"])
def test_the_errors_are_how_seeds_differ(warriors: list[corewar.Warrior]) -> None:
    """The scores and leads of 60 seeds lie as far from each other as the errors say."""
    found = []
    for seed in range(60):
        found.append(Contest("tiny", rounds=20, seed=1 + seed, formula="4*W/S-3").league(warriors, jobs=2))
    scores, errors = (np.array([getattr(one, name) for one in found]) for name in ("scores", "errors"))
    ratio = np.std(scores, axis=0, ddof=1) / errors.mean(axis=0)
    assert 0.85 < np.median(ratio) < 1.15
    # Ranks change from seed to seed, so the lead is measured between two fixed warriors.
    first, second = np.argsort(-scores.mean(axis=0), kind="stable")[[0, -1]]
    leads = scores[:, first] - scores[:, second]
    assert 0.7 < np.std(leads, ddof=1) / np.hypot(*errors[:, [first, second]].mean(axis=0)) < 1.4


def test_a_lead_has_an_error() -> None:
    """In a league of two, this error is that of the difference of their points; between equal warriors it is 0."""
    dwarf, imp = examples()[:2]

    def league(*warriors: corewar.Warrior, **given: Any) -> list[dict[str, Any]]:
        return Contest("tiny", rounds=20, **given).league(warriors).records()

    both = league(dwarf, imp)
    wins, ties, losses = (both[0][name] for name in ("wins", "ties", "losses"))
    points = np.repeat([3, 0, -3], [wins, ties, losses])
    assert both[0]["lead"] == both[0]["score"] - both[1]["score"] and both[1]["lead"] is both[1]["lead_error"] is None
    assert abs(both[0]["lead_error"] - 100 * points.std(ddof=1) / np.sqrt(20)) < 1e-3
    # Copies have the same results against Dwarf, and tie with each other.
    equal = next(one for one in league(imp, imp, dwarf) if one["lead"] == 0)
    assert equal["lead_error"] == 0 and equal["error"] > 0
    same = league(*examples(), positions="same")
    assert all(one["error"] is one["lead_error"] is None for one in same)


def test_matrix(run: Run, folder: Path) -> None:
    assert run("league", "--format", "matrix", *LAST_FIRST).stdout == (
        "  1 2 3 4  warrior\n1 . 0 4 4  Stay by Anonymous\n2 0 . 4 4  Stay by Anonymous\n"
        "3 0 0 . 4  Late, later by Me & you\n4 0 0 0 .  Dead by Anonymous\n"
    )


def test_colours() -> None:
    counts = np.array([[4, 0, 0], [0, 2, 0], [0, 0, 9], [0, 1, 9], [0, 0, 0]])
    shade = [round((9 * lost + tied) / 10) for lost, tied in zip(LOST, TIED)]
    assert mix_colours(counts).tolist() == [[*WON], [*TIED], [*LOST], shade, [NO_MATCH] * 3]


def test_picture(run: Run, folder: Path) -> None:
    done = run("league", "--picture", "m.svg", *LAST_FIRST)
    assert rows(done.stdout) == own_rows(folder, "-o -r 4 dead.red late.red stay.red same.red")
    assert ElementTree.parse(folder / "m.svg").getroot().tag.endswith("svg")
    run("league", "--picture", "m.png", *LAST_FIRST)
    assert (folder / "m.png").read_bytes().startswith(b"\x89PNG")


def test_pages(run: Run, folder: Path) -> None:
    """One page has the table, the matrix and the settings. Another page has all battles; the matrix links to it."""
    run("league", "--pages", "web", *LAST_FIRST[:2], "dead.red", "./late.red", "same.red")
    page = (folder / "web" / "index.html").read_text()
    assert "rounds 4 · seed 1" in page and "Late, later by Me &amp; you" in page
    assert page.count("background:#1e50c8") == 3 and page.count('href="battles.html#w=1,2&amp;s=') == 2
    assert [path.name for path in sorted((folder / "web").iterdir())] == ["battles.html", "index.html"]
    fight = unpacked((folder / "web" / "battles.html").read_text())
    assert [name for name, _ in fight["w"]] == ["dead.red", "late.red", "same.red"]


def test_errors_of_files(run: Run, folder: Path) -> None:
    """A file with an error is explained and left out; the others fight."""
    done = run(
        "league", "-r", 2, "stay.red", "broken.red", "dead.red", "none.red", "alone.red", "late.red", "/dev/zero"
    )
    assert done.returncode == 1 and rows(done.stdout) == own_rows(folder, "-o -r 2 stay.red dead.red late.red")
    assert done.stderr.splitlines() == [
        "corewar: broken.red: line 1: 2 Operation",
        "  `mvo` is read as a label; did you mean `MOV`?",
        "corewar: none.red: No such file or directory",
        "corewar: alone.red: line 1: 5 AssertFailed",
        "  The value of this `;assert` is 0: the warrior was not written for these settings.",
        "corewar: /dev/zero: too large",
    ]


@pytest.mark.parametrize(
    "words, status, error",
    [
        ("-r 0", 2, "expected a number from 1 to 100000, not `0`"),
        ("-F 50", 2, "corewar: settings 3 Position"),
        ("-l 200", 2, "corewar: parameters 6 Distance"),
        ("--score X", 2, "corewar: formula 1 Expression 2 Unknown"),
        ("-s 199", 1, "corewar: placement 1 NoRoom"),
        ("--score 1/(S-1)", 1, "corewar: score 3 DivideByZero"),
        ("--score 9223372036854775807 same.red", 1, "corewar: score 4 Range"),
        ("--jobs 0", 2, "expected a number from 1 to 1000, not `0`"),
        ("--jobs 1001", 2, "expected a number from 1 to 1000, not `1001`"),
        ("--results none/file", 1, "corewar: none: no such folder"),
        ("-o none/file", 1, "corewar: none: no such folder"),
        ("--picture m.gif", 2, "expected a name that ends in .png, .svg or .pdf"),
        ("--picture none/m.svg", 1, "corewar: none: no such folder"),
        ("--results broken.red", 1, "corewar: broken.red: file is not a database"),
        ("--scheduler here", 2, "expected HOST:PORT, as in first.lan:8786"),
        ("--scheduler tls://first.lan:1", 2, "expected HOST:PORT, as in first.lan:8786"),
        ("--pages stay.red", 2, "is a file"),
        ("--format yaml", 2, "'yaml' is not one of 'table', 'csv', 'json', 'matrix'"),
    ],
)
def test_errors_of_arguments(run: Run, folder: Path, words: str, status: int, error: str) -> None:
    done = run("league", *words.split(), "stay.red", "dead.red")
    assert (done.returncode, done.stdout) == (status, "") and error in done.stderr and "Traceback" not in done.stderr


def test_a_wrong_formula_is_reported_before_matches(run: Run, folder: Path) -> None:
    """A formula is checked also if no warrior survives, so that it would never be evaluated; and if it is not text."""
    long, files = ["-c", 10_000_000, "-r", 100_000], ["stay.red", "same.red", "late.red"]
    for command in ("league --results kept", "challenge", "challenge --old late.red", "melee --size 2"):
        for formula in (b"W+", b"W\xff"):
            done = run(*command.split(), "--score", os.fsdecode(formula), *long, *files, timeout=20)
            assert (done.returncode, done.stdout) == (2, "") and "corewar: formula 1 Expression 1 Syntax" in done.stderr
    done = run("challenge", "--old", "dead.red", "--score", "W+", "dead.red", "dead.red")
    assert (done.returncode, done.stdout) == (2, "")


def test_an_error_does_not_wait_for_matches(run: Run, folder: Path) -> None:
    """The match of Stay and Same takes hours."""
    words = ["--jobs", 2, "-c", 10_000_000, "-r", 100_000, "--score", "1/(S-1)"]
    done = run("league", *words, "stay.red", "same.red", "dead.red", timeout=60)
    assert (done.returncode, done.stdout) == (1, "") and "corewar: score 3 DivideByZero" in done.stderr


def test_refused_threads_are_reported(run: Run, folder: Path) -> None:
    many = ["--jobs", 1000, "-r", 100, *["stay.red"] * 46]

    def bound() -> None:
        resource.setrlimit(resource.RLIMIT_AS, (2 << 30, 2 << 30))

    for words in (["league", *many], ["melee", "--lineups", 2000, *many]):
        done = run(*words, preexec_fn=bound, timeout=60)
        assert (done.returncode, done.stdout) == (1, "")
        assert done.stderr == "corewar: can't start new thread; use fewer jobs\n"


def test_what_is_missing_is_reported_before_matches(run: Run, folder: Path) -> None:
    """A folder that cannot be made and a missing module are reported; the match itself would take hours."""
    long = ["-c", 8_000_000, "-r", 100_000, "stay.red", "same.red"]
    (folder / "file").write_text("")
    done = run("league", "--pages", "file/pages", *long, timeout=20)
    assert (done.returncode, done.stdout, done.stderr) == (1, "", "corewar: file/pages: Not a directory\n")
    hidden = "import sys; sys.modules['matplotlib'] = None; from corewar.cli.main import main; main()"
    command = [sys.executable, "-c", hidden, "league", "--picture", "a.png", *map(str, long)]
    done = subprocess.run(command, cwd=folder, env=ENVIRONMENT, capture_output=True, text=True, timeout=20)
    missing = "corewar: import of matplotlib halted; None in sys.modules; install Debian's python3-matplotlib, or all "
    assert (done.returncode, done.stderr) == (1, f"{missing}with dev/setup, or with pip corewar[pictures]\n")


def test_two_files_are_required(run: Run, folder: Path) -> None:
    done = run("league", "stay.red")
    assert done.returncode == 2 and "expected at least two files" in done.stderr


def test_no_file_has_a_warrior(run: Run, folder: Path) -> None:
    done = run("league", "--picture", "m.png", "broken.red", "none.red")
    assert (done.returncode, done.stdout) == (1, "") and "Traceback" not in done.stderr
    done = run("league", "--picture", "m.png", "--pages", "web", "stay.red", "none.red")
    assert done.returncode == 1 and rows(done.stdout) == ["       0      0      0      0  Stay by Anonymous"]


def test_source_limit(run: Run, folder: Path) -> None:
    """A source that exceeds its limit is reported and left out; a long match has no limit."""
    (folder / "slow.red").write_text(slow())
    (folder / "names.red").write_text(large())
    for limit, name, cost in (("1", "slow.red", "more than 1 s"), ("60,200", "names.red", "more than 200 MB")):
        done = run("league", "--source-limit", limit, "-r", 4, "stay.red", name, "late.red")
        assert done.returncode == 1 and rows(done.stdout) == own_rows(folder, "-o -r 4 stay.red late.red")
        assert done.stderr.startswith(f"corewar: {name}: assembling takes {cost} of ")
    words = "-c 10000000 -r 30 stay.red same.red"
    assert rows(run("league", "--source-limit", 1, *words.split()).stdout) == own_rows(folder, f"-o {words}")


def count_stored(path: Path) -> int:
    """Returns the number of results in a file, which must be a valid database at any time."""
    if not path.exists():
        return 0
    with sqlite3.connect(path, timeout=60) as file:
        if not file.execute("SELECT 1 FROM sqlite_master WHERE name = 'fought'").fetchone():
            return 0
        assert file.execute("PRAGMA integrity_check").fetchall() == [("ok",)]
        return int(file.execute("SELECT count(*) FROM fought").fetchone()[0])


def wait_for_results(path: Path, count: int) -> None:
    end = time.monotonic() + 60
    while count_stored(path) <= count and time.monotonic() < end:
        time.sleep(0.02)


def test_it_continues_after_it_was_ended(folder: Path) -> None:
    """After a kill and after Ctrl-C, which reports how many matches are stored, the same command still prints the same
    table, and then all matches are stored.
    """
    path, before = folder / "kept.sqlite", 0
    words = ["-r", 800, "--same-seed", "--jobs", 1, "--results", path, *(EXAMPLES / name for name in NAMES[:7])]
    for how in (signal.SIGKILL, signal.SIGINT):
        process = begin("league", *words)
        wait_for_results(path, before)
        process.send_signal(how)
        output, errors = process.communicate(timeout=60)
        stored = count_stored(path)
        assert before < stored < 21 and output == ""
        if how == signal.SIGINT:
            assert (
                process.returncode == 130
                and errors == f"corewar: {stored} of 21 matches stored; run the same command to continue\n"
            )
        before = stored
    both = [begin("league", *words) for _ in range(2)]
    tables = [process.communicate(timeout=300) for process in both]
    own = own_rows(EXAMPLES, f"-o -r 800 {' '.join(NAMES[:7])}")
    assert [(rows(output), errors) for output, errors in tables] == 2 * [(own, "")] and count_stored(path) == 21


def test_ctrl_c_without_results(folder: Path) -> None:
    """The command does not wait for a source or for matches."""
    os.mkfifo(folder / "pipe")
    long = "-c 10000000 -r 100000 same.red"
    for words in ("league pipe", f"league {long}", f"challenge --old same.red {long}"):
        command, *rest = words.split()
        process = begin(command, "stay.red", *rest, cwd=folder)
        children, end = Path(f"/proc/{process.pid}/task/{process.pid}/children"), time.monotonic() + 60
        # The process that assembles has started, so the command is loaded.
        while not children.read_text() and time.monotonic() < end:
            time.sleep(0.01)
        time.sleep(0.5)
        process.send_signal(signal.SIGINT)
        output, errors = process.communicate(timeout=20)
        assert (process.returncode, output, errors.strip()) == (130, "", "corewar: stopped")


def test_a_stored_match_is_of_its_contest(folder: Path) -> None:
    """A stored match is used again. With another seed, other rounds, or the other order it is another match."""
    path = str(folder / "kept.sqlite")
    warriors = [
        assemble(text, file=name) for name, text in FILES.items() if name in ("stay.red", "dead.red", "late.red")
    ]

    def filled(contest: Contest, order: tuple[int, ...] = (0, 1, 2)) -> tuple[Matches, int]:
        matches = Matches(contest, [warriors[number] for number in order], all_pairs(len(order)))
        with Results(path, matches) as results:
            turned = results.find()
        return matches, turned

    contest = Contest(rounds=4)
    matches = Matches(contest, warriors, all_pairs(3))
    assert sum(map(len, run_matches(matches, Execution(2, results=path)))) == 3
    stored, turned = filled(contest)
    assert stored.is_fought.all() and turned == 0 and (stored.counts == matches.counts).all()
    others = [
        Contest(rounds=5),
        Contest(rounds=4, seed=2),
        Contest(rounds=4, formula="S"),
        Contest(Settings(cycles=9), rounds=4),
        Contest(rounds=4, positions="same"),
    ]
    for other in others:
        assert not filled(other)[0].is_fought.any()
    stored, turned = filled(contest, (0, 2, 1, 0))
    assert stored.is_fought.tolist() == [True, True, False, False, False, False] and turned == 1
    # Equal warriors before and after an opponent do not count as another order.
    stored, turned = filled(contest, (0, 1, 0))
    assert stored.is_fought.tolist() == [True, False, False] and turned == 0
    with sqlite3.connect(path) as file, pytest.raises(sqlite3.IntegrityError):
        file.execute("UPDATE fought SET wins = 'many'")


def test_a_corrected_name_runs_nothing_again(run: Run, folder: Path) -> None:
    """A stored match is found without names and authors. A file of version 1.2, whose digests are also of these, is
    still read.
    """
    words = ["league", "-r", 4, "--results", "kept.sqlite", "stay.red", "late.red", "dead.red"]
    table, path = run(*words).stdout, folder / "kept.sqlite"
    (folder / "late.red").write_text(FILES["late.red"].replace("later", "latest").replace("Me", "Myself"))
    assert run(*words).stdout == table.replace("later", "latest").replace("Me", "Myself") and count_stored(path) == 3
    with sqlite3.connect(path) as file:
        for name in ("stay", "late", "dead"):
            warrior = assemble((folder / f"{name}.red").read_text(), rounds=4)
            new, old = digests_of(warrior)
            assert old == hashlib.sha256(warrior.load).digest() != new
            for place in ("first", "second"):
                file.execute(f"UPDATE fought SET {place} = ? WHERE {place} = ?", (old, new))
    run(*words)
    assert count_stored(path) == 3


WRONG_COUNTS = [
    ("wins = 1000", "a match of 4 rounds cannot have 1000 wins"),
    ("wins = -5, losses = 9", "a match of 4 rounds cannot have -5 wins"),
    ("ties = 1", "a match of 4 rounds cannot have 4 wins, 1 ties"),
    ("points = 99", "99 and 0 are not the points of 4-0-0"),
    ("theirs = -1", "12 and -1 are not the points of 4-0-0"),
]


@pytest.mark.parametrize("change, expected", WRONG_COUNTS)
def test_counts_of_a_results_file_are_checked(run: Run, folder: Path, change: str, expected: str) -> None:
    words = ["league", "-r", 4, "--results", "kept.sqlite", "stay.red", "dead.red"]
    run(*words)
    with sqlite3.connect(folder / "kept.sqlite") as file:
        file.execute(f"UPDATE fought SET {change}")
    done = run(*words)
    assert (done.returncode, done.stdout) == (1, "")
    assert done.stderr.startswith(f"corewar: kept.sqlite: invalid result: {expected}")


def test_a_locked_results_file(run: Run, folder: Path) -> None:
    """A file that another process has locked is reported; Ctrl-C does not wait for it."""
    words = ["league", "--results", "kept.sqlite", "stay.red", "dead.red"]
    table = run(*words).stdout
    for how in (None, signal.SIGINT):
        with sqlite3.connect(folder / "kept.sqlite", isolation_level=None) as file:
            file.execute("BEGIN EXCLUSIVE")
            process = begin(*words, cwd=folder)
            assert process.stderr is not None
            assert process.stderr.readline() == "corewar: kept.sqlite is locked by another process; waiting\n"
            if how:
                process.send_signal(how)
                assert process.wait(10) == 130
            file.execute("ROLLBACK")
        output, _ = process.communicate(timeout=60)
        assert output == ("" if how else table)


def test_texts_in_a_results_file(run: Run, folder: Path) -> None:
    words = ["league", "--results", "kept.sqlite", "stay.red", "dead.red"]
    run(*words)
    with sqlite3.connect(folder / "kept.sqlite") as file:
        file.execute("CREATE TABLE loose AS SELECT * FROM fought")
        file.execute("DROP TABLE fought")
        file.execute("ALTER TABLE loose RENAME TO fought")
        file.execute("UPDATE fought SET wins = 'many'")
    done = run(*words)
    expected = "corewar: kept.sqlite: invalid result: expected five whole numbers for each of 1 matches\n"
    assert (done.returncode, done.stdout, done.stderr) == (1, "", expected)


@pytest.mark.parametrize(
    "sent", [None, "text", [[1, 2]], [[0, 2, 0, 0, 0]], [[0.5] * 5], [], [[99, 99, 99, 99, 0]], [[3, 0, 1, 0, 1]]]
)
def test_counts_of_a_worker_are_checked(sent: object) -> None:
    """Counts that an executor returns are not trusted."""

    class Liar(Executor):
        def submit(self, *given: Any, **named: Any) -> Future[Any]:
            answer = Future[Any]()
            answer.set_result(sent)
            return answer

    imp = assemble("MOV 0, 1")
    with pytest.raises(CorewarError, match="^invalid result from a worker: "):
        Contest().league([imp, imp], executor=Liar())


def test_results_of_the_other_order_are_reported(run: Run, folder: Path) -> None:
    run("league", "--results", "kept.sqlite", "stay.red", "dead.red", "late.red")
    errors = run("league", "--results", "kept.sqlite", "dead.red", "stay.red", "late.red").stderr
    assert errors.startswith("corewar: 1 of 3 matches are stored only with the warriors in the other order")
    assert run("league", "--results", "kept.sqlite", "dead.red", "stay.red", "late.red").stderr == ""


def test_progress(folder: Path) -> None:
    """On a terminal standard error has a bar, and standard output only the table."""
    ours, theirs = os.openpty()
    words = ["league", "stay.red", "dead.red", "late.red"]
    table, _ = begin(*words, cwd=folder, env={**ENVIRONMENT, "TERM": "xterm"}, stderr=theirs).communicate()
    shown = os.read(ours, 10000).decode()
    os.close(ours)
    os.close(theirs)
    assert "3/3" in shown and "matches" in shown and rows(table)


def test_names_that_a_terminal_obeys(run: Run, folder: Path) -> None:
    (folder / "a\x1b[2Jb.load").write_text(FILES["old.load"])
    assert "a?[2Jb.load by Anonymous" in run("league", "a\x1b[2Jb.load", "stay.red").stdout


def test_a_large_league() -> None:
    """Parts of any size cover all pairs once, and the sums are those of the pairs."""
    warriors = [assemble(f"jmp {number % 5}", settings="nano") for number in range(60)]
    seen = list[Progress]()
    league = Contest("nano", formula="S").league(warriors, jobs=3, progress=seen.append)
    assert seen[0].done == 0 and seen[-1].done == seen[-1].total == 1770 and len(seen) > 6
    assert league.points.sum() == league.results[:, [0, 4]].sum() == league.matrix[..., 0].sum()
    assert sorted(league.shown_ranks.tolist()) == [*range(1, 61)]


def test_a_contest_is_words() -> None:
    words = "-s=8000 -p=8000 -c=80000 -l=100 -d=100 -r=1 --seed=1 -F=200 --score=(W*W-1)/S"
    assert Contest(position=200).words == words.split()
    # Each match has a seed of its own by default, so the arguments name no seed for all matches.
    assert Contest().words == [word for word in Contest(positions="same").words if word != "--seed=1"]


def test_the_call_keeps_its_name() -> None:
    """The modules that this file imports do not hide the call `league`."""
    imp = corewar.assemble("MOV 0, 1")
    assert [row.ties for row in corewar.league([imp, imp], rounds=2)] == [2, 2]
