"""challenge: its rows and those of --old, compared with values that were calculated manually; formats and errors."""
from __future__ import annotations

import csv
import io
import json
from pathlib import Path

import pytest
from conftest import Run

HEAD = "  points   wins   ties losses   theirs  opponent\n"
FILES = {
    "stay.red": ";name Stay\njmp 0\n",
    "dead.red": ";name Dead\ndat 0\n",
    "late.red": ";name Late\n;author Me\nnop 0\nnop 0\ndat 0\n",
    "broken.red": "mvo 0, 1\n",
    "made.red": ";assert WARRIORS == 2 && ROUNDS == 4 && CORESIZE == 400\njmp 0\n",
}


@pytest.fixture(autouse=True)
def folder(tmp_path: Path) -> None:
    for name, text in FILES.items():
        (tmp_path / name).write_text(text)


def test_rows(run: Run) -> None:
    """A single survivor scores (2*2-1)/1 = 3 points in a round, each of two 3/2 = 1, a dead warrior none."""
    assert run("challenge", "-r", 4, "stay.red", "stay.red", "dead.red", "late.red").stdout == HEAD + (
        "      12      4      0      0        0  dead.red  Dead by Anonymous\n"
        "      12      4      0      0        0  late.red  Late by Me\n"
        "       4      0      4      0        4  stay.red  Stay by Anonymous\n"
        "      28      8      4      0        4  sum of 3\n"
    )
    assert run("challenge", "-r", 3, "--score=1-S*5", "stay.red", "late.red", "stay.red").stdout == HEAD + (
        "     -12      3      0      0        0  late.red  Late by Me\n"
        "     -27      0      3      0      -27  stay.red  Stay by Anonymous\n"
        "     -39      3      3      0      -27  sum of 2\n"
    )
    # The warrior that begins dies in its first turn, and the other one begins the next round.
    assert run("challenge", "--sum", "-r", 4, "dead.red", "dead.red").stdout == (
        "       6      2      0      2        6  sum of 1\n"
    )
    words = "-s 400 -c 10 -p 5 -l 10 -d 20 -F 100 --seed 5 --read-limit 200 --write-limit 200".split()
    done = run("challenge", "--sum", "--jobs", 3, "-r", 4, *words, "made.red", "dead.red")
    assert done.stdout == "      12      4      0      0        0  sum of 1\n"


def test_two_versions(run: Run) -> None:
    """The rows have the scores for 100 rounds, and their change in the same rounds with its standard error."""
    head = "     old      new   change   error  opponent\n"
    # In the second match the old version wins every second round, since the one that begins dies.
    assert run("challenge", "--old", "dead.red", "-r", 4, "stay.red", "stay.red", "dead.red").stdout == head + (
        "     0.0    100.0   +100.0     0.0  stay.red  Stay by Anonymous\n"
        "   150.0    300.0   +150.0    86.6  dead.red  Dead by Anonymous\n"
        "    75.0    200.0   +125.0    43.3  mean of 2\n"
        "The new version is better: the change is 2.9 standard errors.\n"
    )
    for words, end in (
        ("--old stay.red -r 4 dead.red stay.red dead.red", "worse: the change is 2.9 standard errors.\n"),
        (
            "--old dead.red -r 2 late.red dead.red",
            "1.0 standard errors, which may be chance. More rounds can detect smaller changes.\n",
        ),
        (
            "--old stay.red -r 4 stay.red dead.red",
            "+0.0     0.0  mean of 1\nBoth versions score the same in every round.\n",
        ),
        (
            "--old dead.red -r 4 --score 5 stay.red stay.red",
            "+500.0     0.0  mean of 1\nThe change is the same in every round.\n",
        ),
        (
            "--old dead.red -r 1 stay.red stay.red",
            "       -  mean of 1\nChance cannot be estimated from one round or for a fixed position; try `-r 100`.\n",
        ),
        (
            "--old dead.red -r 4 -F 900 stay.red stay.red",
            "       -  mean of 1\nChance cannot be estimated from one round or for a fixed position; try `-r 100`.\n",
        ),
    ):
        output = run("challenge", "--sum", "--jobs", 3, *words.split()).stdout
        assert output.startswith(head) and output.endswith(end) and output.count("\n") == 3, words


def test_versions_score_as_in_their_matches(run: Run) -> None:
    words, opponents = ["--same-seed", "-r", 20, "--seed", 7], ["@imp", "@scanner", "@vampire"]
    lines = run("challenge", "--old", "@dwarf", "--jobs", 2, *words, "@bomber", *opponents).stdout.splitlines()
    for column, version in ((0, "@dwarf"), (1, "@bomber")):
        rows = csv.DictReader(io.StringIO(run("challenge", "--format", "csv", *words, version, *opponents).stdout))
        scores = {row["name"]: float(row["score"]) for row in rows}
        assert [float(line.split()[column]) for line in lines[1:4]] == [scores[n] for n in ("Imp", "Lookout", "Dusk")]


def test_versions_for_programs(run: Run) -> None:
    """CSV and JSON have the rows of the table, with errors of four digits after the point. JSON also names the
    versions.
    """
    words = ["challenge", "--old", "dead.red", "-r", 4, "stay.red", "stay.red", "dead.red"]
    heads = "file,name,author,old,new,change,error,number\n"
    rows = "stay.red,Stay,Anonymous,0.0,100.0,100.0,0.0,0\ndead.red,Dead,Anonymous,150.0,300.0,150.0,86.6025,1\n"
    mean = "stay.red,Stay,Anonymous,75.0,200.0,125.0,43.3013\n"
    assert run(*words, "--format", "csv").stdout == heads + rows
    assert run(*words, "--format", "csv", "--sum").stdout == heads + mean.replace("\n", ",\n")
    result = json.loads(run(*words, "--format", "json").stdout)
    found = [",".join(map(str, one.values())) + "\n" for one in (*result["matches"], result["warrior"])]
    assert "".join(found) == rows + mean and result["rounds"] == 4
    assert result["before"] == {"file": "dead.red", "name": "Dead", "author": "Anonymous"}
    assert "matches" not in json.loads(run(*words, "--format", "json", "--sum").stdout)
    unknown = run("challenge", "-r", 1, "--old", "dead.red", "--format", "csv", "stay.red", "stay.red").stdout
    assert unknown == heads + "stay.red,Stay,Anonymous,0.0,100.0,100.0,,0\n"


def test_the_same_change_in_every_round(run: Run) -> None:
    """The error of such a change is 0, also if the mean of the opponents is no whole number."""
    files = ["stay.red", *["late.red"] * 4]
    output = run("challenge", "--old", "dead.red", "--sum", "-r", 7, "--score", "S-1", "stay.red", *files).stdout
    assert output.endswith("+20.0     0.0  mean of 5\nThe change is the same in every round.\n")


def test_versions_that_cannot_be_compared(run: Run) -> None:
    for words, status, error in (
        ("--old broken.red stay.red dead.red", 1, "broken.red: line 1: 2 Operation"),
        ("--old nowhere.red stay.red dead.red", 1, "nowhere.red: No such file or directory"),
        ("--old dead.red broken.red dead.red", 1, "broken.red: line 1: 2 Operation"),
        ("--old dead.red stay.red broken.red", 1, "broken.red: line 1: 2 Operation"),
        ("--old dead.red stay.red", 2, "expected at least two files"),
        ("--old dead.red --results a.sqlite stay.red dead.red", 2, "--old cannot be used with --results"),
    ):
        done = run("challenge", *words.split())
        assert (done.returncode, done.stdout) == (status, "") and error in done.stderr, words
    left = run("challenge", "--old", "dead.red", "stay.red", "broken.red", "dead.red")
    assert left.returncode == 1 and "mean of 1" in left.stdout and "broken.red" in left.stderr


HEADS = (
    "file name author points wins ties losses theirs rounds win_percent tie_percent loss_percent score error number"
).split()
CANDIDATE = ["stay.red", "Stay", "Anonymous", "16", "4", "4", "0", "4", "8", "50.0", "50.0", "0.0", "200.0", "0.0", ""]
ROWS = [
    ["dead.red", "Dead", "Anonymous", "12", "4", "0", "0", "0", "4", "100.0", "0.0", "0.0", "300.0", "0.0", "1"],
    ["stay.red", "Stay", "Anonymous", "4", "0", "4", "0", "4", "4", "0.0", "100.0", "0.0", "100.0", "0.0", "0"],
]


def test_formats_for_programs(run: Run) -> None:
    """CSV and JSON have a row for each match, with its opponent and the candidate's results. The row of the sums is
    always in JSON, but in CSV only with --sum.
    """
    words, files = ["challenge", "-r", 4], ["stay.red", "stay.red", "dead.red"]
    table = [*csv.reader(io.StringIO(run(*words, "--format", "csv", *files).stdout))]
    assert table == [HEADS, *ROWS]
    table = [*csv.reader(io.StringIO(run(*words, "--format", "csv", "--sum", *files).stdout))]
    assert table == [HEADS, CANDIDATE]
    result = json.loads(run(*words, "--format", "json", *files).stdout)
    assert result["seed"] == 1 and result["rounds"] == 4 and "-r=4" in result["words"]
    assert [[str(one.get(head, "")) for head in HEADS] for one in [result["warrior"], *result["matches"]]] == [
        CANDIDATE,
        *ROWS,
    ]
    only = json.loads(run(*words, "--format", "json", "--sum", *files).stdout)
    assert only["warrior"] == result["warrior"] and "matches" not in only
    done = run(*words, "--format", "csv", "stay.red", "none.red")
    assert (done.returncode, done.stdout) == (1, ",".join(HEADS) + "\n")


def test_error(run: Run) -> None:
    """Of 4 rounds 2 give 3 points, so their sum has the variance 4 * 3, and the score the error 100 / 4 * 12 ** 0.5."""
    options: list[list[str]] = [[], ["--sum"]]
    for words in options:
        row = run("challenge", "--format", "csv", *words, "-r", 4, "dead.red", "dead.red").stdout.splitlines()[1]
        number = "" if words else "0"
        assert row == f"dead.red,Dead,Anonymous,6,2,0,2,6,4,50.0,0.0,50.0,150.0,86.6025,{number}"


def test_errors_of_files(run: Run) -> None:
    """An opponent with an error is reported and left out; an error of the candidate ends the command."""
    done = run("challenge", "-r", 2, "stay.red", "broken.red", "dead.red", "none.red")
    assert done.returncode == 1 and done.stdout == HEAD + (
        "       6      2      0      0        0  dead.red  Dead by Anonymous\n"
        "       6      2      0      0        0  sum of 1\n"
    )
    assert "corewar: broken.red: line 1: 2 Operation\n" in done.stderr and "corewar: none.red: No such" in done.stderr
    for files in (["broken.red", "stay.red"], ["broken.red", "broken.red"]):
        done = run("challenge", *files)
        assert (done.returncode, done.stdout) == (1, "") and "broken.red: line 1: 2 Operation" in done.stderr
    assert run("challenge", "--format", "json", "stay.red", "stay.red").stdout.find('"rounds": 100') > 0
    done = run("challenge", "stay.red")
    assert done.returncode == 2 and "expected at least two files" in done.stderr


def test_results_are_stored(run: Run, tmp_path: Path) -> None:
    """The stored results are those of a league in which the candidate is the first file."""
    words = ["--results", "kept.sqlite", "-r", 4, "stay.red", "dead.red", "late.red"]
    done = run("league", *words)
    assert done.returncode == 0
    assert run("challenge", "--sum", *words).stdout == "      24      8      0      0        0  sum of 2\n"
    turned = run("challenge", "--results", "kept.sqlite", "-r", 4, "late.red", "stay.red")
    assert turned.stderr.startswith("corewar: 1 of 1 matches are stored only with the warriors in the other order")
