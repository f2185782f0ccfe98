"""explain: causes of errors, what pMARS reads differently, fixed sources, instructions in words, hints and limits."""
from __future__ import annotations

import os
import pickle
import re
import signal
import subprocess
import time
from collections.abc import Callable, Iterator
from pathlib import Path
from random import Random

import pytest
from conftest import TOP, Run
from costly import slow

import corewar
from corewar.engine.calls import assemble
from corewar.explain.errors import errors_of
from corewar.explain.fixes import fix
from corewar.explain.instructions import describe_instruction
from corewar.explain.meanings import KINDS, explain_error, explain_kind, read_faults
from corewar.explain.pmars import CHECKED_ROWS, pmars_differences
from corewar.model.errors import ASSEMBLY, FORMULA, LINEUP, WARRIOR, MarsError
from corewar.model.header import names
from corewar.model.settings import Settings

TOO_LONG = "reading the source takes more than 1 s of CPU time"
# A source, the error that the library finds in it, and a part of the explanation.
SOURCES = [
    # Misspelt opcodes, also if another line has the error.
    ("MVO #1, 2\n", "line 1: 2 Operation", "`MVO` is read as a label; did you mean `MOV`?"),
    ("scan EQU 5\njpm scan\n", "line 2: 2 Operation", "`jpm` is read as a label; did you mean `JMP`?"),
    (
        "go MVO bomb, 2\nbomb dat 0\n",
        "line 2: 1 Text 7 Duplicate",
        "In line 1, `MVO` is read as a label; did you mean `MOV`?",
    ),
    ("go mov 0, 1\nJPM go\n", "line 2: 1 Text 7 Duplicate", "`JPM` is read as a label; did you mean `JMP`?"),
    ("go jmp 0\nadd 1, 2\nJMPgo, 1\n", "line 3: 2 Operation", "`JMPgo` is read as a label; did you mean `JMP go`?"),
    ("JMPstart\n", "line 0: 7 Empty", "In line 1, `JMPstart` is read as a label; did you mean `JMP start`?"),
    ("go lda #1\n", "line 1: 2 Operation", "`lda` is read as a label, since it is not an opcode."),
    ("sta go, 1\n", "line 1: 2 Operation", "`sta` is read as a label, since it is not an opcode."),
    ("ldp 0, 1\n", "line 1: 2 Operation", "P-space and other extensions are not supported."),
    ("mov.q 0, 1\n", "line 1: 2 Operation", "`.q` is not a modifier; the modifiers are A, B, AB, BA, F, X, I."),
    ("i FOR 3\nmov.i 0, i\nROF\n", "line 2: 2 Operation", "`i` is the counter of the loop in line 1"),
    ("A FOR 3\nmov.A 0, A\nROF\n", "line 2: 2 Operation", "write `.a`"),
    ("x EQU 3\nx dat 0\n", "line 2: 2 Operation", "`x` is the EQU name of line 1"),
    # Names that are not defined.
    (
        "loop mov 0, 1\njmp lop\n",
        "line 2: 4 Expression 2 Unknown",
        "`lop` is not defined; did you mean `loop` (line 1)?",
    ),
    (
        "Bomb dat 0\nmov bomb, 1\n",
        "line 2: 4 Expression 2 Unknown",
        "(names are case-sensitive); did you mean `Bomb` (line 1)?",
    ),
    ("dat CORSIZE\n", "line 1: 4 Expression 2 Unknown", "did you mean `CORESIZE`?"),
    ("x EQU zzz+1\nmov x, 1\n", "line 2: 4 Expression 2 Unknown", "`zzz` is not defined: no line has it"),
    ("go dat 0\n;assert go == 0\n", "line 2: 4 Expression 2 Unknown", "`go` is a label; an assert can use only"),
    (";assert PSPACESIZE\ndat 0\n", "line 1: 4 Expression 2 Unknown", "P-space is not supported"),
    ("go dat 0\n;REDCODE-94\njmp go\n", "line 3: 4 Expression 2 Unknown", "the `;redcode` in line 2 is ignored."),
    ("jmp go\nEND\ngo dat 0\n", "line 1: 4 Expression 2 Unknown", "reading stops at the END in line 2."),
    ("mov dat, 1\n", "line 1: 4 Expression 2 Unknown", "`dat` is an opcode"),
    (
        "go FOR 3\ndat 0\nROF\nEND go\n",
        "line 4: 4 Expression 2 Unknown",
        "`go` is the counter of the FOR in line 1",
    ),
    # Missing parts, and text that is not Redcode.
    (
        "step equ ; 4\nadd #step, 1\n",
        "line 2: 4 Expression 1 Syntax",
        "`step` is the EQU of line 1, which has no text.",
    ),
    ("mov 0, 1 mov 0, 1\n", "line 1: 3 Operand", "`mov` is an opcode; are there two instructions on one line"),
    ("step equ\nmov step, 1\n", "line 2: 3 Operand", "`step` is the EQU of line 1, which has no text."),
    ("mov 0 1\n", "line 1: 4 Expression 1 Syntax", "A comma may be missing between `0` and `1`."),
    ("mov $1 #2\n", "line 1: 4 Expression 1 Syntax", "A comma may be missing between `1` and `#`."),
    ("mov (1, 2\n", "line 1: 4 Expression 1 Syntax", "Parentheses: 1 opened, 0 closed."),
    ("MOV 0, 1 // the imp\n", "line 1: 4 Expression 1 Syntax", "A comment begins with `;`."),
    ("// a bomber\nmov 0, 1\n", "line 1: 2 Operation", "A comment begins with `;`."),
    ("# a bomber\nmov 0, 1\n", "line 1: 2 Operation", "A comment begins with `;`."),
    ("mov 0, 1 # copy\n", "line 1: 4 Expression 1 Syntax", "A comment begins with `;`."),
    ("s1 = 3364\nmov 0, s1\n", "line 1: 1 Text 2 BadToken", "by EQU: write `s1 EQU 3364`."),
    ("a mov 0, 1\njmp a:\n", "line 2: 4 Expression 1 Syntax", "write `a` here."),
    ("a mov 0, 1\njmp: a\n", "line 2: 4 Expression 1 Syntax", "write `jmp` here."),
    ("i FOR 2\nq&i&01 mov 0, 1\nROF\n", "line 2: 1 Text 2 BadToken", "`01` is no counter."),
    ("m EQU mov i, 1\n EQU nop\ni FOR 2\nm\nROF\n", "line 4: 4 Expression 2 Unknown", "`i` is a counter in the EQU"),
    ("mod MOV 0, 1\n", "line 1: 4 Expression 1 Syntax", "`mod` is an opcode and cannot be a label"),
    ("my-loop MOV 0, 1\n", "line 1: 2 Operation", "A name cannot contain `-`; write `my_loop`."),
    ("mov 0, \\\n1\n", "line 1: 1 Text 2 BadToken", "`corewar explain --fix` joins it"),
    ("mov \\, 1\ndat 0\n", "line 1: 1 Text 2 BadToken", "`\\` is not a character of the language."),
    ("mov 0, [1]\n", "line 1: 1 Text 2 BadToken", "`[` is not a character of the language."),
    # Duplicates.
    ("a dat 0\na dat 0\n", "line 2: 1 Text 7 Duplicate", "`a` is already defined in line 1."),
    ("a EQU 1\na EQU 2\n", "line 2: 1 Text 7 Duplicate", "`a` is already defined in line 1."),
    ("copy\ndat 0\ncopy EQU mov 0, 1\n", "line 3: 1 Text 7 Duplicate", "Line 1 uses `copy` before this EQU"),
    ("wait wait, <1\n", "line 1: 1 Text 7 Duplicate", "`wait` is in this line twice"),
    ("CORESIZE dat 0\n", "line 1: 1 Text 7 Duplicate", "`CORESIZE` is predefined"),
    ("i FOR 2\nx dat 0\nROF\n", "line 2: 1 Text 7 Duplicate", "write `x&i`"),
    # Not ASCII, and too long.
    ("mov 0, \u2018a\n", "line 1: 1 Text 1 NotAscii", "Column 8 has `\u2018`, left single quotation mark"),
    ("\ufeffmov 0, 1\n", "line 1: 1 Text 1 NotAscii", "The file begins with a byte order mark"),
    (
        "dat 0\n" * 101,
        "line 101: 8 TooLong",
        "shorten the warrior or, unless it is for a hill, increase `-l`",
    ),
    # Errors without a cause in the text are explained by their meaning, also those in the definition of an EQU.
    ("x EQU 1+\nmov x, 1\n", "line 2: 4 Expression 1 Syntax", "In line 1, something is missing or superfluous"),
    ("x EQU 1/0\ny EQU x\nmov y, 1\n", "line 3: 4 Expression 3 DivideByZero", "In line 1, there is a division"),
    ("mov 0, 1.5\n", "line 1: 4 Expression 1 Syntax", "Something is missing or superfluous"),
    ("i FOR 2\nx&j dat 0\nROF\n", "line 2: 1 Text 2 BadToken", "`x&j`: `j` is not the counter of a loop"),
    ("FOR 1/0\ndat 0\nROF\n", "line 1: 1 Text 10 Expression 3 DivideByZero", "There is a division or remainder"),
    ("; nothing\n", "line 0: 7 Empty", "No line that is read has an opcode"),
]


@pytest.mark.parametrize("text, error, expected", SOURCES)
def test_causes(text: str, error: str, expected: str) -> None:
    with pytest.raises(MarsError) as found:
        assemble(text)
    sentences = explain_error(found.value, text.encode())
    assert str(found.value) == error and expected in sentences[0] and len(sentences) <= 2


OPCODE = re.compile(r"\b(MOV|ADD|SUB|JMP|SPL|DJN|DAT|SEQ|SNE|JMN|JMZ)\b(\.\w+)?")
EXAMPLES = [path.read_text() for path in sorted((TOP / "examples").glob("*.red"))]
# Each makes an error in a line.
MUTATIONS: list[Callable[[str, re.Match[str]], str]] = [
    lambda line, found: line[: found.start()] + found[0][0] + found[0][2] + found[0][1] + line[found.start() + 3 :],
    lambda line, found: line[: found.start()] + found[1] + ".Q" + line[found.end() :],
    lambda line, found: re.sub(r"\s*(;|$)", r"+undefinedname \1", line, count=1),
    lambda line, found: re.sub(r"\s*(;|$)", r"+(1 \1", line, count=1),
    lambda line, found: line.replace(",", " ", 1),
    # Leaves out the third letter of a name in the operands.
    lambda line, found: line[: found.end()] + re.sub(r"\b(\w\w)\w(\w+)", r"\1\2", line[found.end() :], count=1),
]


def mutated(count: int) -> Iterator[tuple[str, set[int]]]:
    """Yields examples in which one to four lines have an error each, with the numbers of these lines."""
    dice = Random(5)
    for _ in range(count):
        original = dice.choice(EXAMPLES).split("\n")
        lines, wrong = [*original], set[int]()
        for number in dice.sample(range(len(lines)), min(len(lines), dice.randint(3, 12))):
            found = OPCODE.search(lines[number].partition(";")[0])
            if found is None or "EQU" in lines[number].upper() or len(wrong) == 4:
                continue
            changed = dice.choice(MUTATIONS)(lines[number], found)
            try:
                assemble("\n".join([*original[:number], changed, *original[number + 1 :]]))
            except MarsError:
                lines[number] = changed
                wrong.add(number + 1)
        if wrong:
            yield "\n".join(lines), wrong


def line_to_correct(fault: MarsError, sentences: list[str]) -> int:
    earlier = re.match(r"In line (\d+), ", sentences[0])
    return int(earlier[1]) if earlier else fault.line


def test_all_errors_of_a_source_are_found() -> None:
    """Nearly all errors are reported, and nearly no false ones."""
    planted, found, more = 0, 0, 0
    for text, wrong in mutated(200):
        reported = {line_to_correct(*error) for error in errors_of(text.encode(), assemble)}
        planted, found, more = planted + len(wrong), found + len(wrong & reported), more + len(reported - wrong)
    assert planted > 250 and found >= 0.99 * planted and more <= 0.01 * planted


# The texts of advice: what to write, and what it replaces.
ADVICE = [
    re.compile(r"(?:In line \d+, )?`(?P<old>[^`]+)` is read as a label; did you mean `(?P<new>[^`]+)`"),
    re.compile(r"`(?P<old>[^`]+)` is not defined.*; did you mean `(?P<new>[^`]+)`"),
    re.compile(r"`(?P<old>[^`]+)` is in a loop with several iterations; write `(?P<new>[^`]+)`"),
]


def test_advice_makes_no_source_worse() -> None:
    """A source in which one piece of advice is followed has fewer errors."""
    applied = 0
    for text, _ in mutated(200):
        errors = [*errors_of(text.encode(), assemble)]
        for fault, sentences in errors:
            advice = next(filter(None, (form.match(sentences[0]) for form in ADVICE)), None)
            if advice:
                lines, number = text.split("\n"), line_to_correct(fault, sentences) - 1
                lines[number] = re.sub(rf"\b{advice['old']}\b", advice["new"], lines[number], count=1)
                assert len([*errors_of("\n".join(lines).encode(), assemble)]) < len(errors), (text, sentences)
                applied += 1
    assert applied > 100


LOOPS = "a FOR 2\nb FOR 2\nx NOP\nROF\nROF\n"


def test_names_in_loops() -> None:
    """The advice joins the counters of all loops around the line; a loop without a counter needs one first."""
    ((_, sentences),) = errors_of(LOOPS.encode(), assemble)
    assert sentences == ["`x` is in a loop with several iterations; write `x&a&b`."]
    assert assemble(LOOPS.replace("x NOP", "x&a&b NOP"))
    ((_, sentences),) = errors_of(LOOPS.replace("a FOR", "FOR").encode(), assemble)
    assert "give the FOR in line 1 a counter" in sentences[0]


def test_a_label_of_another_line_is_not_lost() -> None:
    """A label that an operand names is not read as a misspelt opcode, and causes no second error."""
    ((fault, sentences),) = errors_of(b"top stx 0, 1\n jmp top\n", assemble)
    assert str(fault) == "line 1: 2 Operation" and "`top`" not in sentences[0]


def test_errors_after_a_second_equ_are_found() -> None:
    found = [str(fault) for fault, _ in errors_of(b"x equ 3\nx equ 4\nmov x, 0\nfor 2\nnop\n", assemble)]
    assert found == ["line 2: 1 Text 7 Duplicate", "line 4: 1 Text 3 UnclosedFor"]


def test_all_errors_of_a_file(run: Run, tmp_path: Path) -> None:
    (tmp_path / "three.red").write_text("go mvo 0, 1\n jmp og\n mov.q 0, 1\n")
    done = run("explain", "three.red")
    assert done.returncode == 1 and [line for line in done.stdout.splitlines() if line.startswith("three.red")] == [
        "three.red: line 1: 2 Operation",
        "three.red: line 2: 4 Expression 2 Unknown",
        "three.red: line 3: 2 Operation",
    ]


def test_each_error_has_a_meaning() -> None:
    """Each error of the documents is explained with the same words, and its message is found after the names of
    programs and of a file.
    """
    document = (TOP / "docs" / "user" / "LANGUAGE.md").read_text()
    table = document[document.index("## Errors") : document.index("## Differences")]
    rows = dict(re.findall(r"^\| `(.*?)` \| (.*) \|$", table, re.M))
    assert rows.pop("1 Text 10 Expression F")
    assert rows == {kind: text for kind, text in KINDS.items() if kind[0].isdecimal() and "10 Expression" not in kind}
    for kind in KINDS:
        assert explain_kind(kind, 0, b"") == [KINDS[kind]]
        assert [*read_faults([f"bench: mars: a b.red: line 7: {kind}"])][0][1:] == ("a b.red", 7, kind)


def test_each_error_of_the_library_is_known() -> None:
    """The text of each error of a source, a warrior, a lineup and a formula has an explanation."""
    for number, name in enumerate(("", "Operation", "Operand", "", "AssertFailed", "BadOrigin", "Empty", "TooLong"), 1):
        assert not name or f"{number} {name}" in KINDS and explain_error(MarsError(ASSEMBLY, number, line=1), b"")
    for number, name in [*names("TEXT").items()][:-1]:
        assert explain_error(MarsError(ASSEMBLY, 1, number, line=1), b"") == [KINDS[f"1 Text {number} {name}"]]
    for code, kind in ((WARRIOR, "warrior"), (LINEUP, "lineup")):
        for number, name in names(kind.upper()).items():
            assert explain_error(MarsError(code, number, warrior=3), b"") == [KINDS[f"{kind} {number} {name}"]]
    for number in range(1, 6):
        faults = [MarsError(ASSEMBLY, 4, 0, number), MarsError(ASSEMBLY, 1, 10, number), MarsError(FORMULA, number)]
        assert all(explain_error(fault, b"") for fault in faults)


def test_standard_input(run: Run, tmp_path: Path) -> None:
    (tmp_path / "slip.red").write_text("go      MVO     bomb, 2\n        JMP     go\nbomb    DAT     #0, #0\n")
    line = "league: mars: slip.red: line 3: 1 Text 7 Duplicate"
    shown = (
        f"{line}\n     2 |         JMP     go\n>    3 | bomb    DAT     #0, #0\n       | ^^^^\n"
        "In line 1, `MVO` is read as a label; did you mean `MOV`?\n"
    )
    assert run("explain", input=f"a table\n{line}\n").stdout == shown
    done = run("explain", "slip.red")
    assert (done.returncode, done.stdout) == (1, shown.replace("league: mars: ", ""))
    done = run("why", "slip.red")
    assert done.returncode == 1 and done.stderr == (
        "corewar: slip.red: line 3: 1 Text 7 Duplicate\n  In line 1, `MVO` is read as a label; did you mean `MOV`?\n"
    )
    gone = "mars: none.red: line 7: 4 Expression 2 Unknown"
    assert run("explain", input=gone).stdout == (
        f"{gone}\nNo label, EQU name or predefined name is written like this; case matters.\n"
    )
    nothing = run("explain", input="no error\n")
    assert (nothing.returncode, nothing.stderr) == (1, "corewar: no error message found in the input\n")
    large = run("explain", input=f"{gone}\n" * 30000)
    assert (large.returncode, large.stderr) == (1, "corewar: -: too large\n")


def test_files(run: Run, tmp_path: Path) -> None:
    (tmp_path / "long.red").write_text("dat 0\n" * 101)
    (tmp_path / "bad.load").write_text("MOV 0\n")
    assert run("explain", "@dwarf", "@imp").stdout.count(": no error\n") == 2
    assert "shorten the warrior or, unless it is for a hill" in run("explain", "long.red").stdout
    assert run("explain", "-l", 101, "-d", 101, "long.red").stdout == "long.red: no error\n"
    assert run("explain", "bad.load").stdout.startswith(
        "bad.load: line 1: load 1 Syntax\n>    1 | MOV 0\nThis line is not valid in a load file"
    )
    other = run("explain", os.fsdecode(b"MOV 0, \xff"))
    assert other.returncode == 1 and other.stdout.startswith("MOV 0, ?: 1 Text 1 NotAscii\n")
    missing = run("explain", "none.red")
    assert (missing.returncode, missing.stderr) == (1, "corewar: none.red: No such file or directory\n")


OTHERWISE = """; name X
start
FOR 3
dat 1
ROF
e equ i*2
i for 2
mov.i e, i ; i stays
x&i jmp x&i
rof
"""


def test_pmars(run: Run, tmp_path: Path) -> None:
    (tmp_path / "other.red").write_text(OTHERWISE)
    lines = run("explain", "--pmars", "other.red").stdout.splitlines()
    expected = ["line 1: pMARS obeys `; name`", "line 3: pMARS takes `start`", "line 4: pMARS reads `DAT #0, 1`"]
    expected += ["line 6: pMARS joins the counter `i`", "line 7: pMARS reads `.i` as a modifier"]
    assert len(lines) == 5 and all(line.startswith(f"other.red: {start}") for line, start in zip(lines, expected))
    nothing = f"dwarf.red: none of the {CHECKED_ROWS} known differences from pMARS was found\n"
    assert run("explain", "--pmars", "@dwarf").stdout.endswith(nothing)
    same = ["i FOR 2\nmov.I 0, i\nROF\nx equ 2\n", "spl <0, #3\ndat >1, #0\n", "ORG 1\nnop 0\nnop 1\nEND 0\n"]
    same += ["; redcode\nnop 0\n", "two equ 2, 3\nop equ dat\nop two\n", "i FOR 2\ne&i equ i*2\nnop e&i\nROF\n"]
    assert [pmars_differences(text.encode(), assemble) for text in same] == [[]] * len(same)
    assert pmars_differences(b";assert VERSION > 70 && ROUNDS > 1\nnop 0\n", assemble) == ["line 1: " + VERSION]
    notes = pmars_differences(b"y equ 3\nldp y\nldp 0, 1\nstp 0, 1\n", assemble)
    assert [note.partition(";")[0] for note in notes] == [
        f"line {number}: pMARS knows `{name}`" for number, name in ((2, "ldp"), (3, "ldp"), (4, "stp"))
    ]
    assert run("explain", "--pmars").returncode == 2


VERSION = "VERSION is 92 in pMARS and 80 here."
# For each row of the table in LANGUAGE.md that a source can show: how it begins, a source, and a part of the note.
DIFFERENT = [
    ("B-operand with `#`", "mov <0, #2\n", "before the side effect"),
    ("CMP and SEQ", "cmp 0, 1\n", "write SEQ"),
    ("P-space", "ldp 0, 1\n", "P-space"),
    ("`mov.i` in a loop", "i FOR 2\nmov.i 0, i\nROF\n", "reads `.i` as a modifier"),
    ("a label in a count", "x nop 0\ny nop 0\nFOR y-x\nnop 0\nROF\n", "accepts the label `y` in a count"),
    ("a count below 0", "nop 0\nFOR 0-CURLINE\nnop 0\nROF\n", "a count below 0"),
    ("a count with a later EQU name", "FOR n\nnop 0\nROF\nn EQU 2\nnop 0\n", "since its EQU is later"),
    ("FOR and ROF in the text", "loop EQU FOR 2\nnop 0\n", "FOR and ROF in the text of an EQU"),
    ("`&i`, or `i`, in an EQU", "e EQU i*2\ni FOR 2\ndat 0, e\nROF\n", "joins the counter `i`"),
    ("prose in a `FOR 0` whose second", "FOR 0\nwait for it\nROF\nnop 0\n", "takes the `for` in this text"),
    ("several labels before", "a b EQU 2\nnop 0\n", "several labels before EQU"),
    ("a name twice", "a nop 0\na nop 0\n", "drops this line with a warning, since `a` is known"),
    ("an EQU without a name", "a nop 0\n EQU 5\n", "has no name and follows no EQU"),
    ("a label in a loop", "FOR 2\na nop 0\nROF\n", "drops this line, with a warning, in later iterations"),
    ("a later label in `;assert`", ";assert one == 0\none nop 0\n", "does not check it"),
    ("an earlier label in `;assert`", "a nop 0\n;assert a == -1\n", "the label `a` as its distance"),
    ("FOR without ROF", "FOR 3\nnop 0\n", "reads the lines after it once"),
    ("an unused EQU that joins", "k EQU A&q\nnop 0\n", "as long as no line uses it"),
    ("ORG without an operand", "ORG\nnop 0\n", "as `ORG 0`"),
    ("VERSION", ";assert VERSION >= 90\nnop 0\n", "VERSION is 92"),
    ("a label before ROF", "FOR 2\nnop 0\nx ROF\n", "a label before ROF"),
    ("prose in a `FOR 0` after", "FOR 0\nStrategy: for all\nROF\nnop 0\n", "pMARS does not; write `;`"),
    ("a start outside", "nop 0\nORG 5\n", "only warns about this start"),
    ("`DAT x`", "dat 5+3\n", "`DAT #0, 5+3`"),
    ("`1-2*3+4`", "mov 1-2*3+4, 1\n", "reads `1-2*3+4` as `1-(2*3+4)`"),
    ("a second `;redcode`", ";redcode\nnop 0\n;redcode\nnop 0\n", "second `;redcode`"),
    ("ORG with the value 0", "ORG 0\nnop 0\nnop 0\nEND 1\n", "starts where END says"),
    (
        "prose in a `FOR 0` whose third",
        "FOR 0\nthis one waits for scanners\nROF\nnop 0\n",
        "takes the `for` in this text",
    ),
    ("a line with only a label before", "start\nn EQU 2\nnop n\n", "takes `start` of the line before"),
    ("`; assert 0`", "; assert 0\nnop 0\n", "obeys `; assert`"),
    ("`;name`, `;author`", ";name " + "n" * 61 + "\nnop 0\n", "60 bytes"),
    ("one operand with opcodes", "mov 1\n", "with this number of operands"),
    ("a last line with only a label", "jmp last\nlast\n", "drops a last line"),
    ("a counter with the name of an earlier label", "i nop 0\ni FOR 2\nnop i\nROF\n", "rejects the counter `i`"),
    ("lines and names of more", f"nop 0, {'+'.join(['1'] * 130)}\n", "truncates lines"),
]
# Rows that no source can show, and one that is not looked for: its assert may hold.
OF_MATCHES = ["three and more warriors", "starting positions", "`-F`", "`-l` above 100", "an assert after an EQU"]


@pytest.mark.parametrize("row, text, expected", DIFFERENT)
def test_each_row_of_the_table_is_checked(row: str, text: str, expected: str) -> None:
    assert any(expected in note for note in pmars_differences(text.encode(), assemble))


def test_the_table_has_these_rows() -> None:
    document = (TOP / "docs" / "user" / "LANGUAGE.md").read_text().partition("## Differences from pMARS")[2]
    rows = re.findall(r"^\| (?!\*\*|\||pMARS|-)(.+?) \|", document, re.M)
    known = [*(row for row, _, _ in DIFFERENT), *OF_MATCHES]
    assert len(rows) == len(known) and CHECKED_ROWS == len(DIFFERENT)
    assert all(any(row.startswith(one) for row in rows) for one in known)


# A source that pMARS accepts and this kit rejects, and an equal one for both; None if it cannot be fixed.
FIXED = [
    ("mov 0, \\\n 1 ; x\n", "mov 0, 1\n"),
    ("x nop 0\ny nop 0\nFOR y-x+1 ; two\ndat 1, 1\nROF\n", "nop 0\nnop 0\ndat 1, 1\ndat 1, 1\n"),
    ("x jmp z\ny nop 0\nFOR x-y\ndat 1, 1\nROF\nz nop 0\n", "jmp 2\nnop 0\nnop 0\n"),
    ("a nop 0\na: jmp a\nb a: jmp a\njmp b\n", "nop 0\njmp 0\n"),
    ("p q EQU 7 ; both\ndat p, q\n", "dat 7, 7\n"),
    ("z b FOR 2\ndat b, z\nROF\n", "dat 1, 0\ndat 2, -1\n"),
    (";assert\nnop 0\n", "nop 0\n"),
    ("e equ i*2\ni FOR 2\nmov.i e, i\nROF\n", "mov.i 2, 1\nmov.i 4, 2\n"),
    ("e equ i*2\nnop e\ni FOR 2\nnop e\nROF\n", None),
    ("e equ i*2\nFOR 2\ni FOR 2\nmov.i e, i\nROF\nROF\n", "mov.i 2, 1\nmov.i 4, 2\n" * 2),
    ("e equ nop i\n\n equ nop 9\ni FOR 2\ne\nROF\n;assert\n", "nop 1\nnop 9\nnop 2\nnop 9\n"),
    ("e equ x&i\ni FOR 2\nnop i\nROF\n", "nop 1\nnop 2\n"),
    ("a nop a\na equ 5\nnop a\n", "nop 0\nnop -1\n"),
    ("a nop 0\na equ nop 1\n\n equ nop 2\nb a\nnop a, b\n", "nop 0\nnop -1, 0\n"),
    ("a nop 0\n equ 5\n equ 6\nnop a\n", "nop 0\nnop -1\n"),
    ("FOR 0\nend of it\nROF\na nop 0\na jmp a\n", "nop 0\n"),
]


@pytest.mark.parametrize("text, same", FIXED)
def test_fixed_sources(text: str, same: str | None) -> None:
    fixed = fix(text.encode(), assemble)
    assert [*errors_of(text.encode(), assemble)]
    if same is None:
        assert [*errors_of(fixed, assemble)]
    else:
        assert assemble(fixed).load == assemble(same).load and fix(fixed, assemble) == fixed


def test_what_cannot_be_fixed_is_reported(run: Run, tmp_path: Path) -> None:
    (tmp_path / "space.red").write_text("a nop 0 ; x\na ldp 0, 1\n")
    done = run("explain", "--fix", "space.red")
    assert done.returncode == 1 and done.stdout.startswith("a nop 0 ; x\n")
    assert done.stderr.startswith("corewar: space.red: not fixed: line 2: ")


def test_fix(run: Run, tmp_path: Path) -> None:
    """A counter with the name of a modifier in its loop is renamed; comments and other loops are unchanged."""
    source = b"i_ dat 0, i_\ni FOR 2\nmov.i 0, i ; i\nx&i jmp x&i, i_\nROF\ni FOR 2\ny&i dat 0, i\nROF\n"
    (tmp_path / "scan.red").write_bytes(source)
    fixed = run("explain", "--fix", "scan.red").stdout.encode()
    assert fixed == source.replace(b"i FOR 2\nmov.i 0, i ;", b"i__ FOR 2\nmov.i 0, i__ ;").replace(
        b"x&i jmp x&i", b"x&i__ jmp x&i__"
    )
    assert assemble(fixed).load == assemble(source.replace(b"mov.i", b"mov.I")).load
    unread = b"a cat\n  /\\_/\\\n;redcode\nMOV 0, 1\nEND\nlast \\\nline\n"
    for valid in (b"i FOR 2\r\nmov.I 0, i\r\nROF", unread):
        assert fix(valid, assemble) == valid


def test_expensive_sources_are_explained_soon() -> None:
    """Explaining, comparing and fixing a source takes less than 20 s, also with thousands of causes or deep names."""
    names, many = [f"q{number}" for number in range(15000)], [f"q{number}" for number in range(9000)]
    deep = "z0 EQU 1\n" + "".join(f"z{number} EQU z{number - 1}\n" for number in range(1, 34))
    sources = {
        "counters that are modifiers": "i FOR 1\nmov.i 0, i\nROF\n" * 9000,
        "many joins in a word": f"i FOR 1\nx{'&i' * 12} DAT 0\nROF\nDAT x{'1' * 60}y\n",
        "labels that are taken": "\n".join(names) + "\n" + " ".join(names) + "\n",
        "names that are not defined": " ".join(names) + " DAT " + "+".join(f"z{name}" for name in names) + "\n",
        "words after END": "DAT x\nEND\n" + "a " * 500000 + "\n",
        "labels after loops": "FOR 0\nROF\n" * 9000 + " ".join([*many, "q1"]) + "\n",
        "deep names": deep
        + "y EQU z33 "
        + " ".join(many)
        + "\n"
        + "".join(f"{name} EQU y\n" for name in many)
        + "DAT q1\n",
    }
    for name, text in sources.items():
        with pytest.raises(MarsError) as found:
            assemble(text)
        started = time.process_time()
        assert explain_error(found.value, text.encode()), name
        pmars_differences(text.encode(), assemble)
        fix(text.encode(), assemble)
        assert time.process_time() - started < 20, name


def test_errors_of_all_commands_are_explained(run: Run) -> None:
    """The message for contradictory settings says what to do."""
    done = run("why", "-l", 200, "@imp")
    assert done.returncode == 2 and done.stderr.splitlines()[0] == "corewar: parameters 6 Distance"
    assert "set `-d`" in done.stderr.splitlines()[1]
    program = subprocess.run([TOP / "crates/mars/out/mars", "-l", "200", "x"], capture_output=True, text=True)
    assert run("explain", input=program.stderr).stdout.splitlines()[1] == done.stderr.splitlines()[1].strip()
    assert Settings().longest == 100


def test_words_of_mars(run: Run) -> None:
    """The wrong argument of the program is reported, and no other one."""
    program, imp = TOP / "crates" / "mars" / "out" / "mars", str(TOP / "examples" / "imp.red")
    cases = [
        ("-r", "requires an argument"),
        ("-r -10 W", "expected a number from 1 to 100000, not `-10`"),
        ("", "Missing argument"),
    ]
    cases += [
        ("--see 3 W", "No such option: --see"),
        ("-k W", "No such option: -k"),
        ("-s 1048577 W", "from 1 to 1048576"),
    ]
    cases += [("-r 1e3 W", "expected a number from 1 to 100000, not `1e3`"), ("-b=1 W", "No such option")]
    cases += [
        (words, "")
        for words in ("-br10 W", "-r=10 W", "-r +10 W", "-ob W", "W -b", "-- W", "--seed=3 W", "--score=S W W")
    ]
    for text, wrong in cases:
        words = [imp if word == "W" else word for word in text.split()]
        done = subprocess.run([program, *words], stdin=subprocess.DEVNULL, capture_output=True, text=True)
        assert (done.stderr == "mars: bad words\n") == bool(wrong), text
        explained = run("explain", "mars", *words)
        assert explained.returncode == (2 if wrong else 0) and wrong in explained.stderr, text
        assert wrong or explained.stdout.startswith("Each argument is valid by itself.")


@pytest.mark.parametrize(
    "cell, names, expected",
    [
        ("DAT.F $0, $0", ("", ""), "End the process."),
        ("MOV.I $0, $1", ("", ""), "Copy this instruction to the next cell."),
        ("MOV.AB #4, $3", ("`step`", ""), "Copy `step` to the B-number of the cell 3 ahead."),
        ("ADD.F #1, $-2000", ("", ""), "Add both numbers of this cell to those of the cell 2,000 back."),
        (
            "MUL.X $1, $2",
            ("", ""),
            "Multiply both numbers of the cell 2 ahead by both numbers, crosswise, of the next cell.",
        ),
        (
            "MOD.B #3, $2",
            ("", ""),
            "Replace the B-number of the cell 2 ahead with the remainder of its division by the B-number of this cell; "
            "a division by 0 ends the process.",
        ),
        ("JMZ.I $-3, $1", ("", ""), "Jump to the cell 3 back if each number of the next cell is 0."),
        ("SNE.I $1, $-1", ("", ""), "Skip the next cell if the next cell and the previous cell differ."),
        (
            "SNE.X $1, $2",
            ("", ""),
            "Skip the next cell if both numbers, crosswise, of the next cell and those of the cell 2 " "ahead differ.",
        ),
        (
            "SPL.B $2, {1",
            ("", ""),
            "Start another process at the cell 2 ahead; this one continues with the next cell "
            "(first the A-number of the next cell is decremented).",
        ),
        (
            "DJN.B @5, $5",
            ("", ""),
            "Decrement the B-number of the cell 5 ahead, then jump to the cell pointed to by the "
            "B-number of the cell 5 ahead unless it is 0.",
        ),
        ("MOV.Q 0, 1", ("", ""), ""),
    ],
)
def test_cells_in_words(cell: str, names: tuple[str, str], expected: str) -> None:
    assert describe_instruction(cell, names) == expected


@pytest.mark.parametrize(
    "words, expected",
    [
        (
            ["MOV }bomb, >ptr"],
            "MOV.I }bomb, >ptr\n"
            "Copy the cell pointed to by the A-number of `bomb` to the cell pointed to by the B-number of `ptr` "
            "(then the A-number of `bomb` is incremented, then the B-number of `ptr` is incremented).\n",
        ),
        (["mov 0, 1"], "MOV.I $0, $1\nCopy this instruction to the next cell.\n"),
        (
            ["ADD", "#step,", "*-1"],
            "ADD.AB #step, *-1\nAdd `step` to the B-number of the cell pointed to by the A-number "
            "of the previous cell.\n",
        ),
        (["loop jmp.b loop - 1 ; again"], "JMP.B $loop - 1, $0\nJump to `loop - 1`.\n"),
        (
            ["dat <ptr"],
            "DAT.F $0, <ptr\nEnd the process (first the B-number of `ptr` is decremented).\n",
        ),
        (["Slt"], "Slt: skips the next instruction if A is less than B\n"),
        (["jmp.b"], "jmp.b: jumps to A\n"),
        (["equ"], "equ: names the text up to the comment\n"),
        (["cmp MAXCYCLES, 3"], "SEQ.I $0, $3\nSkip the next cell if this cell and the cell 3 ahead are equal.\n"),
    ],
)
def test_an_instruction(run: Run, words: list[str], expected: str) -> None:
    done = run("explain", *words)
    assert (done.stdout, done.stderr, done.returncode) == (expected, "", 0)


def test_what_is_no_instruction(run: Run, tmp_path: Path) -> None:
    """A file has priority; a word that is not an opcode is a missing file; errors are explained."""
    (tmp_path / "mov 0, 1").write_text("dat 0\n")
    assert run("explain", "mov 0, 1").stdout == "mov 0, 1: no error\n"
    for name in ("move.red", "add.red", "bomb", "mvo 1,2.red"):
        assert run("explain", name).stderr.startswith(f"corewar: {name}: ")
    wrong = run("explain", "ADD 1 2")
    assert wrong.returncode == 1 and wrong.stdout.startswith("ADD 1 2: 4 Expression 1 Syntax\nA comma may be missing")
    for words, expected in (
        (["mvo 0, 1"], "mvo 0, 1: 2 Operation\n`mvo` is read as a label; did you mean `MOV`?\n"),
        (["mvo", "bomb,", ">ptr"], "mvo bomb, >ptr: 2 Operation\n`mvo` is read as a label; did you mean `MOV`?\n"),
        (["mov.q 0, 1"], "mov.q 0, 1: 2 Operation\n`.q` is not a modifier; the modifiers are A, B, AB, BA, F, X, I.\n"),
    ):
        wrong = run("explain", *words)
        assert (wrong.returncode, wrong.stdout, wrong.stderr) == (1, expected, "")
    assert run("explain", "--fix", "add 0, 1").returncode == 1


def test_an_instruction_on_standard_input(run: Run) -> None:
    done = run("explain", input="MOV 0, 1\n")
    assert (done.stdout, done.returncode) == ("MOV.I $0, $1\nCopy this instruction to the next cell.\n", 0)
    wrong = run("explain", input="mov 0 1\n")
    assert wrong.returncode == 1 and wrong.stdout.endswith("A comma may be missing between `0` and `1`.\n")


NEWCOMERS = [
    (
        "step EQV 4\nloop ADD #step, x\nJMP loop\n",
        {1: "`EQV` is read as a label; did you mean `EQU`?", 2: "`x` is not"},
    ),
    ("copy EQV MOV 0, 1\nstart copy\nJMP start\n", {2: "In line 1, `EQV` is read as a label; did you mean `EQU`?"}),
    ("i FOR 2\nADD #4, bmb\nJMP x\nbomb DAT 0, i\nEND bomb\n", {1: "The FOR", 2: "`bmb` is not", 3: "`x` is not"}),
    ("i FOR 2\nMOV 0, 1\nJMP x\n", {1: "The FOR in this line has no ROF", 3: "`x` is not defined"}),
    (
        "MOV 99999999999999999999, 1\n",
        {1: "`99999999999999999999` is too large: a number is at most 9223372036854775807"},
    ),
    (f"MOV {'9' * 5000}, 1\n", {1: "`9999"}),
    ("MOV 0x1F, 1\n", {1: "`0x1F` is neither a number, which is decimal, nor a name"}),
    ("i FOR 2\nNOP\nROF\nJMP x&i\n", {4: "`x&i`: `i` is not the counter of a loop around this line."}),
    (
        "c EQU NOP\n EQU NOP\nc\nJMP c\n",
        {4: "`c` is the EQU of several lines in line 1, which can be used only as an operation"},
    ),
    ("m EQU MOV 1/0, 1\nm\nJMP x\n", {2: "In line 1, there is a division", 3: "`x` is not defined"}),
    ("x EQU 1-x\nNOP 1, x\n", {2: "In line 1, EQU names refer to each other"}),
    ("x EQU x\na x 1\nJMP a\n", {2: "In line 1, EQU names refer to each other"}),
    ("m EQU a NOP\n EQU a NOP\nm\n", {3: "In line 2, the label or EQU name is already used"}),
    ("NOP\nNOP\nNOP\nFOR 2-CURLINE\nNOP\nROF\n", {4: "The value of `2-CURLINE` is not between 0 and 10,000"}),
]


@pytest.mark.parametrize("source, lines", NEWCOMERS)
def test_errors_of_newcomers(source: str, lines: dict[int, str]) -> None:
    """Each error is reported with its word; no error hides another one or causes a false one."""
    found = {fault.line: sentences[0] for fault, sentences in errors_of(source.encode(), assemble)}
    assert found.keys() == lines.keys() and all(found[line].startswith(start) for line, start in lines.items()), found


@pytest.mark.parametrize(
    "text, mark",
    [
        ("mov.q 0, 1\n", "       |     ^"),
        ("\tmvo 0, 1 ; mvo\n", "       |         ^^^"),
        ("mov 0 1\n", "       |     ^^^"),
        ("mov 0,\n", "       |      ^"),
        ("jmp\n", "       | ^^^"),
        ("mov 0, 1, 23\n", "       |         ^"),
        ("mov 0.5, 1\n", "       |      ^"),
        ("mov 0, 1 // copy\n", "       |           ^"),
        ("# copy it\n", "       | ^"),
        ("mov 0, nop jmp\n", "       |        ^^^"),
        ("add 0, (1\n", "       |         ^"),
        ("add 1, 1/0\n", "       |        ^"),
        ("\tadd 12, 1 + 12 12\n", "       |                     ^^^^^"),
        ("sta x, 1\n", "       | ^^^"),
        ("[1]\n", "       | ^"),
        (";assert 0\n", "       |         ^"),
        ("jmp 2-CORESIZ ; CORESIZ\n", "       |       ^^^^^^^"),
        ("mov 1, 0x1F\n", "       |        ^^^^"),
        ("mov 1 & 2\n", "       |       ^"),
        ("mov 0, \u20181\u2019\n", "       |        ^"),
        ("i: for 2\n", "       |    ^^^"),
        (" rof ; rof\n", "       |  ^^^"),
        ("for CORESIZE-lab\nrof\n", "       |              ^^^"),
        ("for 2%0\nrof\n", "       |     ^"),
        ("5 for 2\nrof\n", "       | ^"),
        ("b c c nop\n", "       |     ^"),
    ],
)
def test_the_word_that_is_wrong_is_marked(text: str, mark: str, run: Run, tmp_path: Path) -> None:
    (tmp_path / "x.red").write_text(f"nop\n{text}nop\n")
    lines = run("explain", "x.red").stdout.splitlines()
    assert lines[3] == mark and lines[2].startswith(">    2 | ")


@pytest.mark.parametrize(
    "source, word, column",
    [
        ("; \u00e4\n  mov x, 1 ; x\n", "x", 6),
        ("b nop 0\n\tjmp b-(b ; b\n", "b", 8),
        ("e EQU 5/0\nnop 1, e\n", "5", None),
        ("i FOR 2\nmov.i 0, i\nROF\n", "i", 4),
        ("nop 0\nmov 1 mov\njmp off\n", "off", 4),
        ("; nothing\n", "", None),
        ("a nop 0\nb a nop 0\n", "a", 2),
        ("x EQU 1-x\nnop 1, x\n", "x", None),
    ],
)
def test_the_place_of_an_error(source: str, word: str, column: int | None) -> None:
    """The library says at which bytes the last error arises; those of an EQU are in its definition."""
    data = source.encode()
    fault = [fault for fault, _ in errors_of(data, assemble)][-1]
    assert data[fault.begin : fault.end] == word.encode()
    again = pickle.loads(pickle.dumps(fault))
    assert (again.begin, again.end) == (fault.begin, fault.end)
    problem = corewar.problems(source)[-1]
    assert (problem.word, problem.column) == ((word, column) if column is not None else ("", 0))


def test_a_number_without_its_sign(run: Run, tmp_path: Path) -> None:
    """An EQU number is a distance without `#`. If the distance leads out of the warrior, the number was meant."""
    (tmp_path / "x.red").write_text("by EQU far*2\nfar EQU 20\nadd by, 1\nadd #by, 1\nmov by, 1\nadd 40, 1\n")
    hint = "line 3: `by` is the cell 40 cells ahead, outside the warrior; write `#by` for the number 40"
    assert run("explain", "x.red").stdout == f"x.red: no error\n{hint}\n"
    (tmp_path / "x.red").write_text(
        "by EQU 1\nadd by, 1\nsub far, 1\ni FOR 2\nx&i EQU 50*i\nadd x&i, 1\nROF\nfar dat 0, 0\n"
    )
    assert run("explain", "x.red").stdout == "x.red: no error\n"


def test_a_space_that_is_missing(run: Run, tmp_path: Path) -> None:
    """An opcode and a label without a space between them are read as a label. It is valid, but reported if no operand
    names it.
    """
    (tmp_path / "x.red").write_text("go mov 0, 1\nlast JMPgo\naddgo\n    dat addgo\n")
    hint = "line 2: `JMPgo` is read as a label; did you mean `JMP go`?"
    assert run("explain", "x.red").stdout == f"x.red: no error\n{hint}\n"


def test_a_comma_that_is_missing(run: Run, tmp_path: Path) -> None:
    """A mode without a comma before it is valid in both programs, but compares two numbers; the comma was meant."""
    (tmp_path / "x.red").write_text("djn -1 <-5\nmov 1<2, 3>2\nspl 0, <-10\n")
    hint = "line 1: `<` compares two numbers of one operand; write `, <` for the mode of a second operand"
    assert run("explain", "x.red").stdout == f"x.red: no error\n{hint}\n"


@pytest.mark.parametrize(
    "words, source",
    [
        ([], "a NOP\n" * 150_000),
        (["--format", "json"], "a NOP\n" * 150_000),
        (["--pmars"], "a NOP\n" * 150_000),
        (["--fix"], "i FOR 1\nMOV.i 0, 1\nROF\n" * 40_000),
    ],
)
def test_the_limit_is_for_explanations_too(run: Run, tmp_path: Path, words: list[str], source: str) -> None:
    """What the command itself does with a source has the same limit of time as assembling the source."""
    (tmp_path / "large.red").write_text(source)
    (tmp_path / "bad.red").write_text("foo 1\n")
    done = run("explain", *words, "--source-limit", 1, "large.red", timeout=60)
    assert done.returncode == 1 and done.stderr == f"corewar: large.red: {TOO_LONG}\n"
    if not words:
        done = run("explain", "--source-limit", 1, "large.red", "bad.red", timeout=60)
        assert "bad.red: line 1: 2 Operation" in done.stdout and TOO_LONG in done.stderr


def test_the_limit_is_for_all_sources_together() -> None:
    """Each source takes less than the limit, but all together take more; then no source is assembled any more."""
    costly = slow().replace("FOR 6\nFOR 10000", "FOR 1\nFOR 4000")
    with corewar.Assembler(corewar.Limit(2, 500), is_total=True) as assembler:
        with pytest.raises(corewar.Overrun, match="takes more than 2 s of CPU time"):
            for _ in range(40):
                assembler.assemble(costly)
        with pytest.raises(corewar.Overrun, match="takes more than 2 s of CPU time"):
            assembler.assemble("NOP")


def test_problems_have_the_limit() -> None:
    with pytest.raises(corewar.Overrun, match=TOO_LONG):
        corewar.problems("a NOP\n" * 150_000, limit=corewar.Limit(1, 500))
    assert signal.getitimer(signal.ITIMER_PROF) == (0, 0)


def test_only_an_earlier_label_is_no_counter_of_pmars() -> None:
    loop, label = "i FOR 2\nDAT i, 0\nROF\n", "i DAT 0, 0\n"
    note = "line 2: pMARS rejects the counter `i`, a label of an earlier line."
    assert note in pmars_differences((label + loop).encode(), assemble)
    assert pmars_differences((loop + label).encode(), assemble) == []


def test_a_fix_reports_what_is_left(run: Run, tmp_path: Path) -> None:
    """The fixed source can be assembled, but pMARS executes a line of it in another way."""
    (tmp_path / "left.red").write_text(" MOV <0, #5\np q FOR 2\nDAT #5\nROF\n")
    done = run("explain", "--fix", "left.red")
    note = "line 1: pMARS reads the B-operand before the side effect of the A-operand, this kit after it."
    assert (done.returncode, done.stderr) == (3, f"corewar: left.red: left as it is: {note}\n")
    assert "DAT #0, #5\n" in done.stdout
    (tmp_path / "done.red").write_text("p q FOR 2\nDAT 0, 0\nROF\n")
    assert run("explain", "--fix", "done.red").stderr == ""
