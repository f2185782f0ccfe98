"""Compares the results of the library for C, through the package, with the output of the program.

Assemblies, matches, leagues, transcripts and errors are those of the program; a population is the sum of its matches;
two threads get the same results as one. (tests/test_blocks.py compares states, records and touched cells with
transcripts.) A C program calls each export with each allocation failing in turn, without tools, under valgrind and
under AddressSanitizer; the example in Rust is built.
"""
from __future__ import annotations

import os
import random
import re
import shutil
import subprocess
import sys
from collections.abc import Callable, Iterator, Sequence
from concurrent.futures import ThreadPoolExecutor
from itertools import permutations
from pathlib import Path
from typing import Any

import pytest
from battles import edits, matches
from counting import DEV, PROGRAM, TOP, skip
from hypothesis import HealthCheck, given, settings as how, strategies as st

import corewar
from corewar.engine.binding import library
from corewar.engine.warriors import read_load
from corewar.model import cells, errors
from corewar.model.header import names, numbers
from corewar.model.settings import NUMBERS

ARCHIVE = os.environ.get("MARS_ARCHIVE") or f"{TOP}/crates/mars_c/out/libmars_c.a"
HEADER = Path(TOP, "crates", "mars_c", "include", "mars.h").read_text()
EXAMPLES = sorted(map(str, Path(TOP, "examples").glob("*.red")))
OPCODES, MODES = [*cells.OPCODES, "CMP", "FOO"], ["", *cells.MODES, "?"]
LINES = ["", "x EQU 3", "i FOR 2", "ROF", "END 1", "ORG 5", ";assert 0", "MOV 1/0, 2", "lab ADD lab, x", "MOV é"]
# A source for each error of the assembler.
FAULTY = [
    "MOV é",
    "DAT 1, ?",
    "FOR 2\nDAT 0",
    "ROF",
    "i FOR 10001\nDAT 0\nROF",
    "lab DAT 0\ni FOR lab\nDAT 0\nROF",
    "x EQU 1\nx EQU 2\nDAT x",
    "".join(f"e{i} EQU e{i + 1}\n" for i in range(40)) + "e40 EQU 1\nDAT e0",
    "i FOR 10000\nj FOR 10000\nDAT 0\nROF\nROF",
    "i FOR 1/0\nDAT 0\nROF",
    "FOO 1",
    "MOV",
    "MOV 1/0, 2",
    "MOV 9223372036854775807+1, 2",
    "MOV x, 1",
    "MOV 1+, 2",
    f"MOV {'(' * 65}1{')' * 65}, 2",
    ";assert 0\nDAT 0",
    "ORG 5\nDAT 0",
    "",
    "DAT 0\n" * 101,
]
# A load file for each of its errors.
BAD_LOADS = [
    "DAT.F #0, #0\nMOV 0\n",
    "DAT.F #0, #0\n" * 101,
    "ORG 0\n",
    "ORG 5\nDAT.F #0, #0\n",
    ";load 3 8\nDAT.F #0, #0\n",
]
# Settings that the program rejects as arguments, and the error of each.
OUT_OF_RANGE = [
    ({"core": 0}, "parameters 1 CoreSize"),
    ({"core": 1048577}, "parameters 1 CoreSize"),
    ({"processes": 0}, "parameters 2 Processes"),
    ({"cycles": 10000001}, "parameters 3 Cycles"),
    ({"longest": 0}, "parameters 5 Length"),
    ({"core": -1}, "parameters 1 CoreSize"),
    ({"cycles": 1 << 32}, "parameters 3 Cycles"),
    ({"read_limit": 0}, "parameters 4 Limit"),
    ({"write_limit": -1}, "parameters 4 Limit"),
]
dice = random.Random(1)


@pytest.fixture(scope="module")
def built(tmp_path_factory: pytest.TempPathFactory) -> str:
    """The folder with a build of the library."""
    assert os.path.isfile(ARCHIVE), "no archive of the library; run dev/library"
    folder = str(tmp_path_factory.mktemp("built"))
    done = subprocess.run([f"{DEV}/library", "--archive", ARCHIVE, "--out", folder], capture_output=True, text=True)
    assert (done.returncode, done.stderr) == (0, "")
    return folder


def words_of(settings: corewar.Settings) -> list[str]:
    """Returns the arguments of the program for settings."""
    return [f"{NUMBERS[name].word}={value}" for name, value in vars(settings).items() if value]


def run_program(*words: str, **options: Any) -> str | bytes:
    """Returns the output of the program, or its error without its own name and that of a file."""
    done = subprocess.run([PROGRAM, *words], capture_output=True, **options)
    error = done.stderr.decode().rstrip("\n")
    return re.sub(r"^mars: (\S+/\S+: )?", "", error) if done.returncode else done.stdout


def result_of(call: Callable[..., Any], *arguments: Any, **options: Any) -> Any:
    """Returns the result of a call, or the text of its error."""
    try:
        return call(*arguments, **options)
    except corewar.MarsError as error:
        return str(error)


def file_of(folder: Path, name: str, data: bytes) -> str:
    path = folder / name
    path.write_bytes(data)
    return str(path)


def files_of(loads: list[bytes], folder: Path) -> list[str]:
    """Writes load files, and returns their paths."""
    return [file_of(folder, f"{number}.load", load) for number, load in enumerate(loads)]


def plain(table: Any) -> Any:
    """Returns the rows of a table, as numbers; an error is returned unchanged."""
    if isinstance(table, str):
        return table
    return [corewar.Row(*map(int, line.split()[:4])) for line in table.splitlines()[1:]]


def operand(modes: Sequence[str]) -> str:
    return f"{dice.choice(modes)}{dice.randrange(-9, 10)}"


def source() -> str:
    """A source of random words; some are faulty."""
    modes, ops = MODES[: -1 if dice.randrange(30) else None], OPCODES[: -1 if dice.randrange(20) else None]
    lines = [f"{dice.choice(ops)} {operand(modes)}, {operand(modes)}" for _ in range(dice.randrange(1, 7))]
    if dice.randrange(3) == 0:
        lines.insert(dice.randrange(len(lines) + 1), dice.choice(LINES))
    return "\n".join(lines) + "\n"


def loads() -> Iterator[bytes]:
    """Some random warriors, as load files of version 1; now and then a faulty one."""

    def cell() -> str:
        modifier, modes = dice.choice(cells.MODIFIERS), MODES[1:-1]
        return f"{dice.choice(OPCODES[:-2])}.{modifier} {operand(modes)}, {operand(modes)}\n"

    for _ in range(dice.choice([1, 2, 2, 2, 2, 3, 5])):
        body = "".join(cell() for _ in range(dice.randrange(1, 6)))
        yield f"ORG 0\n{body}{'' if dice.randrange(60) else 'X'}\n".encode()


def settings() -> corewar.Settings:
    """Settings of a small core, now and then out of their ranges."""
    core, longest = dice.choice([80, 200, 800]), dice.randrange(5, 9)
    limit = dice.choice([0, 0, 0, core, core // 2, 7 if dice.randrange(10) else core + 1])
    distance = longest if dice.randrange(8) else longest + dice.randrange(-1, 9)
    processes, cycles = dice.choice([1, 8, 80]), dice.choice([10, 200, 800])
    limits: dict[str, Any] = {"read_limit": limit or None, "write_limit": dice.choice([0, limit]) or None}
    return corewar.Settings(core=core, processes=processes, cycles=cycles, longest=longest, distance=distance, **limits)


def test_assemblies(tmp_path: Path) -> None:
    """Examples and random sources: the load file, or the error with its line."""
    count = 0
    for text in [*(Path(path).read_bytes() for path in EXAMPLES), *(source().encode() for _ in range(300))]:
        terms = settings() if len(text) < 200 else corewar.Settings()
        expected = run_program("--load", *words_of(terms), file_of(tmp_path, "source.red", text))
        count += isinstance(expected, str)
        result = result_of(corewar.assemble, text, settings=terms, warriors=1)
        assert getattr(result, "load", result) == expected, text
    assert 50 < count < 250, "50 to 250 of the random sources have an error"


def test_errors_of_files(tmp_path: Path) -> None:
    """Each error of a source and of a load file, by its numbers and its line."""
    for text in FAULTY:
        path = file_of(tmp_path, "faulty.red", text.encode())
        assert result_of(corewar.assemble, text) == run_program("--load", path), text[:40]
    for text in BAD_LOADS:
        path = file_of(tmp_path, "faulty.load", text.encode())
        with pytest.raises(corewar.FileError) as found:
            corewar.read(path)
        assert str(found.value.fault) == run_program("-b", path), text[:40]


def test_errors_of_settings() -> None:
    imp = corewar.assemble("MOV 0, 1")
    for words, error in OUT_OF_RANGE:
        assert result_of(corewar.match, [imp], settings=corewar.Settings(**words)) == error
    for rounds, seed, number in (
        (1, 0, 2),
        (100001, 1, 1),
        (1, 2147483647, 2),
        (-1, 1, 1),
        (1, -1, 2),
        (1, 1 << 40, 2),
    ):
        contests: list[Any] = [corewar.match, corewar.league]
        for call in contests:
            expected = f"settings {number} {names('SETTINGS')[number]}"
            assert result_of(call, [imp] * 2, rounds=rounds, seed=seed) == expected
    for count, position, number in ((3, 400, 3), (2, 99, 3), (2, 7901, 3), (2, 0, 3), (2, -1, 3), (0, None, 4)):
        expected = f"settings {number} {names('SETTINGS')[number]}"
        assert result_of(corewar.match, [imp] * count, position=position) == expected
    battles: list[Any] = [corewar.match, lambda warriors: corewar.Battle(corewar.Match(warriors))]
    for call in battles:
        with pytest.raises(corewar.CorewarError, match="a match has at most 16 warriors, not 17"):
            call([imp] * 17)
    assert result_of(corewar.Battle, corewar.Match((imp,), rounds=100001), 100000) == "settings 1 Rounds"
    battle = corewar.Battle(corewar.Match((imp,)))
    for history in (0, 1000001):
        assert result_of(battle.debug, [], history) == "settings 6 History"
    for words in ({"turns": -1}, {"turns": 1 << 32}, {"turns": 1, "records": -1}, {"turns": 1, "touched": 1 << 32}):
        with pytest.raises(corewar.CorewarError, match="expected a number from 0 to 4294967295"):
            battle.play(**words)


def test_contests(tmp_path: Path) -> None:
    """Random matches and leagues: the rows, or the error."""
    fought = 0
    for index in range(1000):
        files, terms, rounds, seed = [*loads()], settings(), dice.randrange(1, 6), dice.randrange(1, 1 << 30)
        formula = dice.choice(["(W*W-1)/S", "(W*W-1)/S", "5*W-S", "W/(S-1)", "W+"])
        words = [f"-r={rounds}", f"--seed={seed}", f"--score={formula}", *words_of(terms), *files_of(files, tmp_path)]
        is_league = index % 4 == 0 and len(files) > 1
        expected = plain(run_program("-b", *["--league"] * is_league, *words))
        fought += not isinstance(expected, str)
        call: Any = corewar.league if is_league else corewar.match

        def run() -> Any:
            warriors = [read_load(load, terms) for load in files]
            return call(warriors, settings=terms, rounds=rounds, seed=seed, formula=formula)

        result = result_of(run)
        # The program reads the formula before the files.
        assert result == expected or "load" in result and isinstance(expected, str), words
    assert 500 < fought < 990


def test_populations() -> None:
    """A population: the sums of its matches; with a position, too."""
    warriors = [corewar.read(path) for path in EXAMPLES]
    for position in (None, 400):
        sums = []
        for one in warriors[:3]:
            rows = [corewar.match([one, other], rounds=5, seed=7, position=position)[0] for other in warriors[3:7]]
            sums.append(corewar.Row(*map(sum, zip(*(vars(row).values() for row in rows)))))
        assert corewar.population(warriors[:3], warriors[3:7], rounds=5, seed=7, position=position) == sums
    assert corewar.population(warriors[:2], []) == [corewar.Row(0, 0, 0, 0)] * 2


def test_sums_of_populations() -> None:
    """Only the whole sum of a candidate has to fit in 64 bits, so the order of the opponents changes nothing."""
    imp, dead = corewar.assemble("MOV 0, 1"), corewar.assemble("DAT 0, 0")
    # A tie scores half of what does not fit, and a win as much less than nothing.
    half = 2**62

    def points(*opponents: corewar.Warrior) -> int:
        return corewar.population([imp], opponents, formula=f"(2*S-3)*{half}")[0].points

    assert {points(*opponents) for opponents in permutations([imp, imp, dead])} == {half}
    with pytest.raises(corewar.MarsError, match="score 4 Range"):
        points(imp, imp)


MOVES = st.one_of(
    edits(), st.sampled_from(["step", "run 3", "undo", "redo", "goto 2", "show", "queue 0", "list 0 24", "no"])
)


@how(suppress_health_check=[HealthCheck.function_scoped_fixture])
@given(matches(), st.lists(MOVES, max_size=12))
def test_transcripts(tmp_path: Path, fight: Any, lines: list[str]) -> None:
    """The debugger of the library has the replies of the program's debugger."""
    words = [
        "-e",
        f"--seed={fight.seed}",
        *words_of(fight.settings),
        *files_of([one.load for one in fight.warriors], tmp_path),
    ]
    expected = run_program(*words, input="".join(f"{line}\n" for line in lines).encode())
    transcript = result_of(lambda: corewar.Battle(fight).debug(lines))
    assert transcript == (expected if isinstance(expected, str) else expected.decode())


def test_longer_answers() -> None:
    """Buffers that have to grow, and later rounds, which begin in turn."""
    imp, split = corewar.assemble("MOV 0, 1"), corewar.assemble("SPL 0\nJMP -1")
    assert len(corewar.Battle(corewar.Match((imp,))).debug(["list 0 8000"]).splitlines()) == 8000
    battle = corewar.Battle(corewar.Match((split,)))
    replies = battle.debug(["run 20000", "show"])
    battle.play(20000)
    assert len(battle.queues[0]) == int(replies.split("processes ")[1].split()[0])
    three = corewar.Match((imp,) * 3, seed=7, rounds=4)
    assert [corewar.Battle(three, number).queues[-number % 3].tolist() for number in range(4)] == [[0]] * 4


def test_threads() -> None:
    """Two threads that call at the same time get the results of one."""
    warriors = [corewar.read(path) for path in EXAMPLES[:3]]

    def work(seed: int) -> Any:
        return corewar.match(warriors, rounds=3, seed=seed + 1)

    with ThreadPoolExecutor(2) as pool:
        assert [*pool.map(work, range(60))] == [*map(work, range(60))]


def test_shared(built: str) -> None:
    """The shared library is named by its major version, and exports only the calls of the header."""

    def output_of(*words: str) -> str:
        return subprocess.run([*words, f"{built}/libmars.so"], capture_output=True, text=True).stdout

    assert os.readlink(f"{built}/libmars.so") == "libmars.so.2"
    assert "soname: [libmars.so.2]" in output_of("readelf", "--dynamic")
    exported = {line.split()[-1] for line in output_of("nm", "--dynamic", "--defined-only").splitlines()}
    assert exported == {*re.findall(r"^(?:uint32_t|size_t) (mars_\w+)\(", HEADER, re.M)}


C_PROGRAMS = [
    ([], []),
    ([], ["valgrind", "-q", "--error-exitcode=1", "--leak-check=full"]),
    (["-fsanitize=address"], []),
]


@pytest.mark.parametrize("more, before", C_PROGRAMS, ids=["plain", "valgrind", "AddressSanitizer"])
def test_c(tmp_path: Path, built: str, more: list[str], before: list[str]) -> None:
    """The C program without tools, under valgrind, and under AddressSanitizer."""
    text, program = str(Path(__file__).with_name("library.c")), str(tmp_path / "calls")
    words = ["gcc", *more, "-Wall", "-Wextra", "-Werror", f"-I{TOP}/crates/mars_c/include", text, "-o", program]
    words += ["-Wl,--wrap=malloc,--wrap=realloc,--wrap=free", f"{built}/libmars.a"]
    compiled = subprocess.run(words, capture_output=True, text=True)
    if before and not shutil.which(before[0]) or more and compiled.returncode:
        skip("the C program", "a tool is missing", before[0] if before else "gcc")
    done = subprocess.run([*before, program], capture_output=True, text=True, timeout=300)
    assert (compiled.stderr, done.stderr, done.returncode) == ("", "", 0)
    assert re.fullmatch(r"[1-9]\d* passed, 0 failed\n", done.stdout)


def test_structures_in_rust() -> None:
    """The structures of the example in Rust have the sizes of those in the header."""
    text = Path(TOP, "examples", "rust", "src", "mars.rs").read_text()
    sizes = {"u8": 1, "u32": 4, "u64": 8, "i64": 8, "[u8; 64]": 64, "Extent": 8}
    found = re.findall(r"#\[repr\(C\)\]\n(?:#[^\n]*\n)?(?:pub )?struct (\w+) \{\n(.*?)\n\}", text, re.S)
    assert len(found) == text.count("#[repr(C)]")
    for name, fields in found:
        size = sum(sizes[kind] for kind in re.findall(r"^ *(?:pub )?\w+: (.*),$", fields, re.M))
        assert size == library()[0].sizeof({"Extent": "MarsWarrior"}.get(name, f"Mars{name}")), name


def test_rust(tmp_path: Path, built: str) -> None:
    """The example in Rust: the rows of a match, and the error of a source."""
    if not shutil.which("cargo"):
        skip("the example in Rust", "there is no cargo", "cargo")
    environment = {**os.environ, "MARS_LIB": built, "CARGO_TARGET_DIR": str(tmp_path / "target")}

    def fight(*words: str) -> subprocess.CompletedProcess[str]:
        command = ["cargo", "run", "--quiet", "--offline", "--", *words]
        return subprocess.run(command, cwd=f"{TOP}/examples/rust", env=environment, capture_output=True, text=True)

    done = fight("20", *EXAMPLES[:3])
    assert (done.returncode, done.stderr) == (0, "")
    assert plain(done.stdout.encode()) == plain(run_program("-b", "-r", "20", *EXAMPLES[:3]))
    loads = files_of([corewar.read(path).load for path in EXAMPLES[:3]], tmp_path)
    assert plain(fight("20", *loads).stdout.encode()) == plain(done.stdout.encode())
    done = fight("20", file_of(tmp_path, "source.red", b"MOV 0, 1\nFOO 1\n"))
    assert (done.returncode, done.stdout) == (1, "")
    assert "answer 5, number 2, problem 0, expression 0, line 2, warrior 0, bytes 9 to 12" in done.stderr


def test_header() -> None:
    """The numbers of the header are those that a compiler gives them, and each kind of error has its names."""
    compiled = {name: getattr(library()[1], f"MARS_{name}") for name in numbers()}
    assert compiled == numbers() and len(compiled) > 100
    nameless = {kind for kind, enumeration in errors.KINDS.values() if not names(enumeration)}
    assert nameless == {"done", "out of memory", "room", "condition", "process"}
    assert (len(cells.OPCODES), len(cells.MODIFIERS), cells.MODES) == (16, 7, "#$*@{<}>")
    words = [sys.executable, f"{TOP}/python/corewar/__main__.py", "--help"]
    environment = {**os.environ, "PYTHONPATH": f"{TOP}/python", "MARS_HEADER": "none.h"}
    done = subprocess.run(words, capture_output=True, text=True, env=environment)
    lost = "corewar: cannot find none.h; install it with `make install` or set MARS_HEADER\n"
    assert (done.returncode, done.stdout, done.stderr) == (1, "", lost)


def test_nothing_is_built_twice(built: str) -> None:
    if not shutil.which("wasm-opt"):
        skip("mars.wasm", "there is no wasm-opt", "binaryen")
    times = {path: path.stat().st_mtime_ns for path in Path(built).iterdir()}
    again = [f"{DEV}/library", "--archive", ARCHIVE, "--out", built]
    assert subprocess.run(again, capture_output=True, text=True).stdout == f"{built} is up to date\n"
    assert times == {path: path.stat().st_mtime_ns for path in Path(built).iterdir()}


def test_script() -> None:
    """Wrong arguments of `dev/library`."""
    library = [f"{DEV}/library"]
    assert subprocess.run([*library, "--none"], capture_output=True).returncode == 2
    done = subprocess.run([*library, "--archive", "none", "--out", "none"], capture_output=True, text=True)
    assert done.stderr == "library: none: no such archive\n"
