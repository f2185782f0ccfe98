"""Tests the wheels and the source archive: this system's wheel installs into a fresh virtual environment and runs there
from any folder, pip accepts each wheel for its system, and pip compiles the archive.
"""
from __future__ import annotations

import pickle
import shutil
import subprocess
from collections.abc import Iterator
from pathlib import Path

import corewar
import pytest
from conftest import EXAMPLES, TOP
from counting import skip
from test_install import make_well

NAME = f"corewar-{corewar.__version__}-py3-none-"
WHEEL = TOP / "build" / f"{NAME}manylinux_2_17_x86_64.manylinux2014_x86_64.whl"
# Systems as pip names them, and the library of each.
SYSTEMS = {
    "manylinux_2_17_x86_64": "libmars.so.2",
    "manylinux_2_17_aarch64": "libmars.so.2",
    "musllinux_1_1_aarch64": "libmars.so.2",
    "win_amd64": "mars-2.dll",
    "macosx_14_0_arm64": "libmars.2.dylib",
    "macosx_12_0_x86_64": "libmars.2.dylib",
}
# A user's script with two mistakes that a type checker finds: a warrior that is text, and a field that no row has.
MISTAKEN = """\
import corewar

imp = corewar.assemble("MOV 0, 1")
corewar.match([imp, "MOV 0, 1"])
print(corewar.match([imp])[0].score)
"""


@pytest.fixture(scope="module")
def environment(tmp_path_factory: pytest.TempPathFactory) -> Iterator[Path]:
    """Yields a virtual environment with the wheel, whose other packages are Debian's."""
    for module, package in (("ensurepip", "venv"), ("pip", "pip"), ("setuptools", "setuptools"), ("wheel", "wheel")):
        code = f"import importlib.util, sys; sys.exit(importlib.util.find_spec('{module}') is None)"
        if subprocess.run(["/usr/bin/python3", "-c", code]).returncode:
            skip("the wheel", f"there is no module {module}", f"python3-{package}")
    make_well("wheels")
    folder = tmp_path_factory.mktemp("venv")
    for words in (
        ["/usr/bin/python3", "-m", "venv", "--system-site-packages", folder],
        [folder / "bin" / "pip", "install", "-q", "--no-index", "--no-deps", WHEEL],
    ):
        done = subprocess.run(list(map(str, words)), capture_output=True, text=True)
        assert done.returncode == 0, done.stderr
    yield folder


def started(environment: Path, *words: object, input: str = "", folder: object = "/") -> str:
    """Runs a program of the environment in a folder, and returns its output. The program must succeed, and must write
    nothing to standard error.
    """
    command = [str(environment / "bin" / str(words[0])), *map(str, words[1:])]
    variables = {"PATH": "/usr/bin:/bin", "HOME": str(environment), "NO_COLOR": "1"}
    done = subprocess.run(command, input=input, cwd=str(folder), env=variables, capture_output=True, text=True)
    assert (done.stderr, done.returncode) == ("", 0)
    return done.stdout


def test_they_are_the_same_again(environment: Path) -> None:
    first = {path: path.read_bytes() for path in WHEEL.parent.glob(f"{NAME}*.whl")}
    make_well("wheels")
    assert len(first) == 5 and all(path.read_bytes() == content for path, content in first.items())


@pytest.mark.parametrize("system", SYSTEMS)
def test_pip_accepts_one_for_each_system(environment: Path, tmp_path: Path, system: str) -> None:
    words = ["install", "-q", "--no-index", "--no-deps", "--only-binary=:all:", "--find-links", TOP / "build"]
    started(environment, "pip", *words, "--platform", system, "--target", tmp_path, "corewar")
    assert {path.name for path in tmp_path.glob("corewar/engine/*mars*")} == {SYSTEMS[system], "mars.h"}


def test_it_calls_its_own_library(environment: Path) -> None:
    code = "import corewar.engine.binding as b; b.library(); print(b.ENGINE, open('/proc/self/maps').read())"
    output = started(environment, "python", "-c", code)
    assert output.startswith(f"{environment}/lib/") and f"{output.split()[0]}/libmars.so.2\n" in output


def test_it_names_the_processor_that_it_needs(environment: Path) -> None:
    """No tag of wheels says x86-64-v2, so the library does, and is not loaded on an older processor."""
    (library,) = environment.glob("lib/python*/site-packages/corewar/engine/libmars.so.2")
    words = [
        "qemu-x86_64-static",
        "-cpu",
        "qemu64",
        "/usr/bin/python3",
        "-c",
        f"import ctypes; ctypes.CDLL('{library}')",
    ]
    refused = subprocess.run(words, capture_output=True, text=True)
    assert refused.stderr.endswith("libmars.so.2: CPU ISA level is lower than required\n")


def test_no_header_is_parsed(environment: Path) -> None:
    """The package starts without the parser, which -OO would break, since it depends on docstrings."""
    code = "import sys, corewar; corewar.assemble('MOV 0, 1'); print('pycparser' in sys.modules)"
    assert started(environment, "python", "-OO", "-c", code) == "False\n"


def test_commands_run_from_any_folder(environment: Path, tmp_path: Path) -> None:
    files = [EXAMPLES / "dwarf.red", EXAMPLES / "imp.red"]
    fought = started(environment, "corewar", "fight", "-r", "10", *files)
    assert [row.split()[:4] for row in fought.splitlines()[-2:]] == [["16", "3", "7", "0"], ["7", "0", "7", "3"]]
    league = started(environment, "corewar", "league", "--results", tmp_path / "hill.sqlite", *files, folder=tmp_path)
    assert "Dwarf by A. K. Dewdney" in league
    assert "Imp died" in started(environment, "corewar", "why", *files).replace("dies", "died")
    assert "turn 3" in started(environment, "corewar", "debug", *files, input="step 3\n")


def test_pip_compiles_the_source_archive(environment: Path, tmp_path: Path) -> None:
    """The library that is compiled is not that of the wheel, but a league has the same results."""
    make_well("dist")
    words = ["-q", "--no-index", "--no-deps", "--no-build-isolation", "--target", tmp_path]
    started(environment, "pip", "install", *words, TOP / "build" / f"corewar-{corewar.__version__}.tar.gz")
    (library,) = environment.glob("lib/python*/site-packages/corewar/engine/libmars.so.2")
    assert (tmp_path / "corewar" / "engine" / "libmars.so.2").read_bytes() != library.read_bytes()
    league = ["league", "-r", "20", *(EXAMPLES / f"{name}.red" for name in ("dwarf", "imp", "silk", "scanner"))]
    code = f"import sys; sys.path.insert(0, '{tmp_path}'); from corewar.__main__ import main; main()"
    assert started(environment, "python", "-c", code, *league) == started(environment, "corewar", *league)


# The packages of the extras, hidden.
HIDDEN = """
import sys
sys.modules.update({name: None for name in "click rich prompt_toolkit pygments jinja2 matplotlib distributed".split()})
"""
ENGINE = """
import corewar
imp, dwarf = corewar.assemble("MOV 0, 1"), corewar.assemble("ADD #4, 3\\nMOV 2, @2\\nJMP -2\\nDAT 0")
print(len(corewar.Contest(rounds=5).league([imp, dwarf], jobs=2).records()))
history = corewar.History(corewar.Match((imp, dwarf)))
print(history.why(0).fate, len(corewar.problems("MVO 0")), len(history.player().page) > 100_000)
try:
    history.figure()
except ImportError as missing:
    print(missing)
"""


def test_the_engine_needs_no_extra(environment: Path) -> None:
    """All but commands, pictures and clusters works with NumPy and cffi; what is missing is named in one line."""
    lines = started(environment, "python", "-c", HIDDEN + ENGINE).splitlines()
    assert lines[0] == "2" and lines[1].endswith(" 1 True")
    assert lines[2].startswith(
        "a figure requires matplotlib, Debian's python3-matplotlib, or with pip corewar[pictures]: "
    )
    code = HIDDEN + "from corewar.__main__ import main; main()"
    command = [str(environment / "bin" / "python"), "-c", code, "fight"]
    done = subprocess.run(command, capture_output=True, text=True)
    assert (done.returncode, done.stdout) == (1, "") and done.stderr.endswith(
        "; install Debian's python3-click, or all with dev/setup, or with pip corewar[cli]\n"
    )


def test_files_for_editors(environment: Path) -> None:
    assert "MOV|ADD" in (environment / "share/nvim/site/syntax/redcode.vim").read_text()
    manifest = (environment / "share/corewar/vscode/package.json").read_text()
    assert f'"version": "{corewar.__version__}.0"' in manifest


def test_types_reach_the_user(environment: Path, tmp_path: Path) -> None:
    if not shutil.which("mypy"):
        skip("the types", "there is no mypy", "mypy")
    script = tmp_path / "script.py"
    script.write_text(MISTAKEN)
    words = ["/usr/bin/python3", "-m", "mypy", "--strict", "--cache-dir", str(tmp_path), str(script)]
    words += ["--python-executable", str(environment / "bin" / "python")]
    done = subprocess.run(words, capture_output=True, text=True, cwd=tmp_path)
    wrong = [line.split(":")[1] for line in done.stdout.splitlines() if ": error: " in line]
    assert wrong == ["4", "5"], done.stdout


def test_errors_survive_a_pool_of_processes() -> None:
    """A pool hangs if an exception that a worker raised cannot be read back."""
    with pytest.raises(corewar.MarsError) as raised:
        corewar.assemble("MOV 0, 1\nFOO 1")
    with pytest.raises(corewar.FileError) as missing:
        corewar.read("none.red")
    for one in (raised.value, missing.value):
        again = pickle.loads(pickle.dumps(one))
        assert (type(again), str(again), vars(again).keys()) == (type(one), str(one), vars(one).keys())


def test_older_names_of_errors() -> None:
    for older, name in (("Refused", "CorewarError"), ("Fault", "MarsError"), ("FileFault", "FileError")):
        assert getattr(corewar, older) is getattr(corewar, name) and older not in corewar.__all__
