"""Tests that what `make` installs and packs is complete, runs, and can be removed again, and that man pages and lists
of packages are complete.
"""
from __future__ import annotations

import fcntl
import os
import re
import shutil
import subprocess
import tomllib
from collections.abc import Iterator
from pathlib import Path

import corewar
import pytest
from conftest import TOP, Run
from corewar.cli.main import COMMANDS
from counting import PROGRAM, skip

# Names below a prefix: one of each kind that is installed.
INSTALLED = [
    *("bin/corewar", "bin/mars", "include/mars.h", "lib/libmars.a", "lib/libmars.so", "lib/libmars.so.2"),
    *("lib/pkgconfig/mars.pc", "lib/python3/dist-packages/corewar/pages/site/one.html"),
    *("share/bash-completion/completions/corewar", "share/bash-completion/completions/mars"),
    *("share/doc/mars/README.md", "share/doc/mars/CONTRIBUTING.md", "share/doc/mars/docs/user/TUTORIAL.md"),
    "share/doc/mars/docs/user/API-PYTHON.md",
    "share/doc/mars/examples/rust/src/main.rs",
    *("share/man/man1/corewar-why.1", "share/man/man1/corewar.1", "share/man/man1/mars.1"),
    *("share/corewar/redcode.sublime-syntax", "share/corewar/vscode/package.json"),
    *("share/emacs/site-lisp/redcode-mode.el", "share/org.kde.syntax-highlighting/syntax/redcode.xml"),
    *(f"share/{place}/redcode.vim" for place in ("nvim/site/syntax", "vim/vimfiles/syntax", "vim/vimfiles/ftdetect")),
    "share/nvim/site/lua/corewar.lua",
]
ZSH = ["share/zsh/site-functions/_corewar", "share/zsh/site-functions/_mars"]


def make(*words: object, **how: object) -> subprocess.CompletedProcess[str]:
    """Runs make. Tests that run at the same time wait for each other here: two runs would write the same files."""
    command = ["make", "--no-print-directory", *map(str, words), f"PROGRAM={PROGRAM}"]
    with open(TOP / "build" / "lock", "w") as lock:
        fcntl.flock(lock, fcntl.LOCK_EX)
        # The libraries for other systems take three minutes of CPU time.
        return subprocess.run(command, cwd=TOP, capture_output=True, text=True, timeout=1800, **how)  # type: ignore


def make_well(*words: object) -> None:
    done = make(*words)
    assert done.returncode == 0, done.stderr


def files_below(folder: Path) -> list[str]:
    return sorted(str(path.relative_to(folder)) for path in folder.rglob("*") if not path.is_dir())


def require(packages: dict[str, str]) -> None:
    """Skips the test if a command is missing, and names its package."""
    for command, package in packages.items():
        if not shutil.which(command):
            skip("what it makes", f"there is no {command}", package)


@pytest.fixture(scope="module")
def prefix(tmp_path_factory: pytest.TempPathFactory) -> Iterator[Path]:
    require({"make": "make", "click-man": "click-man"})
    folder = tmp_path_factory.mktemp("prefix")
    make_well("install", f"PREFIX={folder}")
    yield folder


def started(prefix: Path, *words: object, **how: object) -> subprocess.CompletedProcess[str]:
    """Runs a program that is installed below a prefix, without a path to this repository."""
    environment = {"PATH": f"{prefix}/bin:/usr/bin:/bin", "HOME": str(prefix), "NO_COLOR": "1"}
    options = {"cwd": "/", "env": environment, "capture_output": True, "text": True, "timeout": 300, **how}
    return subprocess.run(list(map(str, words)), **options)  # type: ignore[call-overload,no-any-return]


def test_what_is_installed(prefix: Path) -> None:
    names = files_below(prefix)
    assert {*INSTALLED, *ZSH} <= {*names}
    assert [f"share/man/man1/corewar-{name}.1" for name in sorted(COMMANDS)] == [n for n in names if "/corewar-" in n]
    assert not [name for name in names if "__pycache__" in name or "target" in name]
    assert all(os.access(prefix / "bin" / name, os.X_OK) for name in ("mars", "corewar"))
    assert (prefix / "lib/libmars.so").readlink() == Path("libmars.so.2")
    text = (prefix / "lib/pkgconfig/mars.pc").read_text()
    assert text.startswith(f"prefix={prefix}\n") and f"\nVersion: {corewar.__version__}\n" in text


def test_it_runs(prefix: Path, run: Run) -> None:
    files = [prefix / "share/doc/mars/examples" / name for name in ("dwarf.red", "imp.red")]
    words = ["-b", "-r", "10", *map(str, files)]
    expected = subprocess.run([PROGRAM, *words], capture_output=True, text=True).stdout
    assert expected and started(prefix, "mars", *words).stdout == expected
    done = started(prefix, "corewar", "why", *files)
    assert (done.stdout, done.stderr, done.returncode) == (run("why", *files).stdout, "", 0)
    assert started(prefix, "corewar", "--version").stdout == f"corewar, version {corewar.__version__}\n"


def test_it_calls_what_is_installed(prefix: Path) -> None:
    """The library and the examples are those of the prefix."""
    code = "from corewar.cli.web import *; from corewar.engine.binding import *; library(); "
    code += "print(open('/proc/self/maps').read(), next(path for path in EXAMPLES if path.is_dir()))"
    environment = {"PYTHONPATH": str(prefix / "lib/python3/dist-packages")}
    output = started(prefix, "/usr/bin/python3", "-P", "-c", code, env=environment).stdout
    assert f"{prefix}/lib/libmars.so.2\n" in output and output.endswith(f" {prefix}/share/doc/mars/examples\n")


def test_a_missing_library_is_reported(prefix: Path) -> None:
    example = prefix / "share/doc/mars/examples/imp.red"
    done = started(prefix, "sh", "-c", f"MARS_LIBRARY=/none.so corewar why {example}")
    assert (done.stdout, done.returncode) == ("", 1)
    assert done.stderr.startswith("corewar: /none.so: ") and done.stderr.count("\n") == 1


def test_a_module_of_the_current_folder_is_not_imported(prefix: Path, tmp_path: Path) -> None:
    (tmp_path / "click.py").write_text("raise SystemExit('the wrong one')\n")
    assert started(prefix, "corewar", "--version", cwd=tmp_path).returncode == 0


def test_installed_again_and_removed(tmp_path: Path) -> None:
    require({"make": "make", "click-man": "click-man"})
    prefix = tmp_path / "prefix"
    ours = [prefix / name for name in ("share/doc/mars/old.md", "lib/python3/dist-packages/corewar/old.py")]
    for path in (*ours, prefix / "bin" / "mine"):
        path.parent.mkdir(parents=True, exist_ok=True)
        path.write_text("old\n")
    make_well("install", f"PREFIX={prefix}")
    assert not [path for path in ours if path.exists()]
    make_well("uninstall", f"PREFIX={prefix}")
    assert files_below(prefix) == ["bin/mine"]
    make_well("install", f"DESTDIR={tmp_path}/room", "PREFIX=/usr")
    assert {*INSTALLED, *ZSH} <= {*files_below(tmp_path / "room/usr")}
    assert (tmp_path / "room/usr/lib/pkgconfig/mars.pc").read_text().startswith("prefix=/usr\n")
    make_well("uninstall", f"DESTDIR={tmp_path}/room", "PREFIX=/usr")
    assert files_below(tmp_path / "room") == []


def test_a_missing_build_is_reported(tmp_path: Path) -> None:
    require({"make": "make"})
    done = make("install", f"PREFIX={tmp_path}/prefix", "LIBRARY=none.a")
    assert (done.returncode, done.stderr.splitlines()[0]) == (
        2,
        "none.a is not built; prove and build it with make",
    )
    assert not (tmp_path / "prefix").exists()


def test_completion(prefix: Path) -> None:
    """For the first letters of a command of `corewar`, bash offers the commands that begin with them."""
    script = prefix / "share/bash-completion/completions/corewar"
    code = (
        f"source {script}; COMP_WORDS=(corewar ch); COMP_CWORD=1; _corewar_completion corewar; echo ${{COMPREPLY[@]}}"
    )
    assert started(prefix, "bash", "-c", code).stdout.split() == ["changed", "challenge"]


def test_completion_by_zsh(prefix: Path) -> None:
    require({"zsh": "zsh"})
    assert started(prefix, "zsh", "-n", prefix / ZSH[0]).returncode == 0


def test_packages() -> None:
    """Each file is in one of the packages, and packages that are built again have the same bytes."""
    require({"make": "make", "click-man": "click-man", "dh": "debhelper", "dh_python3": "dh-python"})
    version = corewar.__version__
    packed = [TOP / "build" / name for name in (f"mars_{version}_amd64.deb", f"corewar_{version}_all.deb")]
    make_well("packages")
    first = [path.read_bytes() for path in packed]
    make_well("packages")
    assert first == [path.read_bytes() for path in packed]
    listed = [subprocess.run(["dpkg-deb", "-c", path], capture_output=True, text=True).stdout for path in packed]
    names = [
        {name.removesuffix(".gz") for name in re.findall(r" \./usr/(\S*[^/\s])(?= |$)", text, re.M)} for text in listed
    ]
    assert not names[0] & names[1] and {*INSTALLED} <= names[0] | names[1]
    licences = {name.split("-LICENSE")[0].split("/")[-1] for name in names[0] if "-LICENSE" in name}
    assert licences == {"arrayvec", "circular_buffer", "clap", "indexmap", "itoa", "thiserror"}
    for path in packed:
        assert (
            subprocess.run(["dpkg-deb", "-f", path, "Version"], capture_output=True, text=True).stdout == f"{version}\n"
        )


def test_one_version() -> None:
    """The package and the library have the same version."""
    major, minor = map(int, corewar.__version__.split("."))
    assert f"#define MARS_VERSION {major * 1000 + minor}\n" in (TOP / "crates/mars_c/include/mars.h").read_text()


def test_one_list_of_packages(tmp_path: Path) -> None:
    """The dependencies of `corewar` are the same for pip, for the Debian package, and for dev/setup. A wheel needs
    only two, and pictures are an extra of both packages, since matplotlib is larger than all else.
    """
    project = tomllib.loads((TOP / "pyproject.toml").read_text())["project"]
    assert project["dependencies"] == ["numpy", "cffi"]
    extras = project["optional-dependencies"]
    needed = {f"python3-{name}" for name in project["dependencies"] + extras["cli"]}
    pictures = {f"python3-{name}" for name in extras["pictures"]}
    required = needed | pictures
    control = (TOP / "packaging" / "debian" / "control").read_text().partition("Package: corewar")[2]
    assert {*re.findall(r"^ (python3-[\w-]+),$", control, re.M)} == needed
    for relation, extra in (("Recommends", "pictures"), ("Suggests", "cluster")):
        assert {f"{relation}: python3-{name}" for name in extras[extra]} == {
            *re.findall(f"^{relation}: .*", control, re.M)
        }
    # With this stub of dpkg-query, dev/setup finds no package installed.
    (tmp_path / "dpkg-query").write_text("#!/bin/sh\n")
    (tmp_path / "dpkg-query").chmod(0o755)
    (tmp_path / "python3").symlink_to("/usr/bin/python3")
    command = [str(TOP / "dev" / "setup"), "--dry-run"]
    done = subprocess.run(command, env={"PATH": str(tmp_path)}, capture_output=True, text=True)
    assert done.returncode == 1 and "apt-get install" in done.stderr
    assert required == {word for word in done.stderr.split() if word.startswith("python3-")}


def test_man_pages_are_well_formed(prefix: Path) -> None:
    require({"mandoc": "mandoc", "groff": "groff-base"})
    for path in sorted((prefix / "share/man/man1").iterdir()):
        for words in (["mandoc", "-T", "lint", "-W", "error"], ["groff", "-man", "-Tascii", "-z", "-ww"]):
            done = subprocess.run([*words, str(path)], capture_output=True, text=True)
            assert (done.stdout, done.stderr, done.returncode) == ("", "", 0)


def page_text(prefix: Path) -> str:
    """Returns the words of the page of `mars`, as it is shown."""
    require({"mandoc": "mandoc"})
    page = subprocess.run(["mandoc", "-T", "utf8", prefix / "share/man/man1/mars.1"], capture_output=True, text=True)
    return re.sub(r"\s+", " ", re.sub(".\b", "", page.stdout))


def test_page_of_mars_has_the_options(prefix: Path) -> None:
    """Each option of the help is in the page, with its range and default."""
    text = page_text(prefix)
    help_text = subprocess.run([PROGRAM, "--help"], capture_output=True, text=True).stdout
    words = re.findall(r"^ +(--?[\w-]+)(?: <(\w+)>)? +(.*)$", help_text, re.M)
    assert len(words) == 18
    for word, value, meaning in words:
        assert f"{word} {value}".strip() + " " in text
        for part in re.findall(r"\d+ to [^[]*\d|\[default: [^\]]*\]|from the [^[]*", meaning):
            assert part.rstrip("]").strip() in text, word


def test_page_of_mars_has_the_commands_and_errors(prefix: Path) -> None:
    """Each command of the debugger, refusal and error of the documents is in the page."""
    text = page_text(prefix)
    reference, language = ((TOP / "docs" / "user" / name).read_text() for name in ("REFERENCE.md", "LANGUAGE.md"))
    tables = reference[reference.index("## Debugger commands") : reference.index("## What a source can cost")]
    rows = re.findall(r"^\| (`[a-z].*?`) \|", tables[: tables.index("| Refusal |")], re.M)
    names = [name for row in rows for name in re.findall(r"`([^`]+)`", row)]
    refusals = re.findall(r"`(\d+ [A-Z]\w+[ CFL]*)`", tables)
    errors = re.findall(r"`(mars: [^`]*)`", tables)
    assert (len(names), len(errors) > 10, len(refusals) > 10) == (15, True, True)
    of_sources = re.findall(r"^\| `(\d [^`]*?)(?: F)?` \|", language[language.index("## Errors") :], re.M)
    plain = [re.sub(r"^[14] (Text|Expression) (?=\d)", "", error) for error in of_sources]
    assert plain and not [name for name in (*names, *refusals, *errors, *plain) if name not in text]
