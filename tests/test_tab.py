"""Completion by Tab: in the shells for each name of a file, warrior and hill, and in the line of the debugger."""
from __future__ import annotations

import os
import shutil
import subprocess
from collections.abc import Iterator
from pathlib import Path
from typing import Any

import click
import pytest
from conftest import COMMAND, ENVIRONMENT, EXAMPLES, TOP
from counting import skip
from prompt_toolkit.completion import CompleteEvent
from prompt_toolkit.document import Document

from corewar.battle.history import History
from corewar.battle.labels import Sources
from corewar.cli.main import COMMANDS, Commands, commands
from corewar.debugger.completion import CommandCompleter
from corewar.debugger.session import Session
from corewar.engine.calls import Match, assemble

# How each shell starts, and what it reads first.
SHELLS = {
    "bash": (["--noprofile", "--norc", "-i"], "bind 'set enable-bracketed-paste off'"),
    "zsh": (["-f", "-i"], "PS1='$ '; unsetopt zle_bracketed_paste; autoload -U compinit; compinit -u -D"),
}


def file_words() -> Iterator[tuple[str, str]]:
    """Yields the beginning of a line for each argument and option that names a file, and what it is completed to."""
    assert isinstance(commands, Commands)
    for name in COMMANDS:
        command = commands.get_command(click.Context(commands), name)
        assert command
        for param in command.params:
            assert isinstance(param.type, click.Path) or isinstance(param, click.Option), f"{name} {param.name}"
            if isinstance(param.type, click.Path):
                word = f"{param.opts[-1]} " if isinstance(param, click.Option) else ""
                completed = "uniq.red" if param.type.file_okay else "pages/"
                yield f"corewar {name} {word}{completed[:3]}", f"{name} {word}{completed}"


@pytest.fixture(scope="module")
def folder(tmp_path_factory: pytest.TempPathFactory) -> Path:
    folder = tmp_path_factory.mktemp("completion")
    shutil.copy(EXAMPLES / "dwarf.red", folder / "uniq.red")
    (folder / "flash.red").write_text(";name Flash Paper\nDAT 0, 0\n")
    (folder / "pages").mkdir()
    for shell in SHELLS:
        made = subprocess.run(COMMAND, env={**ENVIRONMENT, "_COREWAR_COMPLETE": f"{shell}_source"}, capture_output=True)
        (folder / shell).write_bytes(made.stdout)
    return folder


def started(shell: str, folder: Path) -> Any:
    """Starts a shell that knows the completion."""
    pexpect = pytest.importorskip("pexpect", reason="package python3-pexpect")
    if not shutil.which(shell):
        skip("the completion", f"there is no {shell}", shell)
    words, begin = SHELLS[shell]
    environment = {**os.environ, "PATH": f"{TOP}:{os.environ['PATH']}", "PS1": "$ ", "TERM": "dumb"}
    child = pexpect.spawn(shell, words, cwd=folder, env=environment, timeout=30, encoding="utf-8", dimensions=(24, 200))
    child.sendline(f"{begin}; source ./{shell}; echo rea''dy")
    child.expect("ready\r\n")
    return child


@pytest.mark.parametrize("shell", SHELLS)
def test_each_name_of_a_file(shell: str, folder: Path) -> None:
    with started(shell, folder) as child:
        for begun, completed in file_words():
            child.send(f"{begun}\t")
            child.expect_exact(completed.removeprefix(begun.partition(" ")[2]))
            child.sendcontrol("u")


@pytest.mark.parametrize("shell", SHELLS)
def test_warriors_and_hills(shell: str, folder: Path) -> None:
    """A name with spaces would be several words, so the name of its file stands for it."""
    with started(shell, folder) as child:
        for begun, rest in (
            ("corewar why uniq.red flash.red --of Dw", "Dwarf"),
            ("corewar why uniq.red flash.red --of fl", "flash"),
            ("corewar fight --hill ti", "tiny"),
            ("corewar changed uniq.red --cell bo", "bomb"),
        ):
            child.send(f"{begun}\t")
            child.expect_exact(rest[2:])
            child.sendcontrol("u")


def test_arguments_of_mars() -> None:
    """Arguments of `mars` are not checked while they are typed; its options are offered, not those of `explain`."""
    words = {"COMP_WORDS": "corewar explain mars di", "COMP_CWORD": "3", "_COREWAR_COMPLETE": "bash_complete"}
    done = subprocess.run(COMMAND, env={**ENVIRONMENT, **words}, capture_output=True, text=True)
    assert (done.stdout, done.stderr) == ("file,di\n", "")
    done = subprocess.run(
        COMMAND, env={**ENVIRONMENT, **words, "COMP_WORDS": "corewar explain mars --l"}, capture_output=True, text=True
    )
    assert (done.stdout, done.stderr) == ("plain,--league\nplain,--load\n", "")


def test_the_line_of_the_debugger(folder: Path) -> None:
    sources = ["bomb MOV bomb, @1\nloop JMP bomb\n", ";name Flash Paper\nbomb DAT 0, 0\n"]
    history = History(Match([assemble(source) for source in sources]))
    session = Session(history, Sources(history))

    def offered(line: str) -> list[str]:
        found = CommandCompleter(session).get_completions(Document(line), CompleteEvent())
        return [line[: len(line) + one.start_position] + one.text for one in found]

    assert offered("und") == ["undo"] and offered("goto ") == ["goto start", "goto end"] and offered("quit ") == []
    assert offered("c d") == ["c dies"] and offered("c dies fl") == ["c dies Flash Paper"]
    assert offered("bor") == ["born"] and offered("born fl") == ["born Flash Paper"]
    assert offered("c changes l") == ["c changes loop"] and offered("c changes 1..lo") == ["c changes 1..loop"]
    words = "of from was becomes by and".split()
    assert offered("c changes loop ") == [f"c changes loop {word}" for word in words]
    assert offered("c dies Flash Paper a") == ["c dies Flash Paper and"]
    assert offered("c changes becomes sp") == ["c changes becomes spl"]
    assert offered("c changes loop and dies f") == ["c changes loop and dies Flash Paper"]
    assert offered("break at loop by ") == ["break at loop by Unknown", "break at loop by Flash Paper"]
    assert offered("break at loop by Flash P") == ["break at loop by Flash Paper"]
    assert offered("edit loop jm") == ["edit loop jmp", "edit loop jmz", "edit loop jmn"]
    assert offered("edit 1 mov 3, @0.b") == ["edit 1 mov 3, @0.bomb"]
    assert offered("move Flash Paper 0 l") == ["move Flash Paper 0 loop"] and offered("move Flash Paper ") == []
    assert offered("c changes bo") == ["c changes 0.bomb", "c changes 1.bomb"]
    assert offered("help und") == ["help undo"] and offered("nothing ") == []
    assert offered("delete ") == ["delete all"] and offered("futures ") == ["futures 0"]
    assert offered(f"source {folder}/uniq.") == [f"source {folder}/uniq.red"]
