"""Writes the man pages of `corewar` and of its commands into the folder given as the argument, with Debian's click-man.
"""
from __future__ import annotations

import os
import re
import sys
from inspect import cleandoc

try:
    import click
    from click_man.core import write_man_pages

    from corewar import __version__
    from corewar.cli.layout import Command
    from corewar.cli.main import COMMANDS, Commands, commands
    from corewar.debugger.commands import COMMANDS as debugger_commands
    from corewar.debugger.table import TABLE
except ImportError as error:
    sys.exit(f"cannot make the man pages: {error}; run dev/setup")


def escaped(text: str) -> str:
    """Returns a text so that roff prints it unchanged."""
    return re.sub(r"^([.'])", r"\\&\1", text.replace("\\", "\\e").replace("-", "\\-"), flags=re.M)


def debugger() -> str:
    """Returns the sections of the debugger's commands and of its file."""
    entries = ""
    for one in debugger_commands.values():
        short = f" ({', '.join(one.short)})" if one.short else ""
        entries += f".TP\n.B {escaped(one.usage)}\n{escaped(one.summary + short)}\n"
    arguments = "\n".join(TABLE["arguments"])
    file = ".TP\n.I $XDG_STATE_HOME/corewar/debug\nThe lines that were typed, by default below\n.IR ~/.local/state .\n"
    return f".SH COMMANDS\n{entries}.PP\n.EX\n{escaped(arguments)}\n.EE\n.SH FILES\n{file}"


def sections(command: Command) -> str:
    """Returns the sections of examples and exit statuses, which click-man leaves out."""
    examples = "\n".join(command.examples).replace("\\", "\\e").replace("-", "\\-")
    return f".SH EXAMPLES\n.EX\n{examples}\n.EE\n.SH EXIT STATUS\n{command.statuses}.\n"


def main(folder: str) -> None:
    # click-man expects the commands as an attribute of the group and texts without indentation, and it would cut the
    # first sentence at 45 letters.
    assert isinstance(commands, Commands)
    context = click.Context(commands)
    commands.commands = {name: one for name in COMMANDS if (one := commands.get_command(context, name))}
    pages: dict[str, click.Command] = {"corewar": commands}
    pages |= {f"corewar-{name}": command for name, command in commands.commands.items()}
    for command in pages.values():
        command.help = cleandoc(command.help or "")
        command.short_help = " ".join(re.split(r"\.(?:\s|$)", command.help)[0].split())
    write_man_pages("corewar", commands, version=__version__, target_dir=folder)
    for name, command in pages.items():
        assert isinstance(command, Command)
        with open(os.path.join(folder, f"{name}.1"), "a") as page:
            page.write((debugger() if name == "corewar-debug" else "") + sections(command))


main(sys.argv[1])
