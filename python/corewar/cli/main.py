"""The command `corewar`: its subcommands by groups, and how errors become messages and exit statuses."""
from __future__ import annotations

import os
import signal
import sys
from difflib import get_close_matches
from importlib import import_module

import click

from .. import __version__
from ..__main__ import missing_module
from ..model.errors import FORMULA, PARAMETERS, SETTINGS, CorewarError, MarsError
from ..model.printing import printable
from .layout import Command, command
from .options import HELP
from .reporting import report, report_error

# The maximum length of the sentence on a command.
MAX_SENTENCE = 100
# The commands by groups, each with its module in this folder, which is imported only when the command is used.
GROUPS = {
    "Play": {"new": "starting", "fight": "rounds", "watch": "watching", "debug": "debugging", "web": "web"},
    "Look": {
        "why": "looking",
        "trace": "looking",
        "changed": "looking",
        "study": "looking",
        "rounds": "rounds",
        "picture": "pictures",
        "page": "pictures",
        "explain": "explaining",
    },
    "Contests": {"league": "league", "challenge": "league", "melee": "melee"},
    "Editors": {"lsp": "editing"},
}
COMMANDS = {name: module for group in GROUPS.values() for name, module in group.items()}
# Errors of the library that are usage errors, as in `mars`.
USAGE = (SETTINGS, PARAMETERS, FORMULA)


class Commands(Command, click.Group):
    """A group whose commands are imported when they are used, and listed by groups."""

    def list_commands(self, context: click.Context) -> list[str]:
        return list(COMMANDS)

    def get_command(self, context: click.Context, name: str) -> click.Command | None:
        if name not in COMMANDS:
            return None
        found: click.Command = getattr(import_module(f".{COMMANDS[name]}", __package__), name)
        return found

    def parse_args(self, context: click.Context, words: list[str]) -> list[str]:
        if words[:1] == ["help"]:
            words = [*words[1:2], "--help"]
        if not words and not context.resilient_parsing:
            # This short help fits into the 24 lines of a small terminal.
            formatter = context.make_formatter()
            self.format_usage(context, formatter)
            self.format_commands(context, formatter)
            formatter.write_text("`corewar help COMMAND` explains a command; `corewar --help` has all options.")
            click.echo(formatter.getvalue(), nl=False)
            context.exit()
        return super().parse_args(context, words)

    def resolve_command(
        self, context: click.Context, words: list[str]
    ) -> tuple[str | None, click.Command | None, list[str]]:
        if not words[0].startswith("-") and words[0] not in COMMANDS:
            near = get_close_matches(words[0], COMMANDS, 1)
            advice = f"did you mean `{near[0]}`?" if near else "`corewar --help` lists all commands"
            context.fail(f"unknown command `{words[0]}`; {advice}")
        return super().resolve_command(context, words)

    def format_options(self, context: click.Context, formatter: click.HelpFormatter) -> None:
        super().format_options(context, formatter)
        formatter.write_paragraph()
        self.format_commands(context, formatter)

    def format_commands(self, context: click.Context, formatter: click.HelpFormatter) -> None:
        for group, names in GROUPS.items():
            found = [(name, self.get_command(context, name)) for name in names]
            formatter.write(f"{group}:\n")
            formatter.indent()
            formatter.write_dl([(name, one.get_short_help_str(MAX_SENTENCE).rstrip(".")) for name, one in found if one])
            formatter.dedent()


EXAMPLES = ["corewar fight -r 100 dwarf.red imp.red", "corewar why dwarf.red imp.red", "corewar help why"]


@command(*EXAMPLES, kind=Commands, context_settings=HELP)
@click.option(
    "--color",
    type=click.Choice(["auto", "always", "never"]),
    default="auto",
    help="Colour the names of warriors: on a terminal unless NO_COLOR is set, always or never",
)
@click.version_option(__version__, prog_name="corewar", help="Print the version")
def commands(color: str) -> None:
    """Run, debug and visualise Core War battles on a verified simulator."""


def open_streams() -> None:
    """Opens the null device for each closed stream; the others replace what they cannot encode or decode."""
    for name, mode in (("stdin", "r"), ("stdout", "w"), ("stderr", "w")):
        stream = getattr(sys, name)
        if stream is None:
            setattr(sys, name, open(os.devnull, mode))
        else:
            stream.reconfigure(errors="replace")


def run() -> int | None:
    """Runs the command, and returns its exit status: 0 also if click exits because the reader of standard output, such
    as `head`, has ended.
    """
    try:
        status: int | None = commands.main(prog_name="corewar", standalone_mode=False)
        return status
    except SystemExit:
        return 0


def main() -> None:
    """Runs the command. Errors are reported in one line, and no traceback reaches a user."""
    open_streams()
    # Until everything was loaded Ctrl-C ended the process; from here on it is reported.
    if signal.getsignal(signal.SIGINT) == signal.SIG_DFL:
        signal.signal(signal.SIGINT, signal.default_int_handler)
    try:
        status = run()
        sys.stdout.flush()
        sys.exit(status or 0)
    except click.ClickException as fault:
        fault.message = "\n".join(map(printable, fault.message.split("\n")))
        fault.show()
        status = fault.exit_code
    except (click.Abort, KeyboardInterrupt):
        report("stopped")
        status = 130
    except CorewarError as fault:
        report_error(fault)
        status = 2 if isinstance(fault, MarsError) and fault.code in USAGE else 1
    except MemoryError:
        report("out of memory")
        status = 1
    except ImportError as fault:
        report(missing_module(fault) if isinstance(fault, ModuleNotFoundError) else str(fault))
        status = 1
    except OSError as fault:
        status = int(not isinstance(fault, BrokenPipeError))
        if status:
            report(": ".join(str(part) for part in (fault.filename, fault.strerror) if part is not None))
    # Matches that are under way aren't waited for. All output was flushed when it was written; what standard output did
    # not accept is not written again.
    os._exit(status)
