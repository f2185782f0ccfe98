"""`explain`: what an error means and what to do, what an instruction does, and what pMARS reads differently."""
from __future__ import annotations

import json
import os
import re
import sys
from collections.abc import Callable, Iterator, Sequence
from contextlib import contextmanager
from dataclasses import asdict, dataclass, field
from typing import Any

import click
from click.shell_completion import CompletionItem

from ..engine.calls import encode_source
from ..engine.deadline import deadline
from ..engine.sources import Assembler, Overrun, read_file, read_warrior, read_warriors
from ..engine.warriors import Warrior
from ..explain.errors import Problem, errors_of, kind_of, problem_of
from ..explain.fixes import fix
from ..explain.hints import hints_of
from ..explain.instructions import describe_line, find_instruction
from ..explain.meanings import explain_error, explain_kind, read_faults
from ..explain.pmars import CHECKED_ROWS, pmars_differences
from ..explain.source import Line, Place, excerpt, parse_line, place_of
from ..explain.words import DIRECTIVES, OPCODES
from ..model.errors import ASSEMBLY, CorewarError, FileError, MarsError
from ..model.printing import printable
from .layout import STATUSES, Command, command
from .options import BattleOptions, battle_options, format_option
from .reporting import report, report_error, report_sentences, show

EXAMPLES = [
    "corewar explain dwarf.red",
    "corewar explain 'MOV }bomb, >ptr'",
    "mars -b dwarf.red 2>&1 | corewar explain",
    "corewar explain mars -r 0 dwarf.red",
    "corewar explain --pmars dwarf.red",
]
# The exit status if `--fix` leaves lines that both programs accept, and that pMARS reads in another way.
LEFT = 3
# What operations mean, for an argument that is a single operation.
MEANINGS = {**OPCODES, **DIRECTIVES}


class Explain(Command):
    """A command whose first argument may be `mars`, followed by the arguments of that program."""

    def parse_args(self, context: click.Context, words: list[str]) -> list[str]:
        if words[:1] == ["mars"] and not context.resilient_parsing:
            from .mars_args import check_mars_args

            click.echo(check_mars_args(words[1:]))
            context.exit()
        return super().parse_args(context, words)

    def shell_complete(self, context: click.Context, incomplete: str) -> list[CompletionItem]:
        if context.params.get("files", ())[:1] != ("mars",):
            return super().shell_complete(context, incomplete)
        from .mars_args import MARS

        return MARS.shell_complete(click.Context(MARS), incomplete)


@command(*EXAMPLES, statuses=f"{STATUSES}, {LEFT} `--fix` left what pMARS reads differently", kind=Explain)
@battle_options(needs_files=False)
@click.option("--pmars", is_flag=True, help="Report what pMARS reads differently")
@click.option("--fix", "is_fixed", is_flag=True, help="Print the source as pMARS reads it, and report what is left")
@format_option(("text", "json"), "explanations")
def explain(options: BattleOptions, pmars: bool, is_fixed: bool, form: str) -> int:
    """Explain the errors of files, or what an instruction does.

    An argument that is not a file but an instruction, such as 'MOV }bomb, >ptr', an opcode or a directive is described
    in plain words, or its error is explained.

    Without files, error messages of any program of this kit are read from standard input, such as `mars: first.red:
    line 7: 2 Operation`. If the first argument is `mars`, the others are checked as the arguments of that program, and
    the wrong one is reported.
    """
    if (pmars or is_fixed) and not options.files:
        raise click.UsageError("expected at least one file")
    if pmars + is_fixed + (form == "json") > 1:
        raise click.UsageError("--fix, --pmars and --format json exclude each other")
    if is_fixed:
        statuses = {fix_file(options, path) for path in options.files}
        return 1 if 1 in statuses else max(statuses)
    if pmars:
        for path in options.files:
            compare_file(options, path)
    else:
        shown = Explanations(form == "json")
        if line := instruction_of(options.files):
            status = explain_instruction(options, line, shown)
        elif options.files:
            # Each file is looked at, also after one with an error.
            status = max([explain_file(options, path, shown) for path in options.files])
        else:
            status = explain_input(options, shown)
        shown.end()
        return status
    return 0


@dataclass
class Explanations:
    """What is printed: lines at once, or with `is_json` the values of all explanations at the end."""

    is_json: bool
    found: list[dict[str, Any]] = field(default_factory=list)

    def add(self, lines: Sequence[str], **value: Any) -> None:
        if self.is_json:
            self.found.append(value)
        else:
            write([*lines])

    def add_problem(self, head: str, file: str, problem: Problem, source: bytes) -> None:
        lines = [head, *excerpt(source, problem.line, problem.column, problem.word), *problem.advice]
        self.add(lines, **{"file": file, **asdict(problem)})

    def end(self) -> None:
        if self.is_json:
            click.echo(json.dumps(self.found))


def instruction_of(words: Sequence[str]) -> Line | None:
    """Returns the line that arguments make up, or None if one of them is a file or the line does not look like an
    instruction. It does if it has an opcode, is a directive or, since an opcode may be misspelt, has a space or a
    comma.
    """
    text, are_sources = " ".join(words), any(word.endswith((".red", ".load")) for word in words)
    if any(map(os.path.exists, words)):
        return None
    is_line = re.search("[ ,]", "".join(words)) and "\n" not in text and not are_sources
    return find_instruction(text) or (parse_line(1, text, {}) if is_line or text.upper() in DIRECTIVES else None)


def explain_instruction(options: BattleOptions, line: Line, shown: Explanations) -> int:
    """Prints what an instruction does, or its error. Returns the exit status."""
    with Assembler(options.limit) as assembler:
        try:
            lines = [*describe_line(line, loader(options, line.text, assembler), options.settings.core)]
            shown.add(lines, instruction=line.text, meaning=lines)
        except MarsError as fault:
            if fault.code != ASSEMBLY:
                raise
            if line.word in MEANINGS and not line.labels + line.operands:
                shown.add([f"{line.text}: {MEANINGS[line.word]}"], instruction=line.text, meaning=[MEANINGS[line.word]])
                return 0
            kind, source = kind_of(fault), encode_source(line.text)
            place = place_of(source, fault.begin, fault.end)
            problem = problem_of(kind, 1, source, explain_kind(kind, 1, source, place), place)
            shown.add([f"{line.text}: {kind}", *problem.advice], **{"file": "", **asdict(problem)})
            return 1
    return 0


def explain_file(options: BattleOptions, path: str, shown: Explanations) -> int:
    """Assembles a file, and explains its errors. Returns the exit status."""
    found = False
    try:
        with limited(options, path) as assembler:
            for fault, text, sentences in errors_in(options, path, assembler):
                place = place_of(text, fault.begin, fault.end)
                problem = problem_of(kind_of(fault), fault.line, text, sentences, place)
                shown.add_problem(f"{path}: {fault}", path, problem, text)
                found = True
    except FileError as unread:
        report_error(unread)
        return 1
    if not found and not shown.is_json:
        write([f"{path}: no error", *hints_in(options, path)])
    return int(found)


def hints_in(options: BattleOptions, path: str) -> list[str]:
    """Returns what is probably meant otherwise in a file without errors. A pipe is not read a second time."""
    if path.endswith(".load") or not os.path.isfile(path):
        return []
    warrior = read_warriors([path], options.settings, options.rounds, options.limit, warriors=2)[0]
    return hints_of(warrior, warrior.lines)


def compare_file(options: BattleOptions, path: str) -> None:
    """Prints what pMARS reads differently in a file."""
    data = read_file(path)
    with limited(options, path) as assembler:
        notes = pmars_differences(data, loader(options, path, assembler))
    notes = notes or [f"none of the {CHECKED_ROWS} known differences from pMARS was found"]
    write([f"{path}: {note}" for note in notes])


def fix_file(options: BattleOptions, path: str) -> int:
    """Prints a fixed source, and reports the errors, or else the differences from pMARS, that are left. Returns the
    exit status: 1 for errors, `LEFT` for differences.
    """
    data = read_file(path)
    with limited(options, path) as assembler:
        load = loader(options, path, assembler)
        fixed = fix(data, load)
        errors = [*errors_of(fixed, load)]
        left = [] if errors else pmars_differences(fixed, load)
    click.echo(fixed, nl=False)
    for note in left:
        report(f"{path}: left as it is: {note}")
    for fault, sentences in errors:
        report(f"{path}: not fixed: {fault}")
        report_sentences(sentences)
    return 1 if errors else LEFT if left else 0


def loader(options: BattleOptions, path: str, assembler: Assembler) -> Callable[[bytes], Warrior]:
    """Returns a function that assembles a source within the limits; an overrun of a limit is an error of the file."""

    def load(text: bytes) -> Warrior:
        try:
            return assembler.assemble(text, settings=options.settings, rounds=options.rounds)
        except Overrun as overrun:
            raise FileError(path, str(overrun), text) from None

    return load


@contextmanager
def limited(options: BattleOptions, path: str) -> Iterator[Assembler]:
    """Yields an assembler for a file. Limits the time of all that it assembles, and the time of the other work in the
    `with` block. Raises FileError.
    """
    try:
        with Assembler(options.limit, is_total=True) as assembler, deadline(options.limit):
            yield assembler
    except Overrun as overrun:
        raise FileError(path, str(overrun)) from None


def errors_in(options: BattleOptions, path: str, assembler: Assembler) -> Iterator[tuple[MarsError, bytes, list[str]]]:
    """Yields the errors of a file, each with the text of the file and its explanation. Raises FileError."""
    try:
        read_warrior(assembler.assemble, path, options.settings, options.rounds)
        return
    except FileError as left:
        if not isinstance(left.fault, MarsError):
            raise
        fault, text = left.fault, left.text
    if fault.code != ASSEMBLY:
        yield fault, text, explain_error(fault, text)
        return
    for error, sentences in errors_of(text, loader(options, path, assembler)):
        yield error, text, sentences


def explain_input(options: BattleOptions, shown: Explanations) -> int:
    """Explains the error messages of standard input, or an instruction. Returns the exit status. Raises CorewarError if
    there is neither.
    """
    if sys.stdin.isatty():
        raise click.UsageError("expected at least one file, or error messages on standard input")
    text = read_file("-").decode("utf-8", "replace")
    found = [*read_faults(text.splitlines())]
    line = None if found else find_instruction(text.strip())
    if line:
        return explain_instruction(options, line, shown)
    if not found:
        raise CorewarError("no error message found in the input")
    for message, path, number, kind in found:
        source = read_file(path) if os.path.isfile(path) else b""
        with limited(options, path) as assembler:
            place = place_in(source, kind, number, loader(options, path, assembler))
            problem = problem_of(kind, number, source, explain_kind(kind, number, source, place), place)
            shown.add_problem(message, path, problem, source)
    return 0


def place_in(source: bytes, kind: str, number: int, load: Callable[[bytes], Warrior]) -> Place | None:
    """Returns where a source has the error that a message names, or None if it does not have this error."""
    try:
        load(source)
    except MarsError as fault:
        if (kind_of(fault), fault.line) == (kind, number):
            return place_of(source, fault.begin, fault.end)
    return None


def write(lines: list[str]) -> None:
    show(map(printable, lines))
