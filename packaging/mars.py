"""Writes the man page of `mars` and its completion for bash and zsh, from its help and the reference.

usage: packaging/mars.py PROGRAM MAN COMPLETION      writes MAN/mars.1, COMPLETION/mars.bash and COMPLETION/_mars
"""
from __future__ import annotations

import re
import subprocess
import sys
from pathlib import Path
from typing import NamedTuple

DOCUMENTS = Path(__file__).resolve().parents[1] / "docs" / "user"
# An option in the help: its words, its value and its meaning, which may go on in lines further to the right.
OPTION = re.compile(r"^ +(-\S+(?:, --\S+)?)(?: <(\S+)>)?  +(\S.*(?:\n {9,}[^-\s].*)*)", re.M)
GROUP = re.compile(r"^(\w+):\n((?: .*\n)+)", re.M)
# The sections of the documents that the page has, each up to the next heading.
SECTIONS = [
    ("LOAD FILES", "REFERENCE.md", "## Load files"),
    ("DEBUGGER COMMANDS", "REFERENCE.md", "## Debugger commands"),
    ("EXIT STATUS", "REFERENCE.md", "## Errors and exit statuses"),
    ("ERRORS OF SOURCES", "LANGUAGE.md", "## Errors"),
]
SEE = (
    ".SH SEE ALSO\n.BR corewar (1)\nhas a site for the browser, a debugger for the terminal, leagues of any size, and "
    "pages and pictures of battles.\nThe documents are in\n.I share/doc/mars\nbelow the installation prefix.\n"
)
BASH = """# Completion of the options of mars for bash.
_mars() {{
    local word=${{COMP_WORDS[COMP_CWORD]}} before=${{COMP_WORDS[COMP_CWORD - 1]}}
    COMPREPLY=()
    case $before in
    {valued}) return ;;
    esac
    case $word in
    -*) mapfile -t COMPREPLY < <(compgen -W "{words}" -- "$word") ;;
    *) mapfile -t COMPREPLY < <(compgen -d -- "$word"; compgen -f -- "$word" | grep -E '\\.(red|load)$') ;;
    esac
}}
complete -o filenames -F _mars mars ./mars
"""


class Option(NamedTuple):
    """An option: its word, the name of its value or "", and its meaning."""

    word: str
    value: str
    meaning: str


def options_in(text: str) -> list[Option]:
    return [Option(word, value, re.sub(r"\s+", " ", meaning)) for word, value, meaning in OPTION.findall(text)]


def bash(options: list[Option]) -> str:
    valued = " | ".join(one.word for one in options if one.value)
    return BASH.format(valued=valued, words=" ".join(one.word for one in options))


def zsh(options: list[Option]) -> str:
    lines = ["#compdef mars", "# Completion of the options of mars for zsh.", "_arguments \\"]
    for one in options:
        meaning = re.sub(r"([\[\]:\\])", r"\\\1", one.meaning.partition(" [default")[0]).replace("'", "'\\''")
        lines.append(f"    '{one.word}[{meaning}]{f':{one.value}:' if one.value else ''}' \\")
    return "\n".join([*lines, "    '*:warrior:_files -g \"*.(red|load)\"'", ""])


def escaped(text: str) -> str:
    return re.sub(r"^([.'])", r"\\&\1", text.replace("\\", "\\e").replace("-", "\\-"), flags=re.M)


def words(text: str) -> str:
    """Returns a text of Markdown as roff: links as their texts, code bold, and emphasis in italics."""
    text = re.sub(r"\[([^\]]*)\]\([^)]*\)", r"\1", text).replace("\\|", "|")
    parts = [f"\\fB{escaped(part)}\\fR" if number % 2 else escaped(part) for number, part in enumerate(text.split("`"))]
    return re.sub(r"(?<!\*)\*(\w[^*]*)\*(?!\*)", r"\\fI\1\\fR", "".join(parts))


def roff(markdown: str) -> str:
    """Returns Markdown as roff: paragraphs, lists, tables and code blocks. Headings are left out."""
    found = ""
    for number, part in enumerate(re.split(r"^```\w*\n", markdown, flags=re.M)):
        if number % 2:
            found += f".PP\n.EX\n{escaped(part)}.EE\n"
            continue
        for block in filter(None, map(str.strip, part.split("\n\n"))):
            if block.startswith("| "):
                rows = [re.split(r"(?<!\\) \| ", line.strip("| ")) for line in block.split("\n")[2:]]
                found += "".join(f".TP\n{words(name)}\n{words(' '.join(rest))}\n" for name, *rest in rows)
            elif block.startswith("- "):
                found += "".join(f".IP \\(bu 2\n{words(line[2:])}\n" for line in block.split("\n"))
            elif not block.startswith("#"):
                found += f".PP\n{words(block)}\n"
    return found


def section(document: str, heading: str) -> str:
    text = (DOCUMENTS / document).read_text().partition(f"\n{heading}\n")[2]
    return re.split(r"\n##+ ", text)[0]


def man(text: str) -> str:
    """Returns the page: the help with its groups of options, and sections of the documents."""
    about, _, rest = text.partition("\n\n")
    page = '.TH MARS 1 "" "The Core War kit" "User commands"\n'
    page += f".SH NAME\nmars \\- {escaped(about.partition(': ')[2])}\n"
    page += f".SH SYNOPSIS\n{escaped(re.findall('^Usage: (.*)', rest, re.M)[0])}\n.SH OPTIONS\n"
    for group, lines in GROUP.findall(rest):
        listed = options_in(lines)
        page += f".SS {group}\n" if listed else ""
        for one in listed:
            page += f".TP\n\\fB{escaped(one.word)}\\fR \\fI{one.value}\\fR\n{escaped(one.meaning)}\n"
    page += roff(section("REFERENCE.md", "## Options of mars"))
    example = re.findall("^Example: (.*)", rest, re.M)[0]
    page += f".SH EXAMPLES\n.EX\n{escaped(example)}\n.EE\n"
    return page + "".join(f".SH {name}\n{roff(section(*where))}" for name, *where in SECTIONS) + SEE


def main(program: str, pages: str, completion: str) -> None:
    text = subprocess.run([program, "--help"], capture_output=True, text=True, check=True).stdout
    options = options_in(text)
    for name, made in (
        (f"{pages}/mars.1", man(text)),
        (f"{completion}/mars.bash", bash(options)),
        (f"{completion}/_mars", zsh(options)),
    ):
        Path(name).parent.mkdir(parents=True, exist_ok=True)
        Path(name).write_text(made)


main(*sys.argv[1:])
