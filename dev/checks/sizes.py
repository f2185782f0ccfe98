"""Checks the sizes of functions, files and lines: generators for `dev/checks/rules`, which prints their docstrings as
the rules.
"""
from __future__ import annotations

import ast
import re
from collections.abc import Iterator

from english import PYTHON
from tracked import files

# The maximum numbers of lines of the body of a function, of a function of Rattle with its contract, and of a file, and
# the width of a line of the site.
MAX_BODY, MAX_FUNCTION, MAX_FILE, MAX_WIDTH = 40, 60, 350, 120
# The first line of a function of Rattle, and the line at whose end the body of a function of JavaScript begins.
RATTLE = r'(pub(\(crate\))? )?(const )?(extern "C" )?fn '
SCRIPT = r"(?!(\} )?(if|for|while|switch|else|catch|with)\b).*(\)|=>) \{$"
# The files that a script writes, and those that are still too long.
GENERATED = ("site/src/model/layout.js",)
TOO_LONG = {
    "tests/library/test_library.py",
    "tests/pages.py",
    "tests/program/test_first_start.py",
    *(f"tests/test_{name}.py" for name in "debugger editors explain history league lsp web".split()),
}


def sources() -> Iterator[tuple[str, str]]:
    """Yields the sources of programs, each with its text."""
    for name, text in files():
        if name not in GENERATED and (name.endswith((".rt", ".py", ".js", ".mjs")) or PYTHON.match(text)):
            yield name, text


def braced_bodies(text: str, head: str) -> Iterator[tuple[int, int, int]]:
    """Yields for each function the line in which it begins, the number of its lines after that line, and the number of
    lines between its braces. The lines that open and close the body have the indentation of the first line.
    """
    begun: dict[str, tuple[int, int]] = {}
    for number, line in enumerate(text.split("\n"), 1):
        indent, code = re.findall(r"^( *)(.*)$", line)[0]
        if code.startswith("}") and begun.get(indent, (0, 0))[1]:
            first, opened = begun.pop(indent)
            yield first, number - first, number - opened - 1
        if re.match(head, code):
            begun[indent] = number, 0
        if code.endswith("{") and indent in begun and not begun[indent][1]:
            begun[indent] = begun[indent][0], number


def python_bodies(text: str) -> Iterator[tuple[int, int, int]]:
    """Yields for each function the line in which it begins, the number of its lines after that line, and the number of
    lines after its head and its docstring.
    """
    for node in ast.walk(ast.parse(text)):
        if isinstance(node, (ast.FunctionDef, ast.AsyncFunctionDef)):
            first, end = node.lineno, node.end_lineno or 0
            body = node.body if ast.get_docstring(node) is None else node.body[1:]
            yield first, end - first, end - body[0].lineno + 1 if body else 0


def short_functions() -> Iterator[str]:
    """No function has more than 40 lines in its body, nor one of Rattle more than 60 with its contract. Tests may."""
    for name, text in sources():
        if "tests" in name:
            continue
        kind = name[name.rfind(".") :]
        head = RATTLE if kind == ".rt" else SCRIPT
        for first, lines, body in braced_bodies(text, head) if kind in (".rt", ".js", ".mjs") else python_bodies(text):
            if body > MAX_BODY or kind == ".rt" and lines > MAX_FUNCTION:
                yield f"{name}:{first}: {lines} lines, {body} in its body"


def short_files() -> Iterator[str]:
    """No source file has more than 350 lines, including those of tests, except for a list of files to divide."""
    for name, text in sources():
        count = text.count("\n")
        if (count > MAX_FILE) != (name in TOO_LONG):
            yield f"{name}: {count} lines"


def narrow_lines() -> Iterator[str]:
    """The lines of the site are short, except for what is generated."""
    for name, text in files(".js", ".mjs", ".css", ".html"):
        if name.startswith("site/") and name not in GENERATED:
            lines = enumerate(text.split("\n"), 1)
            yield from (f"{name}:{number}: {len(line)} columns" for number, line in lines if len(line) > MAX_WIDTH)
