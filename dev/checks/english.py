"""Counts the forms of the project's old idiom, which docs/dev/STYLE.md replaces by the field's terms.

The text that is read is prose: documents without their code, comments, docstrings, the messages of assertions in tests,
and the texts that a command prints. It has three parts: "documents", "messages" and "comments". `dev/checks/rules`
reports each form; as a script, this file prints their number in each part, and the forms in the given parts.
"""
from __future__ import annotations

import ast
import io
import re
import tokenize
from collections.abc import Iterable, Iterator

# Each form, with what to write for it.
FORMS = {
    r"want of memory|memory is wanting": "out of memory",
    r"takes? (?:no )?memory|memory is (?:taken|refused)": "allocates, an allocation fails",
    r"faults?": "error",
    r"behind": "after",
    r"dear": "expensive",
    r"so many": "n, that many",
    r"but for": "except for",
    r"(?:a|each|every|any|no) further": "another",
    r"nobody|somebody|whoever": "no warrior, a warrior, anyone who",
    r"anew|once more": "again",
    r"tells?|told": "prints, reports, shows",
    r"(?:stands?|stood)(?! for)": "is, appears, depends on",
    r"(?<!as if )alone": "only",
    r"ask(?:s|ed)? for": "requires, requests",
    r"hand(?:s|ed)? (?:on|out|in|back)": "passes, returns",
    r"goes (?:on|over)": "continues, switches to",
    r"by hand": "manually",
    r"spelt": "written",
    r"mend(?:s|ed|ing)?": "fix",
    r"judge[ds]?": "checked",
    r"laid|lays": "loaded, placed",
    r"of the processors|processor (?:seconds?|minutes?)": "CPU time",
    r"the gate": "CI",
    r"blanks?": "space, whitespace",
    # Only the forms that can't mean a place.
    r"where (?:nothing|none|no|nobody|there (?:is|are|was|were)|(?:it|that|this) isn't|the answer)": "if, when",
}
FORM = re.compile("|".join(rf"(?P<f{number}>\b(?:{form})\b)" for number, form in enumerate(FORMS)), re.I)
WANTED = list(FORMS.values())

# A piece of prose: the name of its part, as above, its first line in the file, and the text.
Piece = tuple[str, int, str]
PYTHON = re.compile(r"#!.*python")
JAVASCRIPT_TEXT = re.compile(r"([\"'`])((?:\\.|(?!\1)[^\\\n])*)\1")


def without_code(text: str) -> str:
    """Returns a document without its code blocks, code spans and targets of links. Lines keep their numbers."""
    text = re.sub(r"^```.*?^```", lambda found: "\n" * found[0].count("\n"), text, flags=re.M | re.S)
    return re.sub(r"`[^`\n]*`|\]\([^)\s]*\)", " ", text)


def docstrings(text: str) -> Iterator[tuple[int, bool]]:
    """Yields the line of each docstring, and whether it is the help of a command."""
    for node in ast.walk(ast.parse(text)):
        if (
            isinstance(node, (ast.Module, ast.ClassDef, ast.FunctionDef, ast.AsyncFunctionDef))
            and ast.get_docstring(node) is not None
        ):
            decorators = getattr(node, "decorator_list", [])
            yield node.body[0].lineno, any("command" in ast.unparse(decorator) for decorator in decorators)


def assertion_messages(text: str) -> Iterator[tuple[int, str]]:
    """Yields the texts in the messages of assertions, each with its line."""
    for node in ast.walk(ast.parse(text)):
        for part in ast.walk(node.msg) if isinstance(node, ast.Assert) and node.msg else ():
            if isinstance(part, ast.Constant) and isinstance(part.value, str):
                yield part.lineno, part.value


def without_expressions(text: str) -> str:
    """Returns a text without the code in braces, which may be nested."""
    while text != (text := re.sub(r"\$?\{[^{}]*\}", " ", text)):
        pass
    return text


def python_pieces(name: str, text: str) -> Iterator[Piece]:
    """Yields the comments and docstrings of a Python source, and the texts of the package. Texts of scripts and tests
    are not messages of the product, but the messages of assertions in tests are read as comments.
    """
    if name.startswith("tests/"):
        yield from (("comments", line, message) for line, message in assertion_messages(text))
    is_help = dict(docstrings(text))
    for token in tokenize.generate_tokens(io.StringIO(text).readline):
        line = token.start[0]
        if token.type == tokenize.COMMENT or token.type == tokenize.STRING and is_help.get(line) is False:
            yield "comments", line, token.string
        elif token.type == tokenize.STRING and " " in token.string and (line in is_help or name.startswith("python/")):
            yield "messages", line, without_expressions(token.string)


def marked_pieces(text: str, marks: str) -> Iterator[Piece]:
    """Yields what follows one of the marks of a comment, line by line."""
    for number, line in enumerate(text.split("\n"), 1):
        # A star is a mark only at the start of a line; elsewhere it is a pointer or a product.
        found = re.search(rf"(?:(?:^|\s)(?:{marks})|^\s*\*(?=\s))(.*)", line)
        if found:
            yield "comments", number, found[1]


def pieces(name: str, text: str) -> Iterator[Piece]:
    """Yields the pieces of prose in a file."""
    if name.endswith(".md") or re.match(r"docs/.*\.1$", name):
        yield "documents", 1, without_code(text)
    elif name.endswith(".py") or PYTHON.match(text):
        yield from python_pieces(name, text)
    elif name.endswith(".rt"):
        yield from marked_pieces(text, "//[/!]?")
        if name.endswith("/command_line.rt"):
            yield from (
                ("messages", text[: found.start()].count("\n") + 1, found[1])
                for found in re.finditer(r'"([^"]* [^"]*)"', text)
            )
    elif name.endswith(".antt"):
        yield from marked_pieces(text, "--")
    elif name.endswith((".js", ".c", ".h", ".rs", ".css")):
        yield from marked_pieces(
            re.sub(r"(@\w+ )?\{+[^{}\n]*\}+( \w+)?", " ", text) if name.endswith(".js") else text, r"//[/!]?|/\*\*?"
        )
        if name.endswith(".js"):
            for found in JAVASCRIPT_TEXT.finditer(text):
                if " " in found[2]:
                    yield "messages", text[: found.start()].count("\n") + 1, without_expressions(found[2])
    elif name.endswith((".html", ".j2")):
        yield "messages", 1, re.sub(r"\{[{%#].*?[}%#]\}|<[^>]*>", " ", text, flags=re.S)


def found_forms(files: Iterable[tuple[str, str]]) -> dict[str, list[str]]:
    """Returns the forms in each part, as FILE:LINE: FORM (what to write)."""
    found: dict[str, list[str]] = {"documents": [], "messages": [], "comments": []}
    for name, text in files:
        for part, first, piece in pieces(name, text):
            for match in FORM.finditer(re.sub(r"`[^`\n]*`|--\w+", " ", piece)):
                # A keyword of SQL or of Redcode.
                if match[0].isupper():
                    continue
                line = first + piece[: match.start()].count("\n")
                found[part].append(f"{name}:{line}: {match[0]} ({WANTED[int(str(match.lastgroup)[1:])]})")
    return found


if __name__ == "__main__":
    import os
    import subprocess
    import sys

    os.chdir(os.path.join(os.path.dirname(os.path.abspath(__file__)), "..", ".."))
    names = subprocess.run(["git", "ls-files"], capture_output=True, text=True).stdout.split()
    found = found_forms(
        (name, open(name, errors="replace").read())
        for name in names
        if os.path.isfile(name) and not name.endswith(".png")
    )
    for part, lines in found.items():
        if part in sys.argv[1:]:
            print(*lines, sep="\n")
        print(part, len(lines))
