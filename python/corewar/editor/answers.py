"""The answers to requests about a source. `ANSWERS` has the function of each, which takes the source and parameters.

Kinds and severities are numbers of the Language Server Protocol.
"""
from __future__ import annotations

import re
from collections.abc import Callable
from typing import Any

from ..explain import words
from ..explain.fixes import fix
from ..explain.instructions import describe_instruction
from ..explain.source import ELSEWHERE, NAME, OPERATIONS, parse_line
from ..model.errors import CorewarError
from .names import ASSERT, Token
from .text import Error, Text

Params = dict[str, Any]
Answer = Callable[[Text, Params], Any]
ANSWERS: dict[str, Answer] = {}
# The maximum number of cells, and of values, that are shown for a line.
MAX_SHOWN = 4
ERROR, FUNCTION, VARIABLE, CONSTANT, QUICK_FIX = 1, 12, 13, 14, "quickfix"
KEYWORD_ITEM, VARIABLE_ITEM, CONSTANT_ITEM = 14, 6, 21
# The type of semantic tokens, and the kind of symbols, for each kind of token.
TYPES = {
    "comment": "comment",
    "operation": "keyword",
    "modifier": "modifier",
    "number": "number",
    "sign": "operator",
    "label": "variable",
    "stem": "variable",
    "equate": "macro",
    "counter": "parameter",
    "predefined": "enumMember",
}
LEGEND = [*dict.fromkeys(TYPES.values())]
SYMBOLS = {"label": FUNCTION, "stem": FUNCTION, "equate": CONSTANT, "counter": VARIABLE}


def answers(method: str) -> Callable[[Answer], Answer]:
    """Enters a function as the answer to a request."""

    def register(answer: Answer) -> Answer:
        ANSWERS[f"textDocument/{method}"] = answer
        return answer

    return register


def token_at(text: Text, params: Params) -> Token | None:
    return text.names.at(*text.line_and_column(params["position"]))


def diagnostic(text: Text, error: Error) -> Params:
    """Returns an error as the protocol has it, at the word or the line to correct."""
    message = " ".join(error.sentences).removeprefix(f"In line {error.number}, ") or error.kind
    about = {"severity": ERROR, "source": "corewar", "code": error.kind, "message": message}
    return {"range": text.error_range(error), **about}


@answers("codeAction")
def actions(text: Text, params: Params) -> Any:
    """Returns the corrections of the errors in a range."""
    found, first, last = [], params["range"]["start"]["line"], params["range"]["end"]["line"]
    in_range = [error for error in text.errors if first <= text.error_range(error)["start"]["line"] <= last]
    for error in in_range:
        word = text.word_range(error)
        if word and error.advice and error.advice.new:
            title = f"Replace `{error.advice.old}` with `{error.advice.new}`"
            edit = workspace_edit(params, [{"range": word, "newText": error.advice.new}])
            found.append({"title": title, "kind": QUICK_FIX, "edit": edit, "diagnostics": [diagnostic(text, error)]})
    is_fixable = in_range and not found and fix(text.data, text.load, is_rejected=True) != text.data
    if is_fixable:
        fixed = fix(text.data, text.load)
        whole = {"start": {"line": 0, "character": 0}, "end": {"line": len(text.source.lines), "character": 0}}
        edit = workspace_edit(params, [{"range": whole, "newText": fixed.decode("utf-8", "replace")}])
        title = "Replace what only pMARS reads, as `corewar explain --fix` does"
        found.append({"title": title, "kind": QUICK_FIX, "edit": edit})
    return found


def workspace_edit(params: Params, edits: list[Params]) -> Params:
    return {"changes": {params["textDocument"]["uri"]: edits}}


@answers("hover")
def hover(text: Text, params: Params) -> Any:
    """Returns what a name means. At its definition and at other words, returns the cells of the line and what the first
    one does or, if the line has no cells, what the word means.
    """
    token = token_at(text, params)
    if token is None or token.kind == "comment":
        return None
    is_cell = token.number in text.cells and (not token.key or token.is_definition and token.kind != "counter")
    meaning = (
        describe_cells(text, token.number)
        if is_cell
        else describe_name(text, token)
        if token.key
        else describe_word(token)
    )
    contents = {"kind": "plaintext", "value": "\n".join(meaning)}
    return {"contents": contents, "range": text.range_of(token)} if meaning else None


def describe_cells(text: Text, number: int) -> list[str]:
    """Returns the cells of a line with their indices, and what the first one does."""
    cells = text.cells[number]
    more = [f"and {len(cells) - MAX_SHOWN} more"] if len(cells) > MAX_SHOWN else []
    return [*(f"{index}  {cell}" for index, cell in cells[:MAX_SHOWN]), *more, describe_instruction(cells[0][1])]


def describe_name(text: Text, token: Token) -> list[str]:
    """Returns the values of a name in the cells of this line, and the line of its definition or its meaning."""
    if token.kind == "predefined":
        meaning = words.PREDEFINED[token.text]
    else:
        first = next((one.number for one in text.names.same(token) if one.is_definition), token.number)
        meaning = f"line {first}: `{' '.join(text.line(first).partition(';')[0].split())}`"
    values = [*dict.fromkeys(text.values(token.number, token.whole))]
    more = ", .." if len(values) > MAX_SHOWN else ""
    shown = [f"{', '.join(map(str, values[:MAX_SHOWN]))}{more} here"] if values else []
    return [f"`{token.whole}`: {'; '.join([*shown, meaning])}"]


def describe_word(token: Token) -> list[str]:
    """Returns what an operation or a modifier means."""
    tables = {"operation": {**words.OPCODES, **words.DIRECTIVES}, "modifier": words.MODIFIERS}
    meaning = tables.get(token.kind, {}).get(token.text.upper())
    return [f"`{token.text}`: {meaning}"] if meaning else []


@answers("definition")
def definition(text: Text, params: Params) -> Any:
    return locations(text, params, lambda one: one.is_definition)


@answers("references")
def references(text: Text, params: Params) -> Any:
    is_declared = params.get("context", {}).get("includeDeclaration", True)
    return locations(text, params, lambda one: is_declared or not one.is_definition)


def locations(text: Text, params: Params, is_wanted: Callable[[Token], bool]) -> list[Params]:
    """Returns the locations of the tokens with the same name as the one at a position, if `is_wanted` accepts them."""
    token, uri = token_at(text, params), params["textDocument"]["uri"]
    found = text.names.same(token) if token else []
    return [{"uri": uri, "range": text.range_of(one)} for one in found if is_wanted(one)]


@answers("prepareRename")
def prepare_rename(text: Text, params: Params) -> Any:
    return text.range_of(name_to_rename(text, params))


@answers("rename")
def rename(text: Text, params: Params) -> Any:
    """Returns the edits that replace a name everywhere. Raises CorewarError unless the load file stays the same."""
    token, new = name_to_rename(text, params), params["newName"]
    check_name(text, new)
    found = text.names.same(token)
    lines = [line.text for line in text.source.lines]
    for one in sorted(found, key=lambda one: -one.first):
        line = lines[one.number - 1]
        lines[one.number - 1] = line[: one.first] + new + line[one.last :]
    try:
        changed_data = "\n".join([*lines, ""]).encode("utf-8", "replace")
        is_same = text.load(changed_data).load == text.load(text.data).load
    except CorewarError:
        is_same = False
    if not is_same:
        raise CorewarError(f"`{new}` in place of `{token.text}` would change the warrior; nothing is renamed")
    return workspace_edit(params, [{"range": text.range_of(one), "newText": new} for one in found])


def name_to_rename(text: Text, params: Params) -> Token:
    """Returns the name at a position. Raises CorewarError if it cannot be renamed."""
    token = token_at(text, params)
    if token is None or not token.key or token.kind == "predefined":
        raise CorewarError("expected a label, the name of an EQU or a counter at the cursor")
    if text.errors:
        raise CorewarError("correct the errors first; a rename is checked by assembling the source")
    return token


def check_name(text: Text, new: str) -> None:
    """Raises CorewarError if a name is invalid or already used. A used name is rejected even if the warrior would stay
    the same, since it could change under other settings.
    """
    if not NAME.match(new) or "&" in new or new.upper() in [*OPERATIONS, *ELSEWHERE]:
        raise CorewarError(
            f"`{new}` is not a valid name; expected a letter or `_`, then letters, digits and `_`; no opcode"
        )
    used = next((one for one in text.names.tokens if new in one.whole.split("&")), None)
    if used:
        raise CorewarError(f"`{new}` is already used in line {used.number}")


@answers("completion")
def completion(text: Text, params: Params) -> Any:
    """Returns the words that can be at a position: modifiers, names, or opcodes and the names of EQUs."""
    number, column = text.line_and_column(params["position"])
    before = re.sub(r"\w*$", "", text.line(number)[:column], flags=re.ASCII)
    is_assert = ASSERT.match(before) is not None
    if ";" in before and not is_assert:
        return []
    if before.endswith("."):
        return items(words.MODIFIERS, KEYWORD_ITEM)
    equates = items({name: " ".join(line.rest) for name, line in text.source.equates.items()}, CONSTANT_ITEM)
    if not is_assert and not parse_line(number, before, text.source.equates).operation:
        return items({**words.OPCODES, **words.DIRECTIVES}, KEYWORD_ITEM) + equates
    counters = {loop.counter: loop.head for loop in text.source.loops_around(number) if loop.counter}
    names = counters if is_assert else {**text.names.labels, **counters}
    listed = items({name: f"line {line.number}" for name, line in names.items()}, VARIABLE_ITEM)
    return listed + equates + items(words.PREDEFINED, CONSTANT_ITEM)


def items(meanings: dict[str, str], kind: int) -> list[Params]:
    # Names of the source are offered before those of the language.
    rank = "1" if meanings is words.PREDEFINED else "0"
    return [
        {"label": name, "kind": kind, "detail": meaning, "sortText": rank + name} for name, meaning in meanings.items()
    ]


@answers("documentSymbol")
def symbols(text: Text, _: Params) -> Any:
    """Returns the labels, the names of EQUs and the counters."""
    found = [(one, {"name": one.text, "kind": SYMBOLS[one.kind]}) for one in text.names.tokens if one.is_definition]
    return [
        {**about, "range": text.code_range(one.number), "selectionRange": text.range_of(one)} for one, about in found
    ]


@answers("foldingRange")
def folds(text: Text, _: Params) -> Any:
    """Returns the lines of each loop."""
    last = len(text.source.lines)
    return [{"startLine": one.head.number - 1, "endLine": min(one.last, last) - 1} for one in text.source.loops]


@answers("semanticTokens/full")
def semantic_tokens(text: Text, _: Params) -> Any:
    """Returns the tokens, each as five numbers: lines and units after the token before it, length, type, and 0."""
    data, last = list[int](), {"line": 0, "character": 0}
    for token in text.names.tokens:
        if token.kind in TYPES:
            start, end = text.range_of(token).values()
            down = start["line"] - last["line"]
            right = start["character"] - (0 if down else last["character"])
            data += [down, right, end["character"] - start["character"], LEGEND.index(TYPES[token.kind]), 0]
            last = start
    return {"data": data}
