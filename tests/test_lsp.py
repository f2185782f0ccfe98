"""Tests the language server: errors and corrections, hover, values, names, renames, completion and costly sources."""
from __future__ import annotations

import ast
import json
import re
import subprocess
import sys
from collections.abc import Iterator
from pathlib import Path
from random import Random
from typing import Any

import costly
import pytest
import test_explain
from conftest import COMMAND, ENVIRONMENT, EXAMPLES, TOP, Run, begin
from hypothesis import given, strategies as st

from corewar.cli.main import COMMANDS
from corewar.editor.answers import ANSWERS, Params, diagnostic
from corewar.editor.text import Text
from corewar.editor.wire import Wire
from corewar.engine.calls import assemble
from corewar.explain import words
from corewar.model.cells import MODIFIERS, OPCODES
from corewar.model.errors import CorewarError, MarsError
from corewar.model.settings import HILLS, Settings

URI = "file:///one.red"


def literals() -> Iterator[str]:
    """Yields each text in the tests of the package and of the crates, the sources among them."""
    for path in sorted((TOP / "tests").rglob("*.py")):
        for node in ast.walk(ast.parse(path.read_text())):
            if isinstance(node, ast.Constant) and isinstance(node.value, (str, bytes)):
                yield node.value if isinstance(node.value, str) else node.value.decode("utf-8", "replace")
    for path in sorted((TOP / "crates").glob("*_tests/**/*.rt")):
        for found in re.findall(r'b"(?:[^"\\]|\\.)*"', path.read_text()):
            yield ast.literal_eval(f'b""{found[1:]}""').decode("utf-8", "replace")


# The sources of all tests: examples, examples with errors, and each text in the tests.
SOURCES = [
    *(path.read_text() for path in sorted(EXAMPLES.glob("*.red"))),
    *(text for text, _ in test_explain.mutated(100)),
    *dict.fromkeys(literals()),
]


def text_of(source: str) -> Text:
    return Text(source, assemble, Settings())


def request(text: Text, method: str, line: int, column: int, **more: Any) -> Any:
    """Returns the answer to a request about a position, whose line and column count from 0."""
    where = {"line": line, "character": column}
    params = {"textDocument": {"uri": URI}, "position": where, "range": {"start": where, "end": where}, **more}
    return ANSWERS[f"textDocument/{method}"](text, params)


class Editor:
    """A client of the command as a process."""

    def __init__(self) -> None:
        self.process: Any = begin("lsp", text=False, stdin=subprocess.PIPE)
        self.wire = Wire(self.process.stdout.fileno(), self.process.stdin.fileno())
        self.count = 0

    def ask(self, method: str, **params: Any) -> Params:
        """Returns the answer to a request, which comes before any other message."""
        self.count += 1
        self.wire.send({"id": self.count, "method": method, "params": params})
        answer = self.wire.receive()
        assert answer is not None and answer["id"] == self.count, answer
        return answer

    def about(self, method: str, **params: Any) -> Params:
        return self.ask(f"textDocument/{method}", textDocument={"uri": URI}, **params)

    def notify(self, method: str, **params: Any) -> None:
        self.wire.send({"method": method, "params": params})

    def write(self, text: str) -> list[Params]:
        """Returns the errors after a change of the whole text."""
        self.notify("textDocument/didChange", textDocument={"uri": URI}, contentChanges=[{"text": text}])
        message = self.wire.receive()
        assert message is not None and message["method"] == "textDocument/publishDiagnostics"
        found: list[Params] = message["params"]["diagnostics"]
        return found


@pytest.fixture
def editor() -> Iterator[Editor]:
    client = Editor()
    assert "hoverProvider" in client.ask("initialize", capabilities={})["result"]["capabilities"]
    yield client
    if client.process.poll() is None:
        assert client.ask("shutdown")["result"] is None
        client.notify("exit")
    assert client.process.wait(10) == 0
    assert client.process.stdout.read() == b""


BAD = "step EQU 4\nloop ADD #stpe, bomb\n MVO bomb, @bomb\n JMP lop\nbomb DAT #0, #0\n END loop\n"
GOOD = BAD.replace("stpe", "step").replace("MVO", "MOV").replace("lop", "loop")


def test_errors_have_the_version_of_their_text(editor: Editor) -> None:
    """By the version an editor leaves out the errors of an older text."""
    editor.notify("textDocument/didOpen", textDocument={"uri": URI, "version": 7, "text": BAD})
    document = {"uri": URI, "version": 8}
    for number in (7, 8):
        message = editor.wire.receive()
        assert message is not None and message["params"]["version"] == number
        if number == 7:
            editor.notify("textDocument/didChange", textDocument=document, contentChanges=[{"text": GOOD}])


def test_errors_are_at_their_words_and_corrected(editor: Editor) -> None:
    found = {(one["range"]["start"]["line"], one["range"]["start"]["character"]): one for one in editor.write(BAD)}
    assert sorted(found) == [(1, 10), (2, 1), (3, 5)]
    assert found[1, 10]["message"] == "`stpe` is not defined; did you mean `step` (line 1)?"
    assert (found[2, 1]["code"], found[2, 1]["severity"]) == ("1 Text 7 Duplicate", 1)
    text = BAD
    for one in found.values():
        (action,) = editor.about("codeAction", range=one["range"], context={"diagnostics": [one]})["result"]
        assert action["diagnostics"] == [one]
        text = edited(text, action["edit"])
    assert text == GOOD and editor.write(text) == []
    assert editor.ask("textDocument/didClose", textDocument={"uri": URI})["result"] is None


@pytest.mark.parametrize(
    "source, title, expected",
    [
        ("mov $1 #2\n", "Replace `1 #` with `1, #`", "mov $1, #2\n"),
        ("my-loop JMP 0\n", "Replace `my-loop` with `my_loop`", "my_loop JMP 0\n"),
        ("i FOR 2\nx DAT 0\nROF\n", "Replace `x` with `x&i`", "i FOR 2\nx&i DAT 0\nROF\n"),
        ("JPM go\ngo DAT 0\n", "Replace `JPM` with `JMP`", "JMP go\ngo DAT 0\n"),
        (
            "; \U0001f600\nJMP og ; \U0001f600\ngo DAT 0",
            "Replace `og` with `go`",
            "; \U0001f600\nJMP go ; \U0001f600\ngo DAT 0",
        ),
        ("mov 0, \\\n1\n", "as `corewar explain --fix` does", "mov 0, 1\n"),
        ("mov.q 0, 1\n", "", ""),
        ("ldp 0, 1\n", "", ""),
    ],
)
def test_corrections(source: str, title: str, expected: str) -> None:
    text = text_of(source)
    where = text.error_range(text.errors[0])["start"]
    found = request(text, "codeAction", where["line"], where["character"])
    assert len(found) == bool(title)
    for one in found:
        assert title in one["title"] and edited(source, one["edit"]) == expected
    assert request(text, "codeAction", 50, 0) == []


@pytest.mark.parametrize(
    "source, line, first, last",
    [
        ("\tmov CORESIZ, CORESIZE\n", 0, 5, 12),
        ("nop 0\nadd 12, 1 + 12 12\n", 1, 12, 17),
        ("mov 1, 2, 3 ; \U0001f600\n", 0, 8, 9),
        (";\U0001f600\nnop 1, 4/0\n", 1, 7, 8),
        ("x nop 0\n;assert 2 == 3\n", 1, 8, 9),
        ("e EQU 1/0\n nop e\n", 0, 6, 7),
        ("\ti: for 2\nnop 0\n", 0, 4, 7),
        ("; \U0001f600\nnop \u2018\U0001f600\n", 1, 4, 5),
        ("e EQU 1-e\nnop 2, e\n", 0, 8, 9),
    ],
)
def test_an_error_is_at_its_word(source: str, line: int, first: int, last: int) -> None:
    """The range of an error is its word or sign, which may be in the definition of an EQU."""
    (error,) = (text := text_of(source)).errors
    assert text.error_range(error) == {
        "start": {"line": line, "character": first},
        "end": {"line": line, "character": last},
    }


def test_each_correction_removes_an_error() -> None:
    count = 0
    for source, _ in test_explain.mutated(60):
        text = text_of(source)
        for error in text.errors:
            where = text.error_range(error)
            for one in request(text, "codeAction", *where["start"].values()):
                count += 1
                assert len(text_of(edited(source, one["edit"])).errors) < len(text.errors)
    assert count > 30


def edited(text: str, edit: Params) -> str:
    """Returns the text after an edit, whose positions are in UTF-16 units, as a client applies it."""
    for change in sorted(edit["changes"][URI], key=lambda one: [*one["range"]["start"].values()], reverse=True):
        lines = text.split("\n")
        ends = []
        for name in ("start", "end"):
            line, units = change["range"][name].values()
            inside = lines[line].encode("utf-16-le")[: 2 * units].decode("utf-16-le") if line < len(lines) else ""
            ends.append(sum(len(one) + 1 for one in lines[:line]) + len(inside))
        text = text[: ends[0]] + change["newText"] + text[ends[1] :]
    return text


def test_no_error_of_an_answer_ends_the_server(editor: Editor, tmp_path: Path) -> None:
    assert editor.write(GOOD) == []
    requests: list[tuple[str, dict[str, Any], int]] = [
        ("textDocument/hover", {"textDocument": {"uri": URI}}, -32603),
        ("textDocument/hover", {"textDocument": {"uri": "file:///other.red"}, "position": {}}, -32803),
        ("textDocument/hover", {"textDocument": 5}, -32603),
        ("textDocument/formatting", {"textDocument": {"uri": URI}}, -32601),
    ]
    for method, params, code in requests:
        assert editor.ask(method, **params)["error"]["code"] == code
    for body in (b"{", b"[]", b"\xff", b"", b"[" * 100_000):
        editor.process.stdin.write(b"Content-Length: %d\r\nX: y\r\n\r\n%s" % (len(body), body))
        editor.process.stdin.flush()
        message = editor.wire.receive()
        assert message is not None and message["error"]["code"] == -32700
    editor.notify("textDocument/didChange", textDocument={"uri": URI})
    editor.notify("$/cancelRequest", id=3)
    editor.wire.send({"id": 99, "result": None})
    assert editor.about("documentSymbol")["result"][0]["name"] == "step"


def test_only_messages_reach_standard_output() -> None:
    code = "import corewar.editor.answers as a, corewar.editor.server as s; "
    code += "a.ANSWERS['textDocument/hover'] = lambda *_: print('noise'); s.serve(s.Settings(), '')"
    messages = []
    for number, (method, params) in enumerate(
        [
            ("textDocument/didOpen", {"textDocument": {"uri": URI, "text": "MOV 0, 1\n"}}),
            ("textDocument/hover", {"textDocument": {"uri": URI}}),
            ("exit", {}),
        ]
    ):
        body = json.dumps({"id": number, "method": method, "params": params})
        messages.append(f"Content-Length: {len(body)}\r\n\r\n{body}")
    done = subprocess.run(
        [sys.executable, "-c", code], input="".join(messages), env=ENVIRONMENT, capture_output=True, text=True
    )
    assert "noise" in done.stderr and "noise" not in done.stdout
    assert re.sub(r"Content-Length: \d+\r?\n\r?\n", "", done.stdout).count("jsonrpc") == 2


def test_start_and_end(run: Run) -> None:
    """The end of input ends the server; on a terminal, the command reports that it expects an editor."""
    done = run("lsp")
    assert (done.returncode, done.stdout, done.stderr) == (1, "", "")
    code = "import pty, sys; sys.exit(pty.spawn(sys.argv[1:]) >> 8)"
    words = [sys.executable, "-c", code, *COMMAND, "lsp"]
    done = subprocess.run(words, env=ENVIRONMENT, capture_output=True, text=True, stdin=subprocess.DEVNULL)
    assert done.returncode == 2 and "expected an editor on standard input" in done.stdout
    assert run("lsp", "--hill", "none").returncode == 2
    assert "lsp" in COMMANDS


def test_a_source_that_costs_too_much(editor: Editor) -> None:
    """The source is reported, and the server continues."""
    (found,) = editor.write(costly.slow())
    assert found["message"] == "assembling takes more than 2 s of CPU time" and found["range"]["start"]["line"] == 0
    assert editor.about("codeAction", range=found["range"])["result"] == []
    assert editor.write(GOOD) == []


def test_a_source_that_is_too_large(editor: Editor) -> None:
    """The only error of the source says that it is too large, and the server continues."""
    (found,) = editor.write("NOP\n" * 5_000_000)
    assert found["message"] == "larger than 1,048,576 bytes" and found["range"]["start"]["line"] == 0
    assert editor.about("codeAction", range=found["range"])["result"] == []
    assert editor.write(GOOD) == [] and editor.write("\n" * 60_000 + "NOP\n") == []


def test_answers_have_a_limit(editor: Editor) -> None:
    """An answer that takes too long is an error, and so is a source whose errors take too long."""
    (found,) = editor.write("a NOP\n" * 150_000)
    assert found["message"] == "reading the source takes more than 2 s of CPU time"
    answer = editor.about("codeAction", range=found["range"])
    assert answer["error"]["message"] == "reading the source takes more than 2 s of CPU time"
    assert editor.write(GOOD) == []


def test_a_large_source() -> None:
    """Loops, names of iterations and long lines: the test would not end if they took quadratic time."""
    loops = "".join(f"i{n} FOR 1\nx{n}&i{n} NOP x{n}01\nROF\n" for n in range(10_000))
    long_line = "x" + "1" * 300_000 + " NOP " + "1+" * 100_000 + ";\U0001f600"
    for source, count in ((loops, 80_000), ("i FOR 1\n" * 30_000, 90_000), (long_line, 200_003)):
        assert len(request(text_of(source), "semanticTokens/full", 0, 0)["data"]) == 5 * count


def test_hover() -> None:
    text = text_of(GOOD)
    hover = request(text, "hover", 1, 6)["contents"]["value"]
    assert hover.split("\n") == [
        "0  ADD.AB #4, $3",
        "Add 4 to the B-number of the cell 3 ahead.",
    ]
    assert request(text, "hover", 1, 11)["contents"]["value"] == "`step`: 4 here; line 1: `step EQU 4`"
    assert request(text, "hover", 3, 6)["contents"]["value"].startswith("`loop`: -2 here; line 2: `loop ADD ")
    assert request(text, "hover", 0, 1)["contents"]["value"] == "`step`: line 1: `step EQU 4`"
    assert request(text, "hover", 4, 1)["contents"]["value"].startswith("3  DAT.F #0, #0\n")
    loops = text_of("i FOR 9\nDAT i, CORESIZE\nROF\n")
    assert request(loops, "hover", 1, 4)["contents"]["value"] == "`i`: 1, 2, 3, 4, .. here; line 1: `i FOR 9`"
    assert request(loops, "hover", 1, 8)["contents"]["value"] == "`CORESIZE`: 8000 here; core size"
    assert request(loops, "hover", 1, 1)["contents"]["value"].split("\n")[3:5] == ["3  DAT.F $4, $0", "and 5 more"]
    # With an error there are no cells; the word is explained.
    assert request(text_of(BAD), "hover", 1, 6)["contents"]["value"] == "`ADD`: B becomes B + A"
    assert request(text, "hover", 99, 0) is None and request(text, "hover", 0, 99) is None


@pytest.mark.parametrize(
    "source, expected",
    [
        ("a MOV b, c\nb DAT CORESIZE, -3\nc DAT 0\n", {"b": [1], "CORESIZE": [8000], "c": [2]}),
        ("x EQU 1+1\nDAT x*2, 999999*7\n", {"x*2": [3], "999999*7": [6999993]}),
        ("i FOR 3\nDAT i, e\nROF\ne DAT 0\n", {"i": [1, 2, 3], "e": [3, 2, 1]}),
        ("i FOR 2\nx&i DAT x&i, x01\nROF\n", {"x&i": [0, 0], "x01": [0, -1]}),
        (
            "DAT 9223372036854775807, 0\n",
            {"9223372036854775807": [2**63 - 1], "0-9223372036854775807": [1 - 2**63]},
        ),
        ("x EQU <5\nDAT x, 0\n", {"x": [], "nothing": [], "1/0": []}),
        ("m EQU MOV 0, 1\nEQU MOV 0, 2\nm\nDAT 0\n", {"1": []}),
    ],
)
def test_values(source: str, expected: dict[str, list[int]]) -> None:
    line = next(number for number, one in enumerate(source.split("\n"), 1) if re.search(r"\b(DAT|MOV|m$)", one))
    for core in (8000, 8001, 80, 3, 1):
        text = Text(
            source, assemble, Settings(core=core, processes=core, longest=min(core, 100), distance=min(core, 100))
        )
        for expression, values in expected.items():
            wanted = [core if expression == "CORESIZE" else value for value in values]
            assert text.values(line, expression) in ([wanted] if core > 80 else [wanted, []])


def test_names() -> None:
    text = text_of("i FOR 2\nx&i JMP x&i, i\nROF\ny EQU x01\n JMP y, x02\n;assert y&&i\n")
    places = {
        "x": [(1, 0), (1, 8), (3, 6), (4, 8)],
        "i": [(0, 0), (1, 2), (1, 10), (1, 13)],
        "y": [(3, 0), (4, 5), (5, 8)],
    }
    for found in places.values():
        for line, column in found:
            ranges = [one["range"]["start"] for one in request(text, "references", line, column)]
            assert [(one["line"], one["character"]) for one in ranges] == found
            (defined,) = request(text, "definition", line, column)
            assert tuple(defined["range"]["start"].values()) == found[0]
    uses = request(text, "references", 1, 0, context={"includeDeclaration": False})
    assert len(uses) == 3
    assert [one["name"] for one in request(text, "documentSymbol", 0, 0)] == ["i", "x", "y"]
    assert request(text, "foldingRange", 0, 0) == [{"startLine": 0, "endLine": 2}]


def test_completion() -> None:
    def offered(line: int, column: int) -> set[str]:
        return {one["label"] for one in request(text, "completion", line, column)}

    text = text_of("step EQU 4\ni FOR 2\nx&i ADD.AB #st, x01 ; st\nROF\n;assert CO\nloop \n")
    assert {"step", "i", "loop", "CORESIZE"} <= offered(2, 14) and "DAT" not in offered(2, 14)
    assert offered(2, 8) == {*MODIFIERS} == offered(2, 9)
    assert offered(2, 23) == set()
    assert {"step", "CORESIZE"} <= offered(4, 10) and "loop" not in offered(4, 10)
    assert {"DAT", "FOR", "step"} <= offered(5, 5) and "loop" not in offered(5, 5)
    assert {"DAT"} <= offered(99, 0)


def test_renames_are_refused() -> None:
    text = text_of("step EQU 4\nloop ADD.AB #step, bomb\ni FOR 2\nMOV.I bomb, @bomb\nROF\nbomb DAT #0, #CORESIZE\n")
    for line, column, new, why in (
        (1, 0, "bomb", "already used in line 2"),
        (1, 0, "i", "already used in line 3"),
        (1, 0, "2x", "not a valid name"),
        (1, 0, "a&i", "not a valid name"),
        (1, 0, "new\n", "not a valid name"),
        (1, 0, "mov", "not a valid name"),
        (1, 0, "VERSION", "would change the warrior"),
        (2, 0, "I", "already used in line 4"),
        (5, 12, "x", "expected a label"),
        (1, 6, "x", "expected a label"),
    ):
        with pytest.raises(CorewarError, match=why):
            request(text, "rename", line, column, newName=new)
    with pytest.raises(CorewarError, match="correct the errors first"):
        request(text_of(BAD), "prepareRename", 0, 0)


def outcomes(source: str) -> list[bytes | str]:
    """Returns the load file of a source, or its error, with the settings of each hill."""
    found: list[bytes | str] = []
    for settings in HILLS.values():
        try:
            found.append(assemble(source.encode("utf-8", "replace"), settings=settings).load)
        except MarsError as fault:
            found.append(str(fault))
    return found


def test_no_rename_changes_a_warrior() -> None:
    """Each name of each source is renamed to a fresh name and to names that may clash. A rename that is accepted
    changes no warrior, with the settings of any hill.
    """
    dice, refused, renamed = Random(7), 0, 0
    for source in SOURCES:
        text = text_of(source)
        before, names = outcomes(source), {(one.kind, one.key): one for one in text.names.tokens if one.key}
        used = [one.text for one in text.names.tokens if one.kind not in ("comment", "sign")]
        for token in names.values():
            clashes = [*"abfxiABFXI", "x01", f"{token.text}0", f"{token.text}01", token.text.swapcase(), *used]
            for new in ("fresh_name", *dice.sample(clashes, min(3, len(clashes)))):
                where = text.range_of(token)["start"]
                try:
                    edit = request(text, "rename", where["line"], where["character"], newName=new)
                except CorewarError:
                    is_possible = not text.errors and token.kind != "predefined" and new == "fresh_name"
                    refused += is_possible
                    continue
                renamed += 1
                assert outcomes(edited(source, edit)) == before, (source, token, new)
    # A fresh name is never rejected in a source without errors.
    assert renamed > 100 and refused == 0, (renamed, refused)


@given(st.sampled_from(SOURCES), st.data())
def test_any_text_is_answered(source: str, data: st.DataObject) -> None:
    """Each request has an answer, for any source and any position."""
    first = data.draw(st.integers(0, len(source)))
    added = data.draw(st.text(max_size=8) | st.sampled_from(["FOR", " ROF", "&", ";assert", "\U0001f600", "x&i", "."]))
    text = text_of(source[:first] + added + source[first + data.draw(st.integers(0, 40)) :])
    where = data.draw(st.integers(0, 60)), data.draw(st.integers(0, 60))
    assert all(diagnostic(text, error)["message"] for error in text.errors)
    for method in ANSWERS:
        try:
            json.dumps(request(text, method.partition("/")[2], *where, newName="fresh_name"))
        except CorewarError:
            pass


@given(st.text(), st.data())
def test_positions_are_in_utf16(line: str, data: st.DataObject) -> None:
    text = text_of(";" + line)
    shown = text.line(1)
    column = data.draw(st.integers(0, len(shown)))
    end = text.span(1, 0, column)["end"]
    assert end["character"] == sum(1 + (ord(one) > 0xFFFF) for one in shown[:column])
    assert text.line_and_column(end) == (1, column)


def test_semantic_tokens() -> None:
    """Each token is where its text is, in UTF-16 units, and each comment is one token."""
    source = ";name \U0001f600\nx&i DAT.F #1, CORESIZE ; \U0001f600 two\n"
    text = text_of(source)
    line = column = 0
    found = []
    numbers = iter(request(text, "semanticTokens/full", 0, 0)["data"])
    for down, right, length, kind, _ in zip(*[numbers] * 5):
        line, column = line + down, right + (0 if down else column)
        units = source.split("\n")[line].encode("utf-16-le")[2 * column : 2 * (column + length)]
        found.append(units.decode("utf-16-le"))
    expected = [";name \U0001f600", "x", "DAT", ".", "F", "#", "1", ",", "CORESIZE", "; \U0001f600 two"]
    assert found == expected


@pytest.mark.parametrize("name", HILLS)
def test_hills(name: str) -> None:
    source = f";redcode-{name.upper()}\n;assert CORESIZE == {HILLS[name].core}\nDAT 0, CORESIZE-1\n"
    assert text_of(source).errors == []
    assert text_of(source.replace("redcode", "redcod")).errors == [] or name != "94nop"


def test_words_are_those_of_the_document() -> None:
    """The tables of opcodes, modifiers and predefined names have the sentences of hover."""
    page = (TOP / "docs" / "user" / "LANGUAGE.md").read_text()
    tables = {**words.OPCODES, **words.MODIFIERS, **words.PREDEFINED}
    for name, meaning in tables.items():
        row = next(row for row in page.split("\n") if re.match(rf"\|[^|]*`{re.escape(name)}`[^|]*\| ", row))
        assert row.split(" | ", 1)[1].startswith(meaning), name
    assert [name for name in words.OPCODES if name != "CMP"] == OPCODES and [*words.MODIFIERS] == MODIFIERS
    assert all(name in page for name in words.DIRECTIVES)
