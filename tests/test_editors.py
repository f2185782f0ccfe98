"""The files for editors. With them editors colour the examples as the kit reads them, and Neovim and Emacs use the
language server.

Vim, Emacs, Kate and bat colour the examples; bat reads the grammar of VS Code and TextMate in another form.
"""
from __future__ import annotations

import html
import json
import os
import plistlib
import re
import shutil
import subprocess
import sys
from collections.abc import Callable
from pathlib import Path
from typing import Any

import pytest
from conftest import COMMAND, ENVIRONMENT, EXAMPLES, TOP
from counting import skip

from corewar.editor.names import Names
from corewar.explain.source import OPCODES, read_source

# A source with tokens that the examples do not have.
MORE = """\
;redcode-94nop
;name More ; and more
;assert CORESIZE % 2 == 0 && !(VERSION < 80) ; an assert is read
i       for     2
x&i:    Sne.x   <x01 , >CURLINE-1 ; MOV 0, 1
        mov . I {2,}3*(4+5)
        rof
movement equ    3
org_1   nop     # movement, @ADDRESS
ADDRESS equ     007
        org     x01
"""
FILES = [*sorted(EXAMPLES.glob("*.red")), Path("more.red")]
# The class of each character of each line: opcode, directive, modifier, number, sign, comment, predefined or "".
Lines = list[list[str]]


def needed(command: str, package: str) -> str:
    if not shutil.which(command):
        skip("the files for editors", f"there is no {command}", package)
    return command


@pytest.fixture(scope="module")
def share(tmp_path_factory: pytest.TempPathFactory) -> Path:
    """Returns the folder of the files that `make editors` writes; beside it are the command and the source MORE."""
    folder = tmp_path_factory.mktemp("editors") / "share"
    words = [sys.executable, str(TOP / "packaging" / "editors.py"), str(folder)]
    subprocess.run(words, env=ENVIRONMENT, check=True)
    (folder.parent / "more.red").write_text(MORE)
    command = folder.parent / "bin" / "corewar"
    command.parent.mkdir()
    command.write_text(f"#!/bin/sh\nexec {' '.join(COMMAND)} \"$@\"\n")
    command.chmod(0o755)
    return folder


def started(share: Path, *words: object, **more: str) -> str:
    """Runs a program as a user who has the files for editors in their home, and returns what it prints."""
    home = share.parent
    environment = {**ENVIRONMENT, "HOME": str(home), "XDG_DATA_HOME": str(share), "XDG_CONFIG_HOME": str(home), **more}
    environment |= {"PATH": f"{home}/bin:{os.environ['PATH']}", "TERM": "dumb"}
    command = [*map(str, words)]
    done = subprocess.run(command, cwd=home, env=environment, capture_output=True, text=True, timeout=120)
    assert done.returncode == 0, done.stdout + done.stderr
    return done.stdout


def by_vim(share: Path, paths: list[Path]) -> list[Lines]:
    """Returns the classes by Vim's names of syntax groups."""
    files = ", ".join(f"'{path}'" for path in paths)
    script = f"""
set runtimepath^={share}/vim/vimfiles
filetype plugin on
syntax on
let lines = []
for file in [{files}]
  execute 'edit' file
  for line in range(1, line('$'))
    let names = map(range(1, col([line, '$']) - 1), {{_, column -> synIDattr(synID(g:line, column, 1), 'name')}})
    call add(lines, join(names, ','))
  endfor
  call add(lines, '=')
endfor
call writefile(lines, 'vim.out')
quitall!
"""
    (share.parent / "colours.vim").write_text(script)
    started(share, needed("vim", "vim"), "-u", "NONE", "-N", "-es", "-S", "colours.vim", "-c", "quitall!")
    classes = {"redcodeAssert": "directive", "redcodeOperator": "sign", "": ""}
    texts = (share.parent / "vim.out").read_text().split("=\n")[:-1]
    return [
        [
            [classes.get(name, name.removeprefix("redcode").lower()) for name in line.split(",")]
            for line in text.split("\n")
        ]
        for text in texts
    ]


def by_emacs(share: Path, paths: list[Path]) -> list[Lines]:
    """Returns the classes by the faces of Emacs, which colours no sign."""
    script = f"""
(add-to-list 'load-path "{share}/emacs/site-lisp")
(require 'redcode-mode)
(dolist (file '({" ".join(json.dumps(str(path)) for path in paths)}))
  (find-file file)
  (unless (eq major-mode 'redcode-mode) (error "no mode"))
  (font-lock-ensure)
  (while (not (eobp))
    (princ (if (eolp) "\\n" (format "%s," (get-text-property (point) 'face))))
    (forward-char))
  (princ "="))
"""
    (share.parent / "colours.el").write_text(script)
    texts = started(share, needed("emacs", "emacs-nox"), "--batch", "-Q", "-l", "colours.el").split("=")[:-1]
    classes = {"keyword": "opcode", "preprocessor": "directive", "type": "modifier", "constant": "number"}
    classes |= {"builtin": "predefined", "comment": "comment", "comment-delimiter": "comment"}
    faces = {f"font-lock-{name}-face": found for name, found in classes.items()}
    return [[[faces.get(name, "") for name in line.split(",")] for line in text.split("\n")] for text in texts]


def by_kate(share: Path, paths: list[Path]) -> list[Lines]:
    """Returns the classes by the styles of Kate's program, in its light theme."""
    styles = {"color:#898887;": "comment", "color:#006e28;": "directive", "color:#b08000;": "number", "": ""}
    styles |= {"color:#aa5500;": "predefined", "color:#ca60ca;": "sign", "font-weight:bold;": "opcode"}
    styles |= {"color:#0057ae;": "modifier"}
    program = needed("kate-syntax-highlighter", "libkf5syntaxhighlighting-tools")
    found = []
    for path in paths:
        output = started(share, program, "-t", "Breeze Light", path).partition("<pre>\n")[2].partition("</pre>")[0]
        lines = []
        for line in output.split("\n"):
            parts = re.findall(r'<span style="([^"]*)">(.*?)</span>|([^<]+)', line)
            lines.append([styles[style] for style, inside, plain in parts for _ in html.unescape(inside or plain)])
        found.append(lines)
    return found


def by_bat(share: Path, paths: list[Path]) -> list[Lines]:
    """Returns the classes by the scopes that bat finds, each of which a theme gives a colour of its own."""
    scopes = {"opcode": "keyword.mnemonic", "directive": "keyword.control", "modifier": "storage.modifier"}
    scopes |= {"number": "constant.numeric", "sign": "keyword.operator", "predefined": "support.constant"}
    scopes["comment"] = "comment"
    classes = ["", *scopes]
    colours = [
        {"scope": scopes[name], "settings": {"foreground": f"#0000{number:02}"}}
        for number, name in enumerate(classes)
        if name
    ]
    theme = {"name": "classes", "settings": [{"settings": {"foreground": "#000000"}}, *colours]}
    source = share.parent / "bat"
    for folder in ("syntaxes", "themes"):
        (source / folder).mkdir(parents=True, exist_ok=True)
    (source / "themes" / "classes.tmTheme").write_bytes(plistlib.dumps(theme))
    shutil.copy(share / "corewar" / "redcode.sublime-syntax", source / "syntaxes")
    program, cache = needed("batcat", "bat"), str(source / "cache")
    started(share, program, "cache", "--build", "--source", source, "--target", cache)
    options = ["-p", "--color=always", "--theme=classes"]
    found = []
    for path in paths:
        lines = []
        for line in started(share, program, *options, path, BAT_CACHE_PATH=cache, COLORTERM="truecolor").split("\n"):
            parts = re.findall(r"\x1b\[38;2;0;0;(\d+)m([^\x1b]*)", line)
            lines.append([classes[int(number)] for number, text in parts for _ in text])
        found.append(lines)
    return found


@pytest.mark.parametrize("colours", [by_vim, by_emacs, by_kate, by_bat])
def test_colours_are_what_the_kit_reads(share: Path, colours: Callable[..., list[Lines]]) -> None:
    paths = [share.parent / path for path in FILES]
    count, wrong = 0, []
    for path, lines in zip(paths, colours(share, paths), strict=True):
        source = read_source(path.read_bytes())
        for token in Names(source).tokens:
            line = source.lines[token.number - 1]
            if line.unread or line.skipped or token.text in (",", ":", "."):
                continue
            expected = token.kind if token.kind in ("modifier", "number", "sign", "comment", "predefined") else ""
            if token.kind == "operation":
                expected = "opcode" if token.text.upper() in OPCODES else "directive"
            if expected == "sign" and colours is by_emacs:
                expected = ""
            count += 1
            found = lines[token.number - 1][token.first : token.last]
            if {*found} != {expected}:
                wrong.append((path.name, token.number, token.text, expected, found))
    assert count > 400 and wrong == []


def test_the_extension_for_vs_code(share: Path) -> None:
    """The files that the manifest of the extension names exist, and the script of the extension is valid JavaScript."""
    folder = share / "corewar" / "vscode"
    manifest = json.loads((folder / "package.json").read_text())
    parts = manifest["contributes"]
    for path in (manifest["main"], parts["grammars"][0]["path"], parts["languages"][0]["configuration"]):
        assert (folder / path).is_file()
    assert (
        json.loads((folder / "redcode.tmLanguage.json").read_text())["scopeName"] == parts["grammars"][0]["scopeName"]
    )
    subprocess.run([needed("node", "nodejs"), "--check", folder / "extension.js"], check=True)


# A source with three errors, the same without them and after a rename, and the messages of the errors.
SOURCE = "step EQU 4\nloop ADD #stpe, bomb\n MVO bomb, @bomb\n JMP lop\nbomb DAT #0, #0\n FOR 2\n DAT 0, 0\n ROF\n"
GOOD = SOURCE.replace("stpe", "step").replace("MVO", "MOV").replace("lop", "loop")
RENAMED = GOOD.replace("bomb", "shell")
MESSAGES = [
    "`stpe` is not defined; did you mean `step` (line 1)?",
    "`MVO` is read as a label; did you mean `MOV`?",
    "`lop` is not defined; did you mean `loop` (line 2)?",
]

NEOVIM = r"""
local out, b = {}, 0
local function wait(what, condition)
  if not vim.wait(20000, condition, 10) then
    out.failed = what
    vim.fn.writefile({ vim.json.encode(out) }, "nvim.out")
    vim.cmd("cquit")
  end
end
local function press(keys)
  vim.api.nvim_feedkeys(vim.api.nvim_replace_termcodes(keys, true, true, true), "xt", false)
end
local function at(line, column)
  vim.api.nvim_win_set_cursor(0, { line, column })
end
local function ask(method, more)
  local params = vim.tbl_extend("force", vim.lsp.util.make_position_params(), more or {})
  for _, answer in pairs(vim.lsp.buf_request_sync(0, "textDocument/" .. method, params, 20000)) do
    return answer.result or answer.error.message
  end
end
local function errors()
  local found = vim.diagnostic.get(0)
  table.sort(found, function(one, other) return one.lnum < other.lnum end)
  return found
end
vim.cmd("edit one.red")
out.filetype = vim.bo.filetype
wait("errors", function() return #errors() == 3 end)
out.errors = vim.tbl_map(function(one) return { one.lnum, one.col, one.message } end, errors())
vim.ui.select = function(items, _, choose) choose(items[1]) end
for left = 2, 0, -1 do
  at(errors()[1].lnum + 1, errors()[1].col)
  press("gra")
  wait("correction", function() return #errors() == left end)
end
out.corrected = table.concat(vim.api.nvim_buf_get_lines(0, 0, -1, true), "\n") .. "\n"
at(2, 5)
press("K")
wait("hover", function() return #vim.api.nvim_list_wins() == 2 end)
for _, window in ipairs(vim.api.nvim_list_wins()) do
  if window ~= vim.api.nvim_get_current_win() then
    out.hover = table.concat(vim.api.nvim_buf_get_lines(vim.api.nvim_win_get_buf(window), 0, -1, true), "\n")
  end
end
out.value = ask("hover", { position = { line = 1, character = 11 } }).contents.value
at(3, 5)
press("gd")
wait("definition", function() return vim.api.nvim_win_get_cursor(0)[1] == 5 end)
press("grr")
wait("references", function() return #vim.fn.getqflist() == 4 end)
press("<C-W>p")
vim.fn.setqflist({})
press("gO")
wait("symbols", function() return #vim.fn.getqflist() + #vim.fn.getloclist(0) == 3 end)
vim.cmd("cclose | lclose | only")
at(5, 0)
vim.lsp.buf.rename("shell")
wait("rename", function() return vim.fn.getline(5):find("shell") end)
out.renamed = table.concat(vim.api.nvim_buf_get_lines(0, 0, -1, true), "\n") .. "\n"
out.refused = ask("rename", { newName = "loop" })
local offered = ask("completion", { position = { line = 2, character = 5 } })
out.completions = vim.tbl_map(function(one) return one.label end, offered)
out.omnifunc = vim.bo.omnifunc
out.folds = ask("foldingRange")
out.tokens = #ask("semanticTokens/full").data / 5
vim.fn.writefile({ vim.json.encode(out) }, "nvim.out")
vim.cmd("qall!")
"""


def check_shown(shown: dict[str, Any]) -> None:
    """Checks what both editors have shown."""
    assert shown["errors"] == [[1, 10, MESSAGES[0]], [2, 1, MESSAGES[1]], [3, 5, MESSAGES[2]]]
    assert shown["corrected"] == GOOD and shown["renamed"] == RENAMED
    assert "ADD.AB #4, $3" in shown["hover"] and "Add 4 to the B-number of the cell 3 ahead." in shown["hover"]
    assert "`step`: 4 here" in shown["value"] and "already used in line 2" in shown["refused"]
    assert {"shell", "step", "loop", "CORESIZE"} <= {*shown["completions"]}
    assert shown["folds"] == [{"startLine": 5, "endLine": 7}] and shown["tokens"] == 30


def test_neovim(share: Path) -> None:
    (share.parent / "one.red").write_text(SOURCE)
    (share.parent / "nvim").mkdir()
    # This is the line of the page for users.
    (share.parent / "nvim" / "init.lua").write_text('require("corewar").setup()\n')
    (share.parent / "all.lua").write_text(NEOVIM)
    try:
        started(share, needed("nvim", "neovim"), "--headless", "-c", "luafile all.lua")
    except AssertionError as error:
        raise AssertionError((share.parent / "nvim.out").read_text()) from error
    shown = json.loads((share.parent / "nvim.out").read_text())
    assert shown["filetype"] == "redcode" and shown["omnifunc"] == "v:lua.vim.lsp.omnifunc"
    check_shown(shown)


EMACS = r"""
(package-initialize)
(add-to-list 'load-path (expand-file-name "emacs/site-lisp" (getenv "XDG_DATA_HOME")))
(require 'redcode-mode)
(require 'eglot)
(defvar out nil)
(defmacro note (name value) `(push (cons ,name ,value) out))
(defun wait (what condition)
  (let ((end (+ (float-time) 20)))
    (while (and (not (funcall condition)) (< (float-time) end))
      (accept-process-output nil 0.02))
    (unless (funcall condition) (error "waited in vain for %s" what))))
(defun at (line column) (goto-char (point-min)) (forward-line (1- line)) (forward-char column))
(defun errors ()
  (sort (flymake-diagnostics) (lambda (a b) (< (flymake-diagnostic-beg a) (flymake-diagnostic-beg b)))))
(find-file "one.red")
(setq eglot-confirm-server-initiated-edits nil)
(apply #'eglot (eglot--guess-contact))
(flymake-start)
(wait "errors" (lambda () (= (length (errors)) 3)))
(note 'errors
      (vconcat (mapcar (lambda (one)
                         (save-excursion
                           (goto-char (flymake-diagnostic-beg one))
                           (vector (1- (line-number-at-pos)) (current-column)
                                   (replace-regexp-in-string "^.*?: " "" (flymake-diagnostic-text one)))))
                       (errors))))
(dolist (left '(2 1 0))
  (let ((one (car (errors))))
    (goto-char (flymake-diagnostic-beg one))
    (eglot-code-actions (point) (flymake-diagnostic-end one) "quickfix" t)
    (eglot--signal-textDocument/didChange)
    (wait "correction" (lambda () (= (length (errors)) left)))))
(note 'corrected (buffer-substring-no-properties (point-min) (point-max)))
(defun hover (line column name)
  (at line column)
  (let ((shown nil))
    (eglot-hover-eldoc-function (lambda (text &rest _) (setq shown (substring-no-properties text))))
    (wait name (lambda () shown))
    shown))
(note 'hover (hover 2 5 "hover"))
(note 'value (hover 2 11 "value"))
(at 3 5)
(call-interactively #'xref-find-definitions)
(wait "definition" (lambda () (= (line-number-at-pos) 5)))
(note 'references (length (xref-backend-references 'eglot (xref-backend-identifier-at-point 'eglot))))
(note 'names (vconcat (mapcar #'car (apply #'append (mapcar #'cdr (eglot-imenu))))))
(eglot-rename "shell")
(note 'renamed (buffer-substring-no-properties (point-min) (point-max)))
(eglot--signal-textDocument/didChange)
(note 'refused (condition-case failure (progn (eglot-rename "loop") "") (error (format "%s" failure))))
(at 3 5)
(let ((found (eglot-completion-at-point)))
  (note 'completions (vconcat (mapcar #'substring-no-properties (all-completions "" (nth 2 found))))))
;; eglot 1.9 itself requests neither folds nor tokens.
(defun ask (method)
  (jsonrpc-request (eglot-current-server) method (list :textDocument (eglot--TextDocumentIdentifier))))
(note 'folds (ask :textDocument/foldingRange))
(note 'tokens (/ (length (plist-get (ask :textDocument/semanticTokens/full) :data)) 5))
(with-temp-file "emacs.out" (insert (json-encode out)))
(eglot-shutdown (eglot-current-server))
"""


def test_emacs(share: Path) -> None:
    (share.parent / "one.red").write_text(SOURCE)
    (share.parent / "all.el").write_text(EMACS)
    emacs = needed("emacs", "emacs-nox")
    has_eglot = "(kill-emacs (progn (package-initialize) (if (require 'eglot nil t) 0 1)))"
    if subprocess.run([emacs, "--batch", "--eval", has_eglot], capture_output=True).returncode:
        skip("Emacs with its language client", "there is no eglot", "elpa-eglot")
    started(share, emacs, "--batch", "-l", "all.el")
    shown = json.loads((share.parent / "emacs.out").read_text())
    check_shown(shown)
    assert shown["references"] == 4 and {*shown["names"]} == {"step", "loop", "bomb"}
