"""Tests the rules of the translator: its C gives the numbers that LLVM's code gives, and edits of it are noticed."""
from __future__ import annotations

import ctypes
import random
import shutil
import subprocess
import sys
from importlib import import_module
from pathlib import Path
from typing import Any

import pytest
from conftest import TOP
from llvm_rules import RULES, module

sys.path.insert(0, str(TOP / "dev"))
from machine import toolchain  # noqa: E402
from translator.reading import CannotTranslate, unescaped  # noqa: E402
from translator.writing import Translator  # noqa: E402

EDGES = [
    0,
    1,
    2,
    3,
    127,
    128,
    255,
    256,
    32767,
    65535,
    2**31 - 1,
    2**31,
    2**32 - 1,
    2**32,
    2**63 - 1,
    2**63,
    2**64 - 1,
]
DICE = random.Random(5)
PAIRS = [(a, b) for a in EDGES for b in EDGES] + [(DICE.getrandbits(64), DICE.getrandbits(64)) for _ in range(200)]
BEFORE = (TOP / "packaging" / "portable" / "before.c").read_text()
HEAP = (TOP / "packaging" / "portable" / "heap.c").read_text()


def built(command: list[str], source: Path) -> Any:
    """Compiles a source as a shared library, and loads it."""
    shared = source.with_suffix(".so")
    subprocess.run([*command, "-shared", "-fPIC", "-o", str(shared), str(source)], check=True)
    return ctypes.CDLL(str(shared))


def numbers(library: Any, rules: dict[str, str]) -> dict[str, list[int]]:
    """Returns what the function of each rule gives for each pair."""
    found = {}
    for number, name in enumerate(rules):
        function = getattr(library, f"f{number}")
        function.argtypes, function.restype = [ctypes.c_uint64] * 2, ctypes.c_uint64
        found[name] = [function(*pair) for pair in PAIRS]
    return found


def translated(
    folder: Path, rules: dict[str, str], *options: str, before: str = BEFORE, translator: type[Any] = Translator
) -> dict[str, list[int]]:
    """Returns what the translated functions give."""
    names = [f"f{number}" for number in range(len(rules))]
    after = "".join(f"u64 {name}(u64 a, u64 b) {{ return x_{name}(a, b); }}\n" for name in names)
    source = folder / "translated.c"
    source.write_text(translator(module(rules), names).text(before, HEAP, after))
    return numbers(built(["gcc", "-O1", "-w", *options, f"-I{TOP}/crates/mars_c/include"], source), rules)


def only(rule: str) -> dict[str, str]:
    """Returns a rule, with that of the type that the heap returns."""
    return {name: RULES[name] for name in (rule, "struct")}


@pytest.fixture(scope="module")
def expected(tmp_path_factory: pytest.TempPathFactory) -> dict[str, list[int]]:
    """What LLVM's code gives."""
    source = tmp_path_factory.mktemp("llvm") / "rules.ll"
    source.write_text(module(RULES))
    clang = f"{toolchain()}/toolchain/bin/clang"
    return numbers(
        built([clang, "--no-default-config", "-nostdlib", "-w", "-O0", "-fuse-ld=lld", "-x", "ir"], source), RULES
    )


@pytest.mark.parametrize("options", ([], ["-DMARS_ANY_ENDIAN"]))
def test_rules(tmp_path: Path, expected: dict[str, list[int]], options: list[str]) -> None:
    found = translated(tmp_path, RULES, *options)
    assert {name for name in RULES if found[name] != expected[name]} == set()


@pytest.mark.parametrize(
    "old, new, rule",
    [
        ("wide(0 - (a.high >> 63), a.high)", "wide(0, a.high)", "ashr i128"),
        ("a.high - b.high - (a.low < b.low)", "a.high - b.high", "sub i128"),
        ("a.high + b.high + (low < a.low)", "a.high + b.high", "add i128"),
        ("high + a.high * b.low + a.low * b.high", "high", "mul i128"),
        ("u64 sign = 0 - (a.high >> 63)", "u64 sign = 0", "add i256 of sext"),
        ("add128(add128(a.high, b.high), carry)", "add128(a.high, b.high)", "add i256 of sext"),
        ("carry = sum.high", "carry = 0", "mul i256 of zext"),
        ("? (u64)__builtin_ctzll(v) : 64", "? (u64)__builtin_ctzll(v) : 63", "cttz i64"),
        ("? (u64)__builtin_clzll(v) : 64", "? (u64)__builtin_clzll(v) : 63", "ctlz i64"),
        ("(u8)(v.b[i] ^ 128) < (u8)(w.b[i] ^ 128)", "v.b[i] < w.b[i]", "slt vector"),
    ],
)
def test_another_part_is_noticed(tmp_path: Path, expected: dict[str, list[int]], old: str, new: str, rule: str) -> None:
    assert BEFORE.count(old) == 1
    assert translated(tmp_path, only(rule), before=BEFORE.replace(old, new))[rule] != expected[rule]


@pytest.mark.parametrize(
    "file, old, new, rule",
    [
        ("instructions", '"ult": "<",', '"ult": "<=",', "ult i32"),
        ("instructions", '"slt": "<",', '"slt": "<=",', "slt i8"),
        ("instructions", '"!slt128({1}, {0})"', '"slt128({0}, {1})"', "sle i128"),
        ("instructions", '"or": "|"', '"or": "^"', "or i16"),
        ("instructions", '"urem": "%"', '"urem": "/"', "urem i64"),
        ("instructions", '"srem": "%"', '"srem": "/"', "srem i32"),
        ("instructions", '({value}) & 1" if found[3] == "i1"', '({value})" if found[3] == "i1"', "trunc to i1"),
        ("instructions", "(uintptr_t)({a}) {UNSIGNED[how]} (uintptr_t)", "(intptr_t)({a}) < (intptr_t)", "ult ptr"),
        ("instructions", "(u64)(uintptr_t)", "(u32)(uintptr_t)", "ptrtoaddr"),
        ("instructions", "case {self.value(found[1], number)}:", "case {number}:", "switch i8"),
        ("instructions", "{self.local(names[0])} = {self.zero(kind)};", ";", "cleared, 8 of 8 bytes"),
        ("instructions", 'names[1] == "0" and names[2].isdigit()', "names[2].isdigit()", "memset of a byte"),
        ("instructions", 'self.store("i8", names[0], self.load("i8", names[1]))', '";"', "memmove 1"),
        (
            "instructions",
            "[names[1]], names[0], self.load(kind, names[1])",
            "[names[1]], names[0], '0'",
            "copied to bytes",
        ),
        ("values", "at = (at + size - 1) // size * size", "at = at", "padding"),
        ("values", 'str(int(text == "true"))', '"0"', "true"),
        ("values", "{number >> 64}", "{number >> 65}", "i128"),
        ("values", "int(text) % (1 << BITS[kind])", "abs(int(text))", "negative i16"),
        ("values", "(u8 *)0", "(u8 *)1", "null"),
        ("writing", "self.size_of(found[1]) == size", "True", "half of a place"),
        ("writing", "cleared and int(cleared[2]) == size", "cleared", "cleared, 3 of 8 bytes"),
        ("writing", "copied and int(copied[3]) == size and", "copied and", "copied, 3 of 8 bytes"),
    ],
)
def test_an_edit_is_noticed(
    tmp_path: Path,
    expected: dict[str, list[int]],
    monkeypatch: pytest.MonkeyPatch,
    file: str,
    old: str,
    new: str,
    rule: str,
) -> None:
    edited = shutil.copytree(TOP / "dev" / "translator", tmp_path / "translator") / f"{file}.py"
    text = edited.read_text()
    assert text.count(old) == 1
    edited.write_text(text.replace(old, new))
    for name in [name for name in sys.modules if name.split(".")[0] == "translator"]:
        monkeypatch.delitem(sys.modules, name)
    monkeypatch.syspath_prepend(tmp_path)
    translator = import_module("translator.writing").Translator
    assert translated(tmp_path, only(rule), translator=translator)[rule] != expected[rule]


@pytest.mark.parametrize(
    "text",
    [
        "%r = select i1 true, i64 %a0, i64 %a1\n",
        "%r = freeze i64 %a0\n",
        "%r = ashr i64 %a0, 3\n",
        "%v = zext i64 %a0 to i128\n%w = lshr i128 %v, 3\n%r = trunc i128 %w to i64\n",
        "%v = trunc i64 %a0 to i24\n%r = zext i24 %v to i64\n",
        "%r = call i64 @unknown(i64 %a0)\n",
        "%p = alloca i64, i64 %a0, align 8\n%r = load i64, ptr %p, align 8\n",
    ],
)
def test_what_is_unknown_is_rejected(text: str) -> None:
    with pytest.raises(CannotTranslate):
        Translator(module({"unknown": text}), ["f0"]).text("", "", "")


def test_bytes_of_constants() -> None:
    """A byte is a backslash with two digits, or itself; a backslash is two."""
    assert unescaped(r"[d\\\5C\00\22\FF?") == b'[d\\\\\0"\xff?'
