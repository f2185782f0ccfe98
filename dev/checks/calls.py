#!/usr/bin/env python3
"""Prints the public calls with their contracts, in short or as a whole.

usage: dev/checks/calls.py [CRATE..]
       dev/checks/calls.py --contracts

The first form prints a line for each call of the seven libraries and of the C library: the call, its file and line, the
labels of its clauses (a contract with one clause may have none), and the definitions of specs/ that they cite, as
FILE.NAME. The second form prints the whole contracts, and the values that the public types have in them.
docs/dev/CONTRACTS.txt records the output of the second form. `dev/checks/rules` compares the two, so that a change of a
contract is a change of that file.
"""
from __future__ import annotations

import glob
import os
import re
import sys
import textwrap
from collections.abc import Iterator
from dataclasses import dataclass

TOP = os.path.abspath(os.path.join(os.path.dirname(__file__), "..", ".."))
CRATES = ["mars_cell", "redcode_text", "redcode_asm", "mars_core", "mars_session", "mars_match", "mars_app", "mars_c"]
BLOCK = re.compile(r"^(?:impl(?:<[^>]*>)?|pub trait) (\w+)(?:<[^>]*>)? \{\n(.*?)^\}", re.M | re.S)
# A clause has braces, up to three deep; a `;` ends a head only outside of them.
CLAUSES = r"\{(?:[^{}]|\{(?:[^{}]|\{[^{}]*\})*\})*\}"
HEAD = re.compile(
    rf'^( *)(?:pub )?(?:const )?(?:extern "C" )?fn (\w+)[<(](?:[^{{}};]|{CLAUSES}|;(?!$))*?(?:^\1\{{|;$)', re.M | re.S
)
IMPL = re.compile(r"^(impl(?:<[^>]*>)? \w+ for (\w+)(?:<[^>]*>)?) \{\n(.*?)^\}", re.M | re.S)
GHOST = re.compile(r"^    ghost \w+ = \{.*(?:\};|(?:\n     .*)*\n    \}.*)\n", re.M)
CLAUSE = re.compile(r"^ +ensures(?: (\w+))? \{", re.M)
CITED = re.compile(r"ghost use Rattle\.(\w+)\.specs\.([\w.]+)\.\{(.*?)\};", re.S)


@dataclass
class Call:
    """A public call.

    - `place`: its file, below the crate, and its line
    - `head`: its source up to the body, with the contract
    - `ensures`: whether the contract promises anything
    - `labels`, `definitions`: the labels of its clauses, and the definitions that its clauses cite, as FILE.NAME
    """

    name: str
    place: str
    head: str
    ensures: bool
    labels: list[str]
    definitions: list[str]


def cited(text: str) -> dict[str, str]:
    """Returns the definitions of our crates that a file imports, as FILE.NAME, by their names in that file."""
    found = {}
    for crate, file, names in CITED.findall(text):
        if crate in CRATES and not file.startswith("declared"):
            for name in names.split(","):
                own, _, alias = name.strip().partition(" as ")
                found[alias or own] = f"{file}.{own}"
    return found


def calls_of(
    path: str, text: str, block: str, start: int, owner: str, wanted: set[str] | None = None
) -> Iterator[Call]:
    """Yields the calls in a block, which begins at the index `start` of a file's text: all if `wanted` is None,
    otherwise the public ones with these names.
    """
    names = cited(text)
    for head in HEAD.finditer(block):
        public = "pub " in head[0].split("fn ")[0] or wanted is None
        if not public or wanted is not None and head[2] not in wanted:
            continue
        line = text.count("\n", 0, start + head.start()) + 1
        contract = head[0]
        used = sorted({names[word] for word in re.findall(r"[\w']+", contract) if word in names})
        labels = [label for label in CLAUSE.findall(contract) if label]
        yield Call(f"{owner}{head[2]}", f"{path}:{line}", contract, "ensures" in contract, labels, used)


def sources(crate: str) -> Iterator[tuple[str, str]]:
    """Yields the source files of a crate, each with its text."""
    folder = os.path.join(TOP, "crates", crate)
    for path in sorted(glob.glob(os.path.join(folder, "src", "**", "*.rt"), recursive=True)):
        yield os.path.relpath(path, folder), open(path).read()


def exported(crate: str) -> dict[str, str]:
    """Returns the names that the root of a crate exports, each with the module that it comes from."""
    lib = dict(sources(crate))["src/lib.rt"]
    named = {
        name: module.replace("::", "/")
        for module, names in re.findall(r"^pub use ([\w:]+)::(\{[^}]*\}|\w+);", lib, re.M)
        for name in re.findall(r"\w+", names)
    }
    return named | {"laws": "laws"} if "pub mod laws;" in lib else named


def public_calls(crate: str) -> Iterator[Call]:
    """Yields each public call of a crate: its functions, and the methods of its types and traits."""
    names = exported(crate)
    for path, text in sources(crate):
        module = path[len("src/") : -len(".rt")]
        if module == "laws" or module.split("/")[0] == "exports":
            wanted = set(re.findall(r"^pub (?:extern \"C\" )?fn (\w+)", text, re.M))
        else:
            wanted = {name for name, home in names.items() if home == module}
        # The text without methods, which are found by their blocks below. Its length stays, so that lines are counted.
        functions = re.sub(r"^    .*fn ", lambda found: found[0].replace("fn ", "__ "), text, flags=re.M)
        yield from calls_of(path, text, functions, 0, "laws::" if module == "laws" else "", wanted)
        for block in BLOCK.finditer(text):
            if block[1] in names:
                is_trait = block[0].startswith("pub trait")
                for call in calls_of(path, text, block[2], block.start(2), f"{block[1]}::"):
                    if is_trait or "pub " in call.head.split("fn ")[0]:
                        yield call


def values(crate: str) -> Iterator[str]:
    """Yields for each public type the value that contracts see in it, and its invariant."""
    names = exported(crate)
    for path, text in sources(crate):
        for impl, name, body in IMPL.findall(text):
            ghosts = "".join(GHOST.findall(body))
            if name in names and ghosts:
                yield f"-- {name} ({crate}/{path})\n{impl}\n{ghosts}"


def contracts() -> str:
    """Returns the values of the public types and the whole contract of each public call, crate by crate."""
    parts: list[str] = []
    for crate in CRATES:
        parts += values(crate)
        for call in public_calls(crate):
            file = call.place.split(":")[0]
            contract = textwrap.dedent(call.head).removesuffix("{").rstrip().removesuffix(";")
            parts.append(f"-- {call.name} ({crate}/{file})\n{contract}\n")
    return "\n".join(parts)


def main() -> None:
    if sys.argv[1:] == ["--contracts"]:
        print(contracts(), end="")
        return
    crates = sys.argv[1:] or CRATES
    if set(crates) - set(CRATES):
        sys.exit(__doc__)
    for crate in crates:
        print(crate)
        for call in public_calls(crate):
            print(f"  {call.name}  {call.place}  {', '.join(call.labels) or '-'}  {', '.join(call.definitions) or '-'}")


if __name__ == "__main__":
    main()
