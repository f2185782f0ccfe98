"""`explain --fix` replaces old and changed sources by what pMARS reads in them, or reports what it leaves."""
from __future__ import annotations

import random
import re
from pathlib import Path

import pytest
from conftest import EXAMPLES, Run
from peer import DEBIAN, listed_by, own_cells

from corewar.engine.calls import assemble
from corewar.engine.sources import read
from corewar.explain.errors import errors_of
from corewar.explain.fixes import fix
from corewar.explain.pmars import pmars_differences

# Sources in an older style, which this kit reads after `corewar explain --fix`.
OLD = {
    "a macro of several lines with a counter": """
n1    equ     37
scan  equ     sne.x 200+n*n1, 203+n*n1
      equ     seq.x 200+n*n1, 203+n*n1
      equ     mov   #n, found
n     for     4
      scan
      rof
found dat     0, 0
""",
    "the counters of two loops": """
cell  equ     dat #i*10, #j+first&i
first01 equ   3
first02 equ   5
i     for     2
j     for     first&i
      cell
      rof
      jmp     i
      rof
""",
    "two loops with one counter": """
far   equ     (i*100+7)
i     for     2
      mov     far, <far
      rof
      nop     0, 0
i     for     3
      spl     far
      rof
""",
    "an EQU of an EQU": """
base  equ     (k*k)
step  equ     base+base
twice equ     add #step, step
      equ     sub #base, 1
k     for     3
      twice
      rof
""",
    "counts below 0": """
start mov     0, 1
      for     1-CURLINE
      dat     7, 7
      rof
pad   for     (9-20)/2
      dat     8, 8
      rof
      for     8-CURLINE
      dat     9, 9
      rof
      jmp     start
""",
    "labels in counts, and counters like modifiers": """
first mov.i   0, 1
last  jmp     first
i     for     last-first+1
      mov.i   i, @i
      rof
a b   for     2
      add.b   #a, b
      rof
b     dat     0, 0
""",
    "asserts that pMARS skips": """
;assert start > -1
;assert
start spl     0, <-10
      mov     0, 1
""",
    "prose": """
      for     0
Strategy: for those who want to know
it waits: for an imp
mov for all
      rof
      mov     0, 1
""",
    "lines that go on": """
x y   equ     5
      add     #x, \\
              y
z     mov     1, 2
last z mov    2, 3
      jmp     z, last
""",
    "names with joined counters": """
to    equ     jmp >-p&i*2, {base&i
base01 equ    10
base02 equ    20
i     for     2
p&i   to
      rof
""",
    "labels that are later EQU names": """
start spl     0, <-10
size  mov     0, size
size  equ     mov     5, 6

      equ     mov     7, 8
top   size
start equ     8
      jmp     start, top
      equ     9
""",
    "a counter of an inner loop": """
far   equ     mov     n, i*10+n

; The next line belongs to it.
      equ     spl     far&i
far01 equ     30
far02 equ     40
      for     2
n     for     2
i     for     n
      far
      rof
      rof
      rof
""",
    "a loop that ends in prose": """
      for     0
end of it, and for me
      rof
last  mov     0, last
last  jmp     last
""",
    "counts of inner loops": """
many  equ     (3-i)
i     for     2
j     for     many
      dat     i, j
      rof
      rof
""",
}


@pytest.mark.parametrize("name", OLD)
def test_sources_in_an_older_style(pmars: Path, tmp_path: Path, run: Run, name: str) -> None:
    """Both programs read in a fixed source the cells that pMARS reads in the old source."""
    old, new = tmp_path / "old.red", tmp_path / "new.red"
    old.write_text(f";redcode{OLD[name]}")
    done = run("explain", "--fix", old)
    assert done.returncode == 0, done.stderr
    new.write_text(done.stdout)
    cells = listed_by(pmars, old)
    assert cells and listed_by(pmars, new) == cells == own_cells(read(new))


def test_a_source_of_debian_in_an_older_style(pmars: Path, tmp_path: Path, run: Run) -> None:
    (tmp_path / "aeka.red").write_text(run("explain", "--fix", DEBIAN / "aeka.red").stdout)
    cells = own_cells(read(tmp_path / "aeka.red"))
    assert len(cells) == 100 and cells == listed_by(pmars, DEBIAN / "aeka.red")


# Lines that both programs read differently, or that only one of them accepts.
LINES = """
i for 2|rof|for 0|for 3-CURLINE|n for last-first|text and for all|it waits: for ever|a b equ 2|x|x rof|end of it|end 1
org 0|org|org 1|far equ i*2|q&i dat 0|r equ A&q|equ 5|one equ 1-2*3+4|two equ 2, 3|op equ dat|op equ dat 5|op|op 3
dat 5|dat one|dat two|cmp 0, 1|seq 0, 1|; assert 1|; assert 0|;assert VERSION > 90|;assert|;assert first|;redcode
; redcode|mov 0, VERSION|mov 0, 1 2|mov.i i, i|mov 2>1-2>1, 1|mov 1, 3==3*2<5|mov !1-!3*5-5, 1|jmp 3-1*2==3|pin 3
mov 0, one*one-one+1|ldp 0, 1|nop 0, \\|first|last|i|n equ 3|mov <0, #2|jmp first, <last|for n|mov n, k|spl 0|;name x
; name x|start mov 0, i|i equ i*3|k for i|x&k spl x&k, i|z equ z&k+1|;assert 1-2*3+4 < 0|n for 1-2*3+9
"""
POOL = [line for line in re.split(r"[|\n]", LINES) if line]
# The number of changed sources.
NUMBER = 500


def mutated(dice: random.Random, text: str, others: list[str]) -> str:
    """Returns a source with one to four changes."""
    lines = text.splitlines()
    for _ in range(dice.randint(1, 4)):
        at, way = dice.randrange(len(lines)), dice.randrange(7)
        words = re.findall(r"\w+|\s+|.", lines[at])
        if way == 0:
            lines[at : at + 1] = []
        elif way == 1:
            lines.insert(dice.randrange(len(lines)), lines[at])
        elif way in (2, 3):
            lines.insert(at, dice.choice(POOL))
        elif way == 4 and words:
            words[dice.randrange(len(words))] = dice.choice(re.findall(r"\w+|[^\w\s]", dice.choice(others)) or ["1"])
            lines[at] = "".join(words)
        elif way == 5 and words:
            del words[dice.randrange(len(words))]
            lines[at] = "".join(words)
        else:
            lines[at] = f"{dice.choice(re.findall('[a-z]+', text) or ['x'])} {lines[at]}"
        lines = lines or ["nop 0"]
    return "\n".join([*lines, ""])


def sources(seed: int, number: int) -> list[str]:
    dice, bases = random.Random(seed), [f";redcode{text}" for text in OLD.values()]
    bases += [file.read_text() for file in sorted(EXAMPLES.glob("*.red"))]
    return [mutated(dice, dice.choice(bases), bases) for _ in range(number)]


def test_changed_sources(pmars: Path, tmp_path: Path) -> None:
    """If a fixed source has no error and no note, both programs read in it the cells and the start that pMARS reads in
    the changed source.
    """
    file, compared = tmp_path / "changed.red", 0
    for text in sources(94, NUMBER):
        fixed = fix(text.encode(), assemble)
        if [*errors_of(fixed, assemble)] or pmars_differences(fixed, assemble):
            continue
        file.write_text(text)
        if cells := listed_by(pmars, file):
            file.write_bytes(fixed)
            assert own_cells(assemble(fixed)) == cells == listed_by(pmars, file), text
            compared += 1
    assert compared > NUMBER // 4
