"""Finds likely causes of an error by the text of its source. Each is a sentence; the likeliest comes first."""
from __future__ import annotations

import re
from collections.abc import Callable, Iterator
from decimal import Decimal
from unicodedata import name as character_name

from .sentences import Advice, Misspelt, cause_sentence, earlier
from .source import (
    ELSEWHERE,
    GLUED,
    MODIFIERS,
    NAME,
    OPCODES,
    PREDEFINED,
    Line,
    Loop,
    Place,
    Source,
    misspelt,
    most_similar,
)

# A function of the source, the line of the error, and the place that the library reports.
Cause = Callable[[Source, Line, Place | None], Iterator[Advice]]
# A comment of another language.
COMMENT = re.compile(r"//|/\*|^\s*#|,.*\w\s+#\s")
ASSIGNED = re.compile(r"\s*([A-Za-z_]\w*)\s*=\s*(\w.*)", re.ASCII)
AMPERSAND = re.compile(r"(?<!&)&(?![A-Za-z_&])(\w*)", re.ASCII)
DASHED = re.compile(r"\s*([A-Za-z_]\w*(?:-\w+)+):?(?=\s)")
# A character that no token has.
FOREIGN = re.compile(r"[^\w\0- #$@*{}<>,.+\-/%()&|=!:]", re.ASCII)
# The greatest number that is a token.
MAX_NUMBER = 2**63 - 1
OPENING = ("#", "$", "@", "{", "}", "(")


def not_ascii(source: Source, line: Line, place: Place | None) -> Iterator[Advice]:
    raw = source.data.split(b"\n")[line.number - 1].split(b";")[0]
    if line.number == 1 and raw.startswith((b"\xff\xfe", b"\xfe\xff")):
        yield cause_sentence("utf16")
    elif line.number == 1 and raw.startswith(b"\xef\xbb\xbf"):
        yield cause_sentence("mark")
    elif place:
        named = character_name(place.word, "without a name").lower()
        yield cause_sentence("not ascii", column=place.column + 1, word=place.word, named=named)


def bad_token(source: Source, line: Line, place: Place | None) -> Iterator[Advice]:
    """Says why a word or sign is no token, or is not allowed. The word may be in the definition of an EQU."""
    if place is None:
        return
    if place.word == "\\" and line.is_continued and line.number < len(source.lines):
        yield cause_sentence("backslash")
    elif FOREIGN.match(place.word):
        yield cause_sentence("foreign", word=place.word)
    elif place.word == "=" and (assigned := ASSIGNED.match(line.code)):
        yield cause_sentence("assign", word=line.code.strip(), new=f"{assigned[1]} EQU {assigned[2].rstrip()}")
    elif place.word == "&" and (alone := AMPERSAND.match(line.code, place.column)):
        yield cause_sentence("ampersand", word=alone[1])
    else:
        user = source.lines[place.number - 1]
        for why in wrong_token(source, user, place.word):
            yield why if user is line else earlier(user.number, why)


def wrong_token(source: Source, line: Line, token: str) -> Iterator[Advice]:
    """Says why a word is no token, or is not allowed in a line."""
    counters = {loop.counter for loop in source.loops_around(line.number)}
    joined_names = [name for name in token.split("&")[1:] if name not in counters]
    if token.isdecimal() and Decimal(token) > MAX_NUMBER:
        yield cause_sentence("large", word=token)
    elif token[0].isdecimal() and not token.isdecimal():
        yield cause_sentence("half number", word=token)
    elif NAME.match(token) and joined_names:
        yield cause_sentence("not counter", word=token, name=joined_names[0])
    elif token in source.equates and token != line.operation and source.equates[token] is not line:
        first = source.equates[token].number
        if first < len(source.lines) and source.lines[first].word == "EQU" and not source.lines[first].labels:
            yield cause_sentence("equ lines", word=token, line=first)


def bad_count(source: Source, line: Line, _: Place | None) -> Iterator[Advice]:
    if line.word == "FOR":
        known = cause_sentence("curline") if "CURLINE" in line.rest else ""
        yield cause_sentence("count", word="".join(line.rest), known=known)


def operation(source: Source, line: Line, _: Place | None) -> Iterator[Advice]:
    dashed, word = DASHED.match(line.code), misspelt(source, line)
    if COMMENT.search(line.code):
        yield cause_sentence("comment")
    elif dashed:
        yield cause_sentence("dashed", word=dashed[1], new=dashed[1].replace("-", "_"))
    elif word:
        yield word
    elif line.operation in source.equates:
        first = source.equates[line.operation].number
        yield cause_sentence("equate", word=line.operation, line=first)
    elif line.rest[:1] == ["."]:
        yield from modifier(source, line, "".join(line.rest[1:2]))
    elif not line.operation and (opcode := opcode_of(line)):
        yield cause_sentence("no opcode", word=opcode)


def opcode_of(line: Line) -> str:
    """Returns the word in the place of the opcode in a line without one: the label before the first operand, which may
    be read as a label, too. It is "" if that isn't clear.
    """
    first, labels = "".join(line.rest[:1]), line.labels
    if first == ",":
        return "".join(labels[-2:-1])
    return labels[-1] if len(labels) == 1 or labels and (first in OPENING or first.isdecimal()) else ""


def empty(source: Source, _line: Line, _: Place | None) -> Iterator[Advice]:
    """Looks in each line for a word that is probably meant as an opcode, also one with a name right after it that the
    source does not define.
    """
    for line in source.read_lines():
        word, found = misspelt(source, line), GLUED.match("".join(line.labels[:1]))
        if not word and found:
            word = Misspelt.of("misspelt", word=found[0], new=f"{found[1]} {found[2]}")
        if word:
            yield earlier(line.number, word)


def operand(source: Source, line: Line, _: Place | None) -> Iterator[Advice]:
    """Says why operands are missing or too many: an operand is the name of an EQU without a text, or it is an opcode,
    so that the line has two instructions.
    """
    for token in line.operands:
        if token.upper() in OPCODES and token not in source.labels():
            yield cause_sentence("opcode name", word=token)
        elif token in source.equates and not any(one.rest for one in source.equate(source.equates[token])):
            yield cause_sentence("empty equ", word=token, line=source.equates[token].number)


def modifier(source: Source, line: Line, named: str) -> Iterator[Advice]:
    for loop in source.loops_around(line.number):
        if loop.counter == named:
            yield cause_sentence("counter modifier", word=named, line=loop.head.number, new=named.swapcase())
    if named.upper() not in MODIFIERS:
        yield cause_sentence("modifier", word=named, all=", ".join(MODIFIERS))


def duplicate(source: Source, line: Line, place: Place | None) -> Iterator[Advice]:
    word, loops = misspelt(source, line), source.loops_around(line.number)
    if word:
        yield word
    if place is None or place.number != line.number:
        return
    name = place.word
    other = min((found.get(name, line) for found in (source.labels(), source.equates)), key=lambda one: one.number)
    if name in PREDEFINED:
        yield cause_sentence("predefined", word=name)
    elif other.number < line.number:
        yield taken(source, line, name, other)
    elif line.labels.count(name) > 1:
        yield cause_sentence("twice", word=name)
    elif loops:
        yield joined(name, loops)


def joined(name: str, loops: list[Loop]) -> Advice:
    """Returns how a name in loops is made distinct: by the counters of all loops around it, from the outermost one."""
    head = next((loop.head for loop in loops if not loop.counter), None)
    if head is not None:
        return cause_sentence("no counter", word=name, line=head.number)
    missing = [loop.counter for loop in loops if loop.counter not in name.split("&")[1:]]
    return cause_sentence("joined", word=name, new="&".join([name, *missing]))


def taken(source: Source, line: Line, name: str, other: Line) -> Advice:
    """Returns why an earlier line already defines a name."""
    word = misspelt(source, other)
    equ = next((one for one in other.labels[1:] if most_similar(one, ["EQU"])), "")
    if not word and equ:
        # The text after the misspelt EQU begins with an opcode, so the line was read as an instruction.
        word = Misspelt.of("misspelt", word=equ, new="EQU")
    if word:
        return earlier(other.number, word)
    if line.word == "EQU" and not other.operation:
        return cause_sentence("before equ", word=name, line=other.number)
    return cause_sentence("duplicate", word=name, line=other.number)


def syntax(source: Source, line: Line, _: Place | None) -> Iterator[Advice]:
    tokens = line.operands
    if COMMENT.search(line.code):
        yield cause_sentence("comment")
        return
    if line.word in OPCODES and tokens and tokens[0].upper() in OPCODES:
        yield cause_sentence("opcode label", word=line.operation)
        return
    yield from operand(source, line, None)
    for before, after in zip(tokens, tokens[1:]):
        if re.match(r"[\w)]", before) and (after in OPENING or re.match(r"\w", after)):
            found = re.search(rf"{re.escape(before)}\s*{re.escape(after)}", line.code)
            pair, new = found[0] if found else "", f"{before}, {after}"
            yield cause_sentence("comma", word=pair, new=new, before=before, after=after)
    for name in [one for one, after in zip([line.operation, *tokens], tokens) if after == ":" and NAME.match(one)]:
        yield cause_sentence("colon", word=f"{name}:", new=name)
    if tokens.count("(") != tokens.count(")"):
        yield cause_sentence("parentheses", opened=tokens.count("("), closed=tokens.count(")"))


def unknown(source: Source, line: Line, place: Place | None) -> Iterator[Advice]:
    """Says why a name has no value. The name may be in the definition of an EQU, which has another line."""
    if place is None or "&" in place.word:
        return
    name, user, labels = place.word, source.lines[place.number - 1], source.labels()
    if any(loop.counter == name for loop in source.loops_around(line.number)):
        yield cause_sentence("equ counter", word=name, line=user.number)
    elif name in labels:
        yield cause_sentence("assert", word=name)
    else:
        why = undefined(source, name, {**labels, **source.equates})
        yield why if user is line else earlier(user.number, why)


def undefined(source: Source, name: str, known: dict[str, Line]) -> Advice:
    """Returns why a name is undefined."""
    for loop in source.loops:
        if name in loop.head.labels:
            return cause_sentence("counter", word=name, line=loop.head.number)
    for line in source.lines:
        if line.unread and name in line.labels:
            return cause_sentence("unread", word=name, line=line.number, inner=line.unread)
    if name.upper() in OPCODES + ELSEWHERE:
        return cause_sentence("opcode name", word=name)
    near = most_similar(name, [*known, *PREDEFINED])
    if name == "PSPACESIZE":
        return cause_sentence("p-space", word=name)
    if near is None:
        return cause_sentence("undefined", word=name)
    where = cause_sentence("where", line=known[near].number) if near in known else ""
    case = cause_sentence("case") if near.lower() == name.lower() else ""
    return cause_sentence("near", word=name, new=near, case=case, where=where)


# The functions that look for the causes of an error, by its text.
CAUSES: dict[str, Cause] = {
    "1 Text 1 NotAscii": not_ascii,
    "1 Text 2 BadToken": bad_token,
    "1 Text 5 BadCount": bad_count,
    "1 Text 7 Duplicate": duplicate,
    "2 Operation": operation,
    "3 Operand": operand,
    "4 Expression 1 Syntax": syntax,
    "4 Expression 2 Unknown": unknown,
    "7 Empty": empty,
}
