"""Parses the terms and the patterns of definitions."""
from __future__ import annotations

import ast
from collections.abc import Sequence

from .terms import (
    Apply,
    Constructed,
    Elim,
    Every,
    Field,
    If,
    Lambda,
    Let,
    Name,
    Number,
    Parts,
    Pattern,
    Record,
    Some,
    Term,
    Text,
    Tuple,
    Variable,
)
from .words import NotReadable, Word

# How tightly each operator binds, as the libraries declare it, and to which side equal ones group.
OPERATORS = {
    "→": (-1, "right"),
    "↔": (0, "none"),
    "⊎": (1, "right"),
    "×": (2, "right"),
    "≡": (4, "none"),
    "≢": (4, "none"),
    "≤": (4, "none"),
    "<": (4, "none"),
    "+ℤ": (6, "left"),
    "-ℤ": (6, "left"),
    "*ℤ": (7, "left"),
    ">>=": (10, "left"),
    "||": (30, "left"),
    "&&": (35, "left"),
    "==": (40, "none"),
    "+": (65, "left"),
    "-": (65, "left"),
    "++": (65, "left"),
    "∷": (67, "right"),
    "*": (70, "left"),
    "/": (70, "left"),
    "%": (70, "left"),
    "^": (75, "right"),
}
# Words that end a term.
ENDS = {"then", "else", "in", "[", "]", "|", "↦", "=", "←", ":", "where", "as", *OPERATORS}
NO_WORD = Word("", "end", 0, 0, False)


class Parser:
    """Parses some words of a file."""

    def __init__(self, words: Sequence[Word]) -> None:
        self.words, self.at = words, 0

    @property
    def next(self) -> Word:
        """Returns the next word, or one without text at the end."""
        return self.words[self.at] if self.at < len(self.words) else NO_WORD

    def look(self, distance: int) -> str:
        """Returns the text of a later word."""
        return self.words[self.at + distance].text if self.at + distance < len(self.words) else ""

    def take(self, text: str | None = None) -> Word:
        """Takes the next word, which must have this text if one is given."""
        word = self.next
        if word is NO_WORD or text is not None and word.text != text:
            raise NotReadable(f"line {word.line}: {text or 'a word'} is expected, not {word.text or 'the end'}")
        self.at += 1
        return word

    def has(self, text: str) -> bool:
        """Takes the next word if it has this text, and returns whether it has."""
        is_there = self.next.text == text and self.next.kind != "text"
        self.at += is_there
        return is_there

    # ---- Terms

    def whole_term(self) -> Term:
        """Parses all words as one term."""
        term = self.term()
        if self.next is not NO_WORD:
            raise NotReadable(f"line {self.next.line}: unexpected {self.next.text}")
        return term

    def term(self, least: int = -1) -> Term:
        """Parses a term whose operators bind at least as tightly as `least`."""
        left = self.binder() or self.prefix()
        while self.next.text in OPERATORS and self.next.kind == "name":
            tightness, side = OPERATORS[self.next.text]
            if tightness < least:
                break
            operator = self.take().text
            right = self.term(tightness if side == "right" else tightness + 1)
            left = Apply(Name(f"◌{operator}◌"), (left, right))
        return left

    def binder(self) -> Term | None:
        """Parses `(x y : A) → B`, `{x y : A} → B` or `(x : A) × B`. Returns None if none of them is next."""
        names, distance = [], 1
        while self.look(distance) not in {":", ""} and self.look(0) in {"(", "{"}:
            if self.words[self.at + distance].kind != "name":
                return None
            names.append(self.look(distance))
            distance += 1
        if not names or self.look(distance) != ":":
            return None
        self.at += distance + 1
        domain = self.term()
        self.take("}" if self.words[self.at].text == "}" else ")")
        if self.has("×"):
            return Some(tuple(names), domain, self.term(2))
        self.has("→")
        return Every(tuple(names), domain, self.term())

    def prefix(self) -> Term:
        """Parses an operand of an operator: a term that begins with a keyword, or an application."""
        word = self.next
        if word.kind == "name":
            if word.text in {"λ", "let", "if", "do"}:
                return {"λ": self.function, "let": self.binding, "if": self.condition, "do": self.steps}[word.text]()
        head = self.elimination() if word.text == "elim" and word.kind == "name" else self.atom()
        arguments = []
        while self.begins_atom():
            if self.next.text in {"λ", "let", "do"}:
                arguments.append(self.prefix())
                break
            if self.next.text == "{":
                self.skip_braces()
            else:
                arguments.append(self.elimination() if self.next.text == "elim" else self.atom())
        return Apply(head, tuple(arguments)) if arguments else head

    def begins_atom(self) -> bool:
        """Returns whether the next word begins an argument."""
        word = self.next
        if word.kind == "mark":
            return word.text in {"(", "{"}
        return word is not NO_WORD and (word.kind != "name" or word.text not in ENDS)

    def skip_braces(self) -> None:
        """Skips an implicit argument, which has no value."""
        self.take("{")
        while not self.has("}"):
            self.take()

    def atom(self) -> Term:
        """Parses a word, brackets or a record, and the fields after it."""
        word = self.take()
        term: Term
        if word.kind == "number":
            term = Number(int(word.text.replace("_", ""), 0))
        elif word.kind == "text":
            term = Text(ast.literal_eval(word.text))
        elif word.text == "(":
            term = self.brackets()
        elif word.text == "record":
            term = self.record()
        elif word.kind == "name" and word.text not in ENDS:
            term = Name(word.text)
        else:
            raise NotReadable(f"line {word.line}: unexpected {word.text}")
        while self.next.text == "." and self.next.is_joined and self.at + 1 < len(self.words):
            if not self.words[self.at + 1].is_joined or self.words[self.at + 1].kind == "mark":
                break
            self.take()
            term = Field(term, self.take().text)
        return term

    def brackets(self) -> Term:
        """Parses what follows an opening bracket: a term, or the items of a tuple."""
        items = [self.term()]
        while self.has(","):
            items.append(self.term())
        self.take(")")
        return Tuple(tuple(items)) if len(items) > 1 else items[0]

    def record(self) -> Term:
        """Parses what follows `record`: the record that it changes, if there is one, and the fields in braces."""
        base = None if self.next.text == "{" else self.atom()
        fields = []
        self.take("{")
        while not self.has("}"):
            name = self.take().text
            self.take("=")
            fields.append((name, self.term()))
            self.has(";")
        return Record(base, tuple(fields))

    def function(self) -> Term:
        """Parses `λ x y. body`."""
        self.take("λ")
        patterns = []
        while not self.has("."):
            patterns.append(self.pattern_atom())
        return Lambda(tuple(patterns), self.term())

    def binding(self) -> Term:
        """Parses `let x = value in body`."""
        self.take("let")
        pattern = self.pattern_atom()
        if self.has(":"):
            self.term()
        self.take("=")
        value = self.term()
        self.take("in")
        return Let(pattern, value, self.term())

    def condition(self) -> Term:
        """Parses `if test then one else other`."""
        self.take("if")
        test = self.term()
        self.take("then")
        one = self.term()
        self.take("else")
        return If(test, one, self.term(5))

    def steps(self) -> Term:
        """Parses a `do` block: each step is `pattern ← term`, and the last one a term. `>>=` joins the steps."""
        self.take("do")
        margin, lines = self.next.column, list[list[Word]]()
        for word in self.words[self.at :]:
            if not lines or word.column == margin and word.line != lines[-1][-1].line:
                lines.append([])
            lines[-1].append(word)
        self.at = len(self.words)
        result = Parser(lines[-1]).whole_term()
        for line in reversed(lines[:-1]):
            step = Parser(line)
            pattern = step.pattern_atom()
            step.take("←")
            result = Apply(Name("◌>>=◌"), (step.whole_term(), Lambda((pattern,), result)))
        return result

    def elimination(self) -> Term:
        """Parses `elim value [ pattern ↦ term | .. ]`."""
        self.take("elim")
        value, cases = self.atom(), []
        self.take("[")
        self.has("|")
        while not self.has("]"):
            pattern = self.pattern()
            self.take("↦")
            cases.append((pattern, self.term()))
            self.has("|")
        return Elim(value, tuple(cases))

    # ---- Patterns

    def pattern(self) -> Pattern:
        """Parses a pattern: `x ∷ xs`, a constructor with the patterns of its values, or an atom."""
        first = self.pattern_atom()
        parts = []
        while self.next.kind in {"name", "mark"} and self.next.text not in {*ENDS, ")", ",", "."}:
            parts.append(self.pattern_atom())
        if parts:
            first = Constructed(self.named(first), tuple(parts))
        if self.has("∷"):
            return Constructed(Name("◌∷◌"), (first, self.pattern()))
        return first

    def named(self, pattern: Pattern) -> Term:
        """Returns the constructor that a pattern names."""
        if isinstance(pattern, Variable):
            return Name(pattern.name)
        if isinstance(pattern, Constructed) and not pattern.parts:
            return pattern.constructor
        raise NotReadable(f"line {self.next.line}: a constructor is expected")

    def pattern_atom(self) -> Pattern:
        """Parses a name, a constructor without values, or a pattern in brackets, in which a type is skipped."""
        if self.has("("):
            parts = [self.pattern()]
            if self.has(":"):
                self.term()
            while self.has(","):
                parts.append(self.pattern())
            self.take(")")
            return Parts(tuple(parts)) if len(parts) > 1 else parts[0]
        word = self.take()
        if word.kind != "name":
            raise NotReadable(f"line {word.line}: {word.text} is no pattern")
        if self.next.text == "." and self.next.is_joined and self.words[self.at + 1].is_joined:
            self.take()
            return Constructed(Field(Name(word.text), self.take().text), ())
        return Variable(word.text)
