"""Reads expressions as this kit does and as pMARS does, whose order of operations sometimes differs."""
from __future__ import annotations

import re
from collections.abc import Sequence
from typing import NamedTuple, TypeAlias

from .source import TOKEN

# A tree whose leaves are names and numbers.
Tree: TypeAlias = "str | Signed | Binary"
LEVELS = ["||", "&&", "== != < > <= >=", "+ -", "* / %"]
PRECEDENCES = {operator: level for level, operators in enumerate(LEVELS, 1) for operator in operators.split()}
# The most tokens of an expression that is read: pMARS cuts lines of more than 255 characters.
MAX_TOKENS = 200


class Signed(NamedTuple):
    """An operand after a sign."""

    sign: str
    operand: Tree


class Binary(NamedTuple):
    """An operator with both operands."""

    operator: str
    left: Tree
    right: Tree


class Reader:
    """Reads the tokens of an expression: by precedence, then from left to right."""

    def __init__(self, tokens: Sequence[str]) -> None:
        self.tokens, self.at = [*tokens, ""], 0

    def read(self) -> Tree | None:
        """Returns the tree of the expression, or None if the tokens are no expression."""
        try:
            tree = self.whole()
        except ValueError:
            return None
        return tree if self.at == len(self.tokens) - 1 else None

    def next(self) -> str:
        self.at += 1
        return self.tokens[self.at - 1]

    def whole(self) -> Tree:
        return self.chain(1)

    def chain(self, level: int) -> Tree:
        """Reads operands and the operators between them, as long as their precedence is this one or higher."""
        tree = self.operand()
        while PRECEDENCES.get(self.tokens[self.at], 0) >= level:
            operator = self.next()
            tree = Binary(operator, tree, self.chain(PRECEDENCES[operator] + 1))
        return tree

    def operand(self) -> Tree:
        token = self.next()
        if token == "(":
            tree = self.whole()
            if self.next() != ")":
                raise ValueError(token)
            return tree
        if token in ("+", "-", "!"):
            return Signed(token, self.operand())
        if not re.match(r"\w", token):
            raise ValueError(token)
        return token


class PmarsReader(Reader):
    """Reads the tokens of an expression as `eval` of pMARS does: an operator that was read too early is saved, and
    sometimes lost.
    """

    saved = ""

    def whole(self) -> Tree:
        return self.part(-1, None, "")

    def part(self, bound: int, left: Tree | None, operator: str) -> Tree:
        """Reads the right side of an operator and what follows.

        - `bound`: the precedence of the operator before this one, or -1 if there is none
        - `left`, `operator`: the left side and the operator; None and "" at the beginning of an expression
        """
        right = self.operand()
        tree = right if left is None else Binary(operator, left, right)
        if self.tokens[self.at] in ("", ")"):
            return tree
        following, own, self.saved = self.next(), PRECEDENCES.get(operator, 0), ""
        if following not in PRECEDENCES:
            raise ValueError(following)
        other = PRECEDENCES[following]
        if own >= other:
            if other >= bound or own <= bound:
                return self.part(own, tree, following)
            self.saved = following
            return tree
        right = self.part(own, right, following)
        tree = right if left is None else Binary(operator, left, right)
        # pMARS gives `==` the number 0, which also stands for no saved operator.
        if self.saved not in ("", "==") and PRECEDENCES[self.saved] >= bound:
            tree = self.part(other, tree, self.saved)
            self.saved = ""
        return tree


READERS = (Reader, PmarsReader)


def regrouped(tokens: Sequence[str]) -> str | None:
    """Returns an expression with parentheses that give it the order of pMARS if this kit computes it in another order;
    None if only pMARS rejects it; otherwise "", also if it has more than MAX_TOKENS.
    """
    ours = Reader(tokens).read() if len(tokens) <= MAX_TOKENS else None
    if ours is None:
        return ""
    theirs = PmarsReader(tokens).read()
    if theirs is None:
        return None
    if comparable(ours) == comparable(theirs):
        return ""
    short = written(theirs, is_short=True)
    is_same = all(comparable(reader(TOKEN.findall(short)).read() or "") == comparable(theirs) for reader in READERS)
    return short if is_same else written(theirs)


def is_read(tokens: Sequence[str]) -> bool:
    """Returns whether pMARS reads an expression; one of more than MAX_TOKENS is taken to be read."""
    return len(tokens) > MAX_TOKENS or PmarsReader(tokens).read() is not None


def written(tree: Tree, is_short: bool = False) -> str:
    """Returns the text of a tree, with parentheses around each operation within another, so that both programs read it
    in the same way. A short text has none around products.
    """

    def nested(inner: Tree) -> str:
        text = written(inner, is_short)
        is_open = not isinstance(inner, Binary) or is_short and inner.operator in ("*", "/", "%")
        return text if is_open else f"({text})"

    if isinstance(tree, Binary):
        return nested(tree.left) + tree.operator + nested(tree.right)
    return tree.sign + nested(tree.operand) if isinstance(tree, Signed) else tree


def comparable(tree: Tree) -> object:
    """Returns a value that is equal for trees that differ only in the order of sums, of `&&` or of `||`."""
    if isinstance(tree, str):
        return tree
    if isinstance(tree, Signed):
        return tree.sign, comparable(tree.operand)
    if tree.operator in ("+", "-"):
        return "+", *terms(tree, True)
    if tree.operator in ("&&", "||"):
        return tree.operator, *sides(tree, tree.operator)
    return tree.operator, comparable(tree.left), comparable(tree.right)


def terms(tree: Tree, is_added: bool) -> list[object]:
    """Returns the terms of a sum, each with whether it is added."""
    if not isinstance(tree, Binary) or tree.operator not in ("+", "-"):
        return [(is_added, comparable(tree))]
    return terms(tree.left, is_added) + terms(tree.right, is_added == (tree.operator == "+"))


def sides(tree: Tree, operator: str) -> list[object]:
    if not isinstance(tree, Binary) or tree.operator != operator:
        return [comparable(tree)]
    return sides(tree.left, operator) + sides(tree.right, operator)
