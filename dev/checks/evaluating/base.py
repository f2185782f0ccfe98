"""The operations of the toolchain's library that definitions use, and what is believed about each.

The sentences of the table are all that an evaluation takes for granted about the library, besides the meaning of the
language: numbers from 0 and integers are Python's integers, lists are its tuples, texts are lists of code points, pairs
are tuples, records are dictionaries, and a value of another type is a tuple that begins with the name of its
constructor. The worked examples, which the toolchain has computed, are evaluated over these operations, too.
"""
from __future__ import annotations

import inspect
from collections.abc import Callable
from typing import Any, NamedTuple

Value = Any
# A function of definitions takes one argument after the other.
Function = Callable[[Value], Value]
List = tuple[Value, ...]

NONE: List = ("None",)


class Operation(NamedTuple):
    """An operation: its names in the library, its name in Python, the function, and what is believed about it."""

    names: str
    name: str
    function: Callable[..., Value]
    sentence: str

    @property
    def arity(self) -> int:
        """Returns the number of its arguments."""
        return len(inspect.signature(self.function).parameters)


def folded(f: Function, a: Value, xs: List) -> Value:
    for x in xs:
        a = f(a)(x)
    return a


def first_index(test: Function, xs: List) -> int:
    return next((i for i, x in enumerate(xs) if test(x)), len(xs))


def with_item(xs: List, i: int, x: Value) -> List:
    return (*xs[:i], x, *xs[i + 1 :]) if i < len(xs) else xs


def swapped(xs: List, i: int, j: int) -> List:
    first, second = (xs[k] if k < len(xs) else xs[0] if xs else None for k in (i, j))
    return with_item(with_item(xs, i, second), j, first)


def begins(eq: Function, xs: List, ys: List) -> bool:
    return len(ys) <= len(xs) and all(eq(x)(y) for x, y in zip(xs, ys))


def is_letter(b: int) -> bool:
    return 65 <= b <= 90 or 97 <= b <= 122


def lower_case(text: List) -> List:
    return tuple(b + 32 if 65 <= b <= 90 else b for b in text)


def digits_value(radix: int, digits: List) -> int:
    result = 0
    for digit in digits:
        result = result * radix + int(chr(digit), 36)
    return result


def truncated(a: int, b: int) -> int:
    if b == 0:
        return 0
    quotient = abs(a) // abs(b)
    return quotient if (a < 0) == (b < 0) else -quotient


# fmt: off
TABLE: list[tuple[str, str, Callable[..., Value], str]] = [
    # numbers and truth values
    ("◌-◌", "difference", lambda a, b: a - b if a > b else 0, "Subtraction of numbers from 0 ends at 0."),
    ("◌/◌", "quotient", lambda a, b: a // b if b else 0, "Division rounds down; by zero it is 0."),
    ("◌%◌", "remainder", lambda a, b: a % b if b else a, "The remainder of a division; by zero the dividend."),
    ("nat_lt int_lt lt_z", "is_less", lambda a, b: a < b, "The first number is less than the second."),
    ("nat_le", "is_at_most", lambda a, b: a <= b, "The first number is at most the second."),
    ("nat_eq int_eq ◌==◌ bytes_eq eq", "is_equal", lambda a, b: bool(a == b),
     "Two numbers, integers, lists of bytes, or values of a type with derived equality are equal."),
    ("neg_ℤ", "negated", lambda z: -z, "The negative of an integer."),
    ("unsigned_abs", "magnitude", abs, "The magnitude of an integer."),
    ("int_div", "truncated", truncated, "Division of integers rounds towards 0; by zero it is 0."),
    ("int_rem", "truncated_remainder", lambda a, b: a - b * truncated(a, b), "What this division leaves."),
    ("int_rem_euclid", "euclidean_remainder", lambda a, b: a % abs(b) if b else max(a, 0),
     "The remainder from 0 to the magnitude of the divisor less 1."),
    ("not", "negation", lambda b: not b, "The other truth value."),
    # options and results
    ("is_some", "is_some", lambda o: bool(o != NONE), "The option has a value."),
    ("unwrap_or", "value_or", lambda o, other: other if o == NONE else o[1], "The value, or else the other value."),
    ("option_map", "option_mapped", lambda f, o: NONE if o == NONE else ("Some", f(o[1])),
     "The option of the result of a function for the value."),
    ("option_and_then", "option_then", lambda f, o: NONE if o == NONE else f(o[1]),
     "The option that a function has for the value, if there is a value."),
    ("option_or", "option_or", lambda o, other: other if o == NONE else o, "The option, or else the other option."),
    ("option_map_or", "option_mapped_or", lambda f, o, other: other if o == NONE else f(o[1]),
     "The result of a function for the value, or else the other value."),
    ("option_to_list", "listed", lambda o: () if o == NONE else (o[1],), "A list of the value, if there is one."),
    ("ok_or", "ok_or", lambda o, error: ("Err", error) if o == NONE else ("Ok", o[1]),
     "The value of an option as a result, or else the error."),
    ("result_ok", "result_ok", lambda r: ("Some", r[1]) if r[0] == "Ok" else NONE, "The value, if it is no error."),
    # statements
    ("All AllByRecursion", "each_holds", lambda p, xs: all(map(p, xs)), "The statement holds for each item."),
    ("IfSome", "holds_if_some", lambda o, p: o == NONE or bool(p(o[1])), "It holds for the value, if there is one."),
    ("IsNone is_none", "is_none", lambda o: bool(o == NONE), "The option has no value."),
    ("IfOk", "holds_if_ok", lambda r, p: r[0] != "Ok" or bool(p(r[1])), "It holds for the value, if it is no error."),
    ("IfErr", "holds_if_error", lambda r, p: r[0] != "Err" or bool(p(r[1])), "It holds for the error, if it is one."),
    ("IsTrue", "is_true", lambda b: b, "The truth value is true."),
    # lists, whose indices count from 0
    ("length", "length", len, "The number of items."),
    ("take", "take", lambda n, xs: xs[:n], "The first items, or all if there are fewer."),
    ("drop", "drop", lambda n, xs: xs[n:], "The items after the first ones; none if there are fewer."),
    ("slice_index_or", "item_or", lambda xs, i, other: xs[i] if i < len(xs) else other,
     "The item with this index, or else the other value."),
    ("slice_get", "item", lambda xs, i: ("Some", xs[i]) if i < len(xs) else NONE, "The item, if there is one."),
    ("slice_set", "with_item", with_item, "The list with another item at this index; the same list if there is none."),
    ("insert", "inserted", lambda xs, i, x: (*xs[:i], x, *xs[i:]), "The list with an item before that of this index."),
    ("remove", "without_item", lambda xs, i: xs[:i] + xs[i + 1:], "The list without the item with this index."),
    ("swap", "swapped", swapped, "Two items exchanged; an index after the end is that of the first item's value."),
    ("reverse", "reversed_list", lambda xs: xs[::-1], "The items in the opposite order."),
    ("replicate", "replicated", lambda n, x: (x,) * n, "A list of one value, this many times."),
    ("range_with_len", "numbers_from", lambda a, n: tuple(range(a, a + n)), "A number and those after it, this many."),
    ("concat", "concatenated", lambda xss: tuple(x for xs in xss for x in xs), "The items of one list after another."),
    ("map", "mapped", lambda f, xs: tuple(map(f, xs)), "The results of a function for each item."),
    ("flat_map", "flat_mapped", lambda f, xs: tuple(y for x in xs for y in f(x)), "Those results, one after another."),
    ("filter", "filtered", lambda test, xs: tuple(filter(test, xs)), "The items that pass the test."),
    ("fold", "folded", folded, "The result of a function for the result so far and each item."),
    ("sum", "total", lambda xs: sum(xs), "The sum of the items."),
    ("sum_by", "total_by", lambda f, xs: sum(map(f, xs)), "The sum of the results of a function."),
    ("count_by", "count", lambda test, xs: sum(1 for x in xs if test(x)), "The number of items that pass the test."),
    ("list_any", "some_passes", lambda test, xs: any(map(test, xs)), "An item passes the test."),
    ("list_all AllPass", "each_passes", lambda test, xs: all(map(test, xs)), "Each item passes the test."),
    ("find", "found", lambda test, xs: next((("Some", x) for x in xs if test(x)), NONE),
     "The first item that passes the test, if there is one."),
    ("prefix_len", "prefix_length", lambda test, xs: first_index(lambda x: not test(x), xs),
     "The number of items before the first one that does not pass the test."),
    ("position_or_len", "first_index", first_index,
     "The index of the first item that passes the test, or the number of items."),
    ("position", "position", lambda test, xs: next((("Some", i) for i, x in enumerate(xs) if test(x)), NONE),
     "The index of the first item that passes the test, if there is one."),
    ("take_while", "taken_while", lambda test, xs: xs[:first_index(lambda x: not test(x), xs)],
     "The items before the first one that does not pass the test."),
    ("starts_with", "begins", begins, "The list begins with another one, by a test of two items."),
    ("ends_with", "ends", lambda eq, xs, ys: begins(eq, xs[::-1], ys[::-1]), "The list ends with another one."),
    ("onto_first", "onto_first", lambda x, xss: ((x, *xss[0]), *xss[1:]) if xss else ((x,),),
     "The lists with an item put in front of the first one; if there is none, a list of that item."),
    ("last_or", "last_or", lambda other, xs: ("Some", xs[-1]) if xs else other, "The last item, or the other option."),
    # bytes and texts
    ("codes", "codes", lambda text: tuple(map(ord, text)), "The code points of a text."),
    ("is_ascii", "is_ascii", lambda b: b < 128, "The byte is below 128."),
    ("is_ascii_digit", "is_digit", lambda b: 48 <= b <= 57, "The byte is a digit of ASCII."),
    ("is_ascii_alphabetic", "is_letter", is_letter, "The byte is a letter of ASCII."),
    ("is_ascii_alphanumeric", "is_letter_or_digit", lambda b: 48 <= b <= 57 or is_letter(b), "It is one of both."),
    ("str_to_ascii_lowercase", "lower_case", lower_case, "The text with small letters of ASCII for capital ones."),
    ("str_eq_ignore_ascii_case", "is_equal_in_lower_case", lambda a, b: lower_case(a) == lower_case(b),
     "The texts are equal, except for the case of letters of ASCII."),
    ("decimal signed_decimal", "decimal", lambda n: tuple(map(ord, str(n))),
     "The decimal digits of a number, without zeros in front; a minus precedes those of a negative integer."),
    ("digits_value", "digits_value", digits_value, "The number that digits are in a radix."),
]
# fmt: on
# Each operation by its names in the library.
OPERATIONS = {name: Operation(*row) for row in TABLE for name in row[0].split()}
