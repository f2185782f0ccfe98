"""dev/checks/evaluating: the language of definitions, and the operations of the toolchain's library."""
from __future__ import annotations

import sys
from collections.abc import Callable
from pathlib import Path
from typing import Any

import pytest
from conftest import TOP

sys.path.insert(0, str(TOP / "dev" / "checks"))
from evaluating.base import OPERATIONS  # noqa: E402
from evaluating.evaluator import Evaluator, NoCase  # noqa: E402
from evaluating.words import NotReadable  # noqa: E402

HEAD = """
use Rattle.std.specs.Prelude.{ℕ, zero, suc, ◌-◌, ◌/◌, ◌%◌, nat_lt, true, false, not, codes, Option, None, Some}
use Rattle.std.specs.Prelude.{List, [], ◌∷◌, take, map, fold}
use Rattle.one.specs.declared.colour.Colour.TheVariants as colour
use Rattle.one.specs.declared.colour.Colour.TheVariants.{Red, Mixed}
"""
Define = Callable[..., Evaluator]


@pytest.fixture
def define(tmp_path: Path) -> Define:
    """Returns an evaluator of a file of definitions, and of others that it uses."""

    def written(text: str, **others: str) -> Evaluator:
        folder = tmp_path / "crates" / "one" / "specs"
        folder.mkdir(parents=True)
        for name, content in {"Main": text, **others}.items():
            (folder / f"{name}.antt").write_text(HEAD + content)
        return Evaluator(str(tmp_path))

    return written


VALUES: list[tuple[str, Any]] = [
    ("1 + 2 * 3 - 4", 3),
    ("2 - 3", 0),
    ("7 / 2 + 7 % 4", 6),
    ("7 / 0 + 7 % 0", 7),
    ("2 ^ 3 ^ 2", 512),
    ("1 + 1 == 2 && not (1 == 2) || false", True),
    ("0x1f + 1_000", 1031),
    ("1 ∷ 2 ∷ [] ++ 3 ∷ []", (1, 2, 3)),
    ('codes "a\\n"', (97, 10)),
    ("if nat_lt 1 2 then 1 else if true then 2 else 3", 1),
    ("let x = 1 in let y = x + 1 in x + y", 3),
    ("let (x, y) = (1, 2) in y", 2),
    ("(λ x y. x - y) 5 3", 2),
    ("(λ (x, y). x + y) (5, 3)", 8),
    ("map (λ (x : ℕ). x + 1) (1 ∷ 2 ∷ [])", (2, 3)),
    ("map suc (1 ∷ [])", (2,)),
    ("fold (λ a x. 10 * a + x) 0 (1 ∷ 2 ∷ 3 ∷ [])", 123),
    ("take 1 (1 ∷ 2 ∷ [])", (1,)),
    ("(map (take 1) ((1 ∷ 2 ∷ []) ∷ []))", ((1,),)),
    ("(record { a = 1; b = (2, 3) }).b.1", 3),
    ("let r = record { a = 1; b = 2 } in record r { a = 3 }", {"a": 3, "b": 2}),
    ("elim (Some 4) [ None ↦ 0 | Some x ↦ x ]", 4),
    ("elim colour.Green [ Red ↦ 0 | colour.Green ↦ 1 | _ ↦ 2 ]", 1),
    ("Mixed 1 (Mixed 2 Red)", ("Mixed", 1, ("Mixed", 2, ("Red",)))),
    ("{- a comment -} 1 -- another", 1),
    ("(1 ≤ 1) × (1 < 2) × (1 ≡ 1)", True),
    ("(i : ℕ) → i < 3 → i ≤ 2", True),
    ("(i j : ℕ) → i ≢ j → i < 2 → j < 2 → i + j ≡ 1", True),
    ("(i : ℕ) → i < 3 → i ≢ 2", False),
]


@pytest.mark.parametrize("term, expected", VALUES)
def test_a_term_has_its_value(define: Define, term: str, expected: Any) -> None:
    assert define(f"it : ℕ\nit = {term}\n").get("one.Main.it")() == expected


DEFINITIONS = """
use Rattle.one.specs.Other.{◌>>=◌, twice as double}
use Rattle.one.specs.Other as other

-- The length of a list, by recursion.
abbrev pub count : {X : Type 0} → List X → ℕ
count [] = 0
count (x ∷ xs) = 1 + count xs

pub down : ℕ → ℕ → ℕ
down zero n = n
down (suc k) n = down k (n + 1)

both : Option ℕ → Option ℕ → Option ℕ
both one two = do
  a ← one
  b ← two
  Some (a + b)

-- The last argument is needed only for None.
pub chosen : Option ℕ → ℕ → ℕ
chosen (Some n) other = n
chosen None other = other

pub endless : ℕ → ℕ
endless n = chosen (Some n) (endless n)

pub added : ℕ → ℕ → ℕ
added a b = a + b

pub all_added : List ℕ → List ℕ
all_added xs = map (added 1) (map double xs)

pub middle : ℕ → ℕ
middle (suc (suc n)) = n

pub other_constant : ℕ
other_constant = other.constant

pub record Small (n m : ℕ) : Type 0 where
  pub least : 1 ≤ n
  pub most : n ≤ m

pub unbounded : Type 0
unbounded = (n : ℕ) → n ≤ 5

pub exists : Type 0
exists = (n : ℕ) × (n ≤ 5)
"""
OTHER = """
infixl 10 ◌>>=◌
abbrev pub ◌>>=◌ : {A B : Type 0} → Option A → (A → Option B) → Option B
None >>= f = None
(Some x) >>= f = f x

pub twice : ℕ → ℕ
twice n = 2 * n

pub constant : ℕ
constant = 17
"""


def test_definitions(define: Define) -> None:
    """Recursion, `do`, imports, aliases and partial application are computed; arguments that are not needed are not."""
    definitions = define(DEFINITIONS, Other=OTHER)

    def get(name: str) -> Callable[..., Any]:
        return definitions.get(f"one.Main.{name}")

    assert get("count")((5, 6, 7)) == 3 and get("count")((0,) * 20_000) == 20_000
    assert get("down")(100_000, 1) == 100_001 and "while True" in definitions.source("one.Main.down")
    assert get("both")(("Some", 1), ("Some", 2)) == ("Some", 3) and get("both")(("None",), ("Some", 2)) == ("None",)
    assert get("endless")(3) == 3 and get("chosen")(("None",), 4) == 4
    assert get("all_added")((1, 2)) == (3, 5) and get("other_constant")() == 17
    assert get("Small")(1, 2) and not get("Small")(3, 2)
    assert get("middle")(5) == 3
    with pytest.raises(NoCase):
        get("middle")(1)


@pytest.mark.parametrize(
    "name, reason",
    [
        ("unbounded", "n has no bound: what holds for all numbers is not computed"),
        ("exists", "that there is a value is not computed"),
    ],
)
def test_what_is_not_computed(define: Define, name: str, reason: str) -> None:
    with pytest.raises(NotReadable, match=reason):
        define(DEFINITIONS, Other=OTHER).get(f"one.Main.{name}")


@pytest.mark.parametrize(
    "text",
    [
        "it = (1 + 2",
        "it = 1 +",
        'it = "a',
        "it = colour",
        "it = Mixed 1\nit2 = Mixed",
        "infixl 20 ◌+◌\nit = 1 + 2",
        "it = unknown 1",
    ],
)
def test_what_is_not_read(define: Define, text: str) -> None:
    with pytest.raises(NotReadable):
        definitions = define(f"it : ℕ\n{text}\n")
        for name in ("it", *(["it2"] if "it2" in text else [])):
            definitions.get(f"one.Main.{name}")()


def test_each_operation_says_what_is_believed() -> None:
    for name, operation in OPERATIONS.items():
        assert operation.sentence.endswith("."), name


@pytest.mark.parametrize(
    "name, given, expected",
    [
        ("int_div", (-7, 2), -3),
        ("int_rem", (-7, 2), -1),
        ("int_rem_euclid", (-7, 5), 3),
        ("slice_set", ((1, 2), 5, 9), (1, 2)),
        ("remove", ((1, 2, 3), 1), (1, 3)),
        ("insert", ((1, 2), 1, 9), (1, 9, 2)),
        ("swap", ((1, 2, 3), 0, 2), (3, 2, 1)),
        ("last_or", (("None",), (1, 2)), ("Some", 2)),
        ("position_or_len", (lambda x: x == 9, (1, 2)), 2),
        ("onto_first", (1, ()), ((1,),)),
        ("signed_decimal", (-12,), (45, 49, 50)),
        ("digits_value", (10, (49, 50)), 12),
        ("str_eq_ignore_ascii_case", ((65, 91), (97, 91)), True),
        ("str_eq_ignore_ascii_case", ((91,), (123,)), False),
    ],
)
def test_operations(name: str, given: tuple[Any, ...], expected: Any) -> None:
    assert OPERATIONS[name].function(*given) == expected
