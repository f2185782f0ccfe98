"""Checks that the worked examples of the definitions, which the toolchain computes, also hold by this evaluation."""
from __future__ import annotations

import os
import random
from collections.abc import Iterator

from evaluating.evaluator import Evaluator
from evaluating.words import NotReadable

from .comparison import Comparison
from .library import TOP
from .listing import modules_of

CRATES = sorted(os.listdir(os.path.join(TOP, "dev", "bench", "mistakes")))


def compare_examples(definitions: Evaluator, dice: random.Random) -> Iterator[Comparison]:
    """Checks all worked examples whose statements can be computed."""
    for module in (module for crate in CRATES for module in modules_of(crate) if ".specs.Examples" in module):
        file = definitions.file(module)
        for name in file.types:
            if name in file.clauses:
                try:
                    holds = definitions.statement(module, name)
                except NotReadable:
                    continue
                yield Comparison("worked examples", f"{module}.{name}", True, holds)
