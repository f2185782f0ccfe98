"""Lists how many definitions of a crate are computed, and why the others are not."""
from __future__ import annotations

import glob
import os
from collections import Counter, defaultdict
from collections.abc import Iterator

from evaluating.evaluator import Evaluator
from evaluating.words import NoStatement, NotReadable

from .library import TOP

# Files that contracts do not cite, by the first part of their names.
LEFT_OUT = {"Examples", "Laws", "Code", "Lib"}


def modules_of(crate: str) -> list[str]:
    """Returns the modules of a crate's definitions."""
    files = glob.glob("**/*.antt", root_dir=os.path.join(TOP, "crates", crate, "specs"), recursive=True)
    return [f"Rattle.{crate}.specs.{file.removesuffix('.antt').replace(os.sep, '.')}" for file in sorted(files)]


def listing(definitions: Evaluator, crate: str) -> Iterator[str]:
    """Yields a line for a crate, with the number of computed definitions, and one for each reason for not computing."""
    counts: Counter[str] = Counter()
    reasons: defaultdict[str, list[str]] = defaultdict(list)
    for module in modules_of(crate):
        own = module.split(".", 3)[3]
        if own.partition(".")[0] in LEFT_OUT:
            continue
        file = definitions.file(module)
        counts["types of values"] += len(file.data)
        for name in [*file.clauses, *file.records]:
            try:
                definitions.meaning_in(module, name)
                counts["computed"] += 1
            except NoStatement:
                counts["types of values"] += 1
            except NotReadable as reason:
                counts["not computed"] += 1
                reasons[str(reason)].append(f"{own}.{name}")
    yield f"{crate}: " + ", ".join(f"{counts[kind]} {kind}" for kind in ("computed", "types of values", "not computed"))
    for text, names in reasons.items():
        yield f"  {text}: {', '.join(names)}"
