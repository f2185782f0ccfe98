"""Checks the imports between the modules of crates, of the package and of the site: generators for `dev/checks/rules`,
which prints their docstrings as the rules.
"""
from __future__ import annotations

import glob
import os
import re
from collections.abc import Iterator

from tracked import TOP, files

# The seven crates of the product, from the lowest one up.
PRODUCT = ["mars_cell", "redcode_text", "redcode_asm", "mars_core", "mars_session", "mars_match", "mars_app"]
# The interfaces of the kit besides the program: the static library for C.
INTERFACES = ["mars_c"]
# The packages of `corewar`, from the lowest one up: each imports only from those before it.
LAYERS = "model engine battle explain contests analysis pictures pages debugger editor web cli".split()
# The folders of the site's sources, from the lowest one up: each imports only from those before it.
SITE = ["model", "engine", "battle", "words", "worker", "view", "app"]


def used(text: str, start: str) -> Iterator[tuple[str, str]]:
    """Yields the path and the name of each item in the `use` or `pub use` lines that begin with `start`."""
    for path, names in re.findall(rf"^{start}((?:\w+::)*)(\w+|\{{[^}}]*\}});", text, re.M):
        for name in re.findall(r"\w+", names):
            yield path.removesuffix("::"), name


def imports(crate: str) -> dict[str, set[str]]:
    """Returns for each module of a crate the modules that define the names in its `use` lines.

    A name that a module re-exports (`pub use`) is defined by the module from which it comes.
    """
    folder = os.path.join(TOP, "crates", crate, "src")
    paths = glob.glob(os.path.join(folder, "**", "*.rt"), recursive=True)
    modules = {os.path.relpath(path, folder)[:-3].replace("/", "::"): open(path).read() for path in paths}
    reexported = {
        (module, name): f"{module}::{path}"
        for module, text in modules.items()
        for path, name in used(text, "pub use ")
        if f"{module}::{path}" in modules
    }

    def home(path: str, name: str) -> str:
        """Returns the module that defines a name, or "" if it is none of this crate."""
        if (path, name) in reexported:
            return home(reexported[path, name], name)
        return max((module for module in modules if f"{path}::{name}::".startswith(f"{module}::")), key=len, default="")

    return {
        module: {home(path, name) for path, name in used(text, "use crate::")} - {module, ""}
        for module, text in modules.items()
    }


def is_inside(one: str, other: str) -> bool:
    """Returns whether one of two modules is in the folder of the other."""
    return one.startswith(f"{other}::") or other.startswith(f"{one}::")


def no_cycles() -> Iterator[str]:
    """The imports between the modules of a crate have no cycle, except between a folder and its head."""
    for crate in [*PRODUCT, *INTERFACES]:
        above = {
            module: {other for other in others if not is_inside(module, other)}
            for module, others in imports(crate).items()
        }
        for module in sorted(above):
            reached, left = set(), [*above[module]]
            while left:
                other = left.pop()
                if other not in reached:
                    reached.add(other)
                    left += above.get(other, ())
            if module in reached:
                through = sorted(other for other in reached if module in above.get(other, ()))
                yield f"{crate}: {module} imports itself through {', '.join(through)}"


def layers() -> Iterator[str]:
    """Each package of python/corewar imports only from those below it."""
    folder = os.path.join(TOP, "python", "corewar")
    yield from sorted(
        {*LAYERS} ^ {name for name in os.listdir(folder) if os.path.isfile(os.path.join(folder, name, "__init__.py"))}
    )
    for name, text in files(".py"):
        layer = name.removeprefix("python/corewar/").split("/")[0]
        above = LAYERS[LAYERS.index(layer) + 1 :] if layer in LAYERS else []
        yield from (f"{name}: {other}" for other in re.findall(r"^\s*from \.\.(\w+)", text, re.M) if other in above)


def site_layers() -> Iterator[str]:
    """Each folder of site/src imports only from those below it, types too."""
    yield from sorted({*SITE} ^ set(next(os.walk(os.path.join(TOP, "site", "src")))[1]))
    for name, text in files(".js"):
        layer = name.removeprefix("site/src/").split("/")[0]
        above = SITE[SITE.index(layer) + 1 :] if layer in SITE else []
        yield from (f"{name}: {other}" for other in re.findall(r"""["']\.\./(\w+)/""", text) if other in above)
