"""The header of the library: where it is, its declarations for cffi, and its names and numbers, from which the package
has opcodes, errors and ranges. This module imports no other of the package, since setup.py runs it.

MARS_HEADER names the header. Without it, mars.h is looked for beside the binding (in a wheel), in the checkout that
contains this file, and in `include` of the prefix in which the package is installed, and of the system.
"""
from __future__ import annotations

import os
import re
import sys
from functools import lru_cache
from pathlib import Path

PACKAGE = Path(__file__).resolve().parents[1]
ENGINE = PACKAGE / "engine"
CHECKOUT = PACKAGE.parents[1]
# The name of the library's file on this system, which contains the major version.
LIBRARY = {"win32": "mars-2.dll", "cygwin": "mars-2.dll", "darwin": "libmars.2.dylib"}.get(sys.platform, "libmars.so.2")
# The possible prefixes of `make install`, first the one in which this package is installed.
INSTALLED = [*PACKAGE.parents[3:4], Path("/usr/local"), Path("/usr")]
ENUMERATION = re.compile(r"enum \{([^}]*)\}")
# The comment of a mode is its character.
CHARACTER = re.compile(r"MARS_\w+,? +/\* (\S) \*/")


def header() -> str | None:
    """Returns the name of the header, or None if there is none."""
    folders = [ENGINE, CHECKOUT / "crates" / "mars_c" / "include", *(prefix / "include" for prefix in INSTALLED)]
    paths = [folder / "mars.h" for folder in folders]
    return os.environ.get("MARS_HEADER") or next((str(path) for path in paths if path.is_file()), None)


def declarations(text: str) -> str:
    """Returns the text of the header without the lines for the preprocessor, except for the version."""
    plain = re.sub(r"#ifdef __cplusplus\n.*?\n#endif", "", text, flags=re.S)
    return "\n".join(
        line for line in plain.splitlines() if not line.startswith("#") or line.startswith("#define MARS_VERSION")
    )


@lru_cache(maxsize=None)
def content() -> str:
    """Returns the text of the header. Raises ImportError if there is no header."""
    path = header()
    if path is None or not os.path.isfile(path):
        raise ImportError(f"cannot find {path or 'mars.h'}; install it with `make install` or set MARS_HEADER")
    return Path(path).read_text()


@lru_cache(maxsize=None)
def enumerations() -> list[dict[str, int]]:
    """Returns the enumerations of the header: the numbers of their names, without `MARS_`."""
    found = []
    for listed in ENUMERATION.findall(re.sub(r"/\*.*?\*/", "", content(), flags=re.S)):
        number, named = 0, {}
        for name, given in re.findall(r"MARS_(\w+)(?: = (\d+))?", listed):
            number = int(given or number)
            named[name] = number
            number += 1
        found.append(named)
    return found


def enumeration(first: str) -> dict[str, int]:
    """Returns the enumeration that begins with this name. Raises ImportError if the header has none."""
    for one in enumerations():
        if next(iter(one)) == first:
            return one
    raise ImportError(f"{header()} is not the header of this version: it has no MARS_{first}")


@lru_cache(maxsize=None)
def numbers() -> dict[str, int]:
    """Returns the numbers of all names, without `MARS_`."""
    return {name: number for one in enumerations() for name, number in one.items()}


def characters() -> str:
    """Returns the characters of the modes, in the order of their numbers."""
    return "".join(CHARACTER.findall(content()))


@lru_cache(maxsize=None)
def names(kind: str) -> dict[int, str]:
    """Returns the names of an enumeration by their numbers, as messages spell them: `DivideByZero` for
    MARS_EXPRESSION_DIVIDE_BY_ZERO, of the kind `EXPRESSION`.
    """
    of_kind = {
        name.removeprefix(f"{kind}_"): number for name, number in numbers().items() if name.startswith(f"{kind}_")
    }
    return {number: "".join(map(str.capitalize, name.split("_"))) for name, number in of_kind.items()}
