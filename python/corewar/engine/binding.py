"""The library for C as its header declares it: its calls, and its types as types of NumPy.

MARS_LIBRARY names the file of the library. Without it, the library is looked for beside this file (in a wheel), in
`build` of the checkout that contains this file, and in `lib` of the prefix in which the package is installed, and of
the system. Its name is libmars.so.2, on Windows mars-2.dll, on macOS libmars.2.dylib. A call releases the
interpreter lock, and several threads may call at once.
"""
from __future__ import annotations

import os
from collections.abc import Callable
from functools import lru_cache
from importlib import import_module
from threading import Lock
from typing import Any

import cffi
import numpy as np
from numpy.typing import NDArray

from ..model.errors import CorewarError, MarsError
from ..model.header import CHECKOUT, ENGINE, INSTALLED, LIBRARY, content, declarations, header, numbers
from ..model.settings import Settings

# The result of a call whose buffer is too short, which is not an error.
ROOM = numbers()["ROOM"]
# The greatest number of 32 bits. It is out of the range of each argument of the library, except for a number of turns
# and the values of ROUNDS and WARRIORS in a source.
MAX_UINT32 = (1 << 32) - 1
# The numbers that are None if they are not given.
OPTIONAL = ("read_limit", "write_limit", "position")
OPEN_LOCK = Lock()
# The module with the types of the header, which setup.py puts into a wheel.
COMPILED_TYPES = ENGINE / "declared.py"


class NoLibrary(CorewarError):
    """The library is missing or cannot be loaded, or its version is older than the header's or of another major one."""


def library() -> tuple[Any, Any]:
    """Returns the types of the header, and the library. All threads get the same objects, since types that were made
    twice are incompatible. Raises NoLibrary.
    """
    with OPEN_LOCK:
        return open_library()


@lru_cache(maxsize=None)
def open_library() -> tuple[Any, Any]:
    """Returns the types of the header, and the library. Raises NoLibrary."""
    below = [folder / "lib" / LIBRARY for folder in INSTALLED]
    built = [ENGINE / LIBRARY, CHECKOUT / "build" / LIBRARY, *below]
    shared = os.environ.get("MARS_LIBRARY") or next((str(path) for path in built if path.is_file()), None)
    if shared is None:
        raise NoLibrary(f"cannot find {LIBRARY}; build it with make or set MARS_LIBRARY")
    ffi, source = types()
    try:
        calls: Any = ffi.dlopen(shared)
        given, wanted = calls.mars_version(), calls.MARS_VERSION
    except (OSError, AttributeError) as fault:
        raise NoLibrary(f"{shared}: {fault}") from None
    # The thousands are the major version; a later minor version has all that an earlier one has.
    if given // 1000 != wanted // 1000 or given < wanted:
        raise NoLibrary(f"{shared} has version {given}, but {source} has {wanted}; rebuild it with make")
    return ffi, calls


def types() -> tuple[Any, str]:
    """Returns the types of the header for cffi, and the name of the file that they are from. A wheel has them ready, so
    that no header is parsed at each start.
    """
    if COMPILED_TYPES.is_file() and "MARS_HEADER" not in os.environ:
        return import_module(f".{COMPILED_TYPES.stem}", __package__).ffi, str(COMPILED_TYPES)
    ffi = cffi.FFI()
    ffi.cdef(declarations(content()))
    return ffi, str(header())


@lru_cache(maxsize=None)
def dtype_of(name: str) -> np.dtype[Any]:
    """Returns the type of NumPy for a type of the header, given by its name."""
    return dtype_of_type(library()[0].typeof(name))


def dtype_of_type(declared: Any) -> np.dtype[Any]:
    if declared.kind == "array":
        return np.dtype((dtype_of_type(declared.item), (declared.length,)))
    if declared.kind == "struct":
        return np.dtype([(name, dtype_of_type(field.type)) for name, field in declared.fields], align=True)
    return np.dtype(np.uintp if declared.cname == "size_t" else declared.cname.removesuffix("_t"))


def array(name: str, count: int) -> NDArray[Any]:
    """Returns an array of `count` values of a type of the header, all 0. Raises CorewarError for a negative number."""
    return np.zeros(check_size(count), dtype_of(name))


def slice_of(name: str, values: bytes | bytearray | NDArray[Any]) -> tuple[Any, int]:
    """Returns a pointer to values of a type, and their number."""
    if name == "uint8_t" and isinstance(values, bytes):
        return values, len(values)
    view = library()[0].from_buffer(f"{name}[]", values)
    return view, len(view)


def clamp(value: int, maximum: int = MAX_UINT32) -> int:
    """Returns a number if it is from 0 to `maximum`, and `maximum` in place of any other. The library rejects `maximum`
    with an error that names the argument.
    """
    return value if 0 <= value <= maximum else maximum


def check_size(value: int) -> int:
    """Returns a number of turns or records, or a value of ROUNDS or WARRIORS, as it is given. Raises CorewarError if it
    does not fit in 32 bits without a sign.
    """
    if not 0 <= value <= MAX_UINT32:
        raise CorewarError(f"expected a number from 0 to {MAX_UINT32}, not {value}")
    return value


def settings_struct(settings: Settings, rounds: int = 1, seed: int = 1, position: int | None = None) -> Any:
    """Returns the settings as a call expects them, with 0 for each number of OPTIONAL that is not given."""
    numbers = {**vars(settings), "rounds": rounds, "seed": seed, "position": position}
    given = {name: 0 if value is None else clamp(value) for name, value in numbers.items()}
    # A 0 that the caller gives is out of the range, but the library would take it for a number that is not given.
    given |= {name: MAX_UINT32 for name in OPTIONAL if numbers[name] == 0}
    return library()[0].new("MarsSettings *", given)


def call(name: str, *given: Any) -> int:
    """Calls the library. Returns 0 or ROOM, and raises `MarsError` for every other result."""
    ffi, calls = library()
    fault = ffi.new("MarsFault *")
    answer: int = getattr(calls, name)(*given, fault)
    if answer not in (0, ROOM):
        place = fault.line, fault.warrior, fault.begin, fault.end
        raise MarsError(fault.code, fault.number, fault.problem, fault.expression, *place)
    return answer


def read_text(room: int, fill: Callable[..., int]) -> bytes:
    """Returns the text that the call `fill` writes. The first buffer has `room` bytes. If it is too short, the call is
    made again with a buffer of the size that the text requires.
    """
    length, buffer = library()[0].new("size_t *"), bytearray(room)
    if fill(*slice_of("uint8_t", buffer), length) == ROOM:
        buffer = bytearray(length[0])
        fill(*slice_of("uint8_t", buffer), length)
    return bytes(buffer[: length[0]])
