"""The sources of the site, in files and folders, and examples, which are not changed."""
from __future__ import annotations

import hashlib
import threading
from collections.abc import Iterable
from dataclasses import dataclass, field
from functools import cached_property
from pathlib import Path
from typing import Any

from ..engine.calls import encode_source
from ..engine.files import replace_file
from ..model.errors import CorewarError, FileError
from ..model.settings import MAX_FILE_SIZE


class ChangedOnDisk(CorewarError):
    """Something else has changed a file; `seen` is the digest of its content now, or "" if there is no such file."""

    def __init__(self, name: str, seen: str) -> None:
        super().__init__(f"{name} has changed on disk; not overwritten")
        self.seen = seen


def digest(data: bytes) -> str:
    return hashlib.sha256(data).hexdigest()


def sources_of(paths: Iterable[Path]) -> dict[str, Path]:
    """Returns the sources of files and folders, by their names."""
    found = [file for path in paths for file in (sorted(path.glob("*.red")) if path.is_dir() else [path])]
    return {file.name: file.resolve() for file in found if file.is_file()}


def describe_source(name: str, path: Path, is_example: bool) -> dict[str, Any]:
    """Returns a source as the page gets it, or why it is not read."""
    try:
        if path.stat().st_size > MAX_FILE_SIZE:
            return {"name": name, "fault": f"{name} has more than {MAX_FILE_SIZE} bytes; left out"}
        data = path.read_bytes()
    except OSError as fault:
        return {"name": name, "fault": f"{name}: {fault.strerror}; left out"}
    text = data.decode("utf-8", "surrogateescape")
    return {"name": name, "text": text, "seen": digest(data), "isExample": is_example}


@dataclass
class Folder:
    """The sources to edit, and the examples."""

    paths: list[Path]
    examples: dict[str, Path]
    _lock: threading.Lock = field(default_factory=threading.Lock, repr=False, compare=False)

    @cached_property
    def key(self) -> str:
        """A name for what a browser keeps of this folder. A new source does not change it."""
        return digest("\n".join(str(path.resolve()) for path in self.paths).encode("utf-8", "surrogateescape"))[:16]

    def all(self) -> list[dict[str, Any]]:
        """Returns the sources that exist now."""
        files = sources_of(self.paths)
        others = {name: path for name, path in self.examples.items() if name not in files}
        return [
            *(describe_source(name, path, False) for name, path in files.items()),
            *(describe_source(name, path, True) for name, path in others.items()),
        ]

    def save(self, name: str, text: str, seen: str) -> str:
        """Saves a source to its file, or to a new one. Returns the digest of its content.

        - `seen`: the digest of the content that the page has last seen, or "" for a new file

        Raises ChangedOnDisk if the file has another content, `FileError`, and CorewarError for an invalid name or text.
        """
        # Invalid UTF-8 survives reading and saving.
        data = encode_source(text)
        if len(data) > MAX_FILE_SIZE:
            raise CorewarError(f"{name} has more than {MAX_FILE_SIZE} bytes; not saved")
        # Of two windows that save at once, the second one finds the file changed.
        with self._lock:
            try:
                return self._replace(name, data, seen)
            except OSError as fault:
                raise FileError(name, fault.strerror or "cannot read") from None

    def _replace(self, name: str, data: bytes, seen: str) -> str:
        path = sources_of(self.paths).get(name) or self._new(name)
        # A pipe or a device could be read without end.
        if path.exists() and not path.is_file():
            raise CorewarError(f"{name} is not a regular file; not saved")
        # A larger file was never sent to the page, which cannot have seen its content.
        if path.exists() and path.stat().st_size > MAX_FILE_SIZE:
            raise CorewarError(f"{name} is larger than {MAX_FILE_SIZE} bytes; not saved")
        there = digest(path.read_bytes()) if path.exists() else ""
        if there != seen:
            raise ChangedOnDisk(name, there)
        replace_file(path, data)
        if name not in sources_of(self.paths):
            self.paths.append(path)
        return digest(data)

    def _new(self, name: str) -> Path:
        """Returns the path of a new source: in the first folder, or beside the first file."""
        if name != Path(name).name or not name.endswith(".red") or name == ".red" or "\0" in name:
            raise CorewarError(f"`{name}` is not a valid name; expected a name without a folder that ends in .red")
        first = self.paths[0]
        return (first if first.is_dir() else first.parent) / name
