"""Writes files. An existing file is replaced as a whole, and stays as it is if that fails, such as on a full disk. Only
if its folder accepts no new file, it is overwritten in place.
"""
from __future__ import annotations

import os
import secrets
import stat
from pathlib import Path

from ..model.errors import FileError

# Names that stand for open files, which another file cannot replace.
OPEN_FILES = ("/dev/", "/proc/")
# Without this flag, Windows writes CR LF in place of LF.
BINARY = getattr(os, "O_BINARY", 0)


def replace_file(path: str | Path, data: bytes) -> None:
    """Writes a file. A link stays, and the file that it leads to is replaced. Raises FileError."""
    name = str(path)
    try:
        if name.startswith(OPEN_FILES) or os.path.exists(name) and not os.path.isfile(name):
            Path(name).write_bytes(data)
        else:
            replace(Path(os.path.realpath(name)), data)
    except OSError as fault:
        raise FileError(name, fault.strerror or "cannot write") from None


def replace(path: Path, data: bytes) -> None:
    """Writes the data to a new file in the same folder, which then replaces the file at `path`. Raises OSError."""
    if path.exists() and not os.access(path, os.W_OK):
        raise PermissionError(0, "read-only file")
    part = path.with_name(f".{secrets.token_hex(8)}.part")
    try:
        # This fails if another program has made a file or a link of this name.
        handle = os.open(part, os.O_WRONLY | os.O_CREAT | os.O_EXCL | BINARY, 0o666)
    except PermissionError:
        if not path.exists():
            raise
        # The folder accepts no new file, but this file may be written.
        path.write_bytes(data)
        return
    try:
        with open(handle, "wb") as file:
            file.write(data)
        if path.exists():
            os.chmod(part, stat.S_IMODE(path.stat().st_mode))
        os.replace(part, path)
    except BaseException:
        # Also Ctrl-C leaves no part of a file.
        part.unlink(missing_ok=True)
        raise
