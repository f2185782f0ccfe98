"""Tests how files are written."""
from __future__ import annotations

import os
from pathlib import Path
from typing import Any

import pytest

from corewar.cli.options import Output
from corewar.engine.files import replace_file
from corewar.model.errors import FileError


def test_a_file_is_replaced_in_a_folder_that_accepts_no_new_file(
    tmp_path: Path, monkeypatch: pytest.MonkeyPatch
) -> None:
    (tmp_path / "old").write_text("old")

    def refuse(path: Any, flags: int, mode: int = 0o777) -> int:
        raise PermissionError(13, "Permission denied")

    with monkeypatch.context() as patch:
        patch.setattr(os, "open", refuse)
        replace_file(tmp_path / "old", b"new")
        with pytest.raises(FileError, match="Permission denied"):
            replace_file(tmp_path / "none", b"new")
    assert [path.read_bytes() for path in tmp_path.iterdir()] == [b"new"]


def test_a_read_only_file_is_not_replaced(tmp_path: Path, monkeypatch: pytest.MonkeyPatch) -> None:
    """The reply of the system is replaced, since root may write each file."""
    (tmp_path / "old").write_text("old")
    monkeypatch.setattr(os, "access", lambda path, mode: False)
    with pytest.raises(FileError, match="read-only file"):
        replace_file(tmp_path / "old", b"new")
    # An option that names a file reports it in the same way, before anything is run.
    with pytest.raises(FileError, match="read-only file"):
        Output(dir_okay=False, writable=True).convert(str(tmp_path / "old"), None, None)
    assert (tmp_path / "old").read_text() == "old"
