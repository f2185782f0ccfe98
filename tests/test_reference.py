"""Tests the page of the package's API, which a script makes of the docstrings."""
from __future__ import annotations

import inspect
import subprocess

import corewar
from conftest import TOP


def test_the_page_has_each_public_name() -> None:
    done = subprocess.run([TOP / "dev" / "api"], capture_output=True, text=True)
    assert (done.stderr, done.returncode) == ("", 0)
    for name in corewar.__all__:
        thing = getattr(corewar, name)
        assert f"`{name}" in done.stdout or f"\n{name} = " in done.stdout, name
        if inspect.isclass(thing) or inspect.isfunction(thing):
            assert inspect.getdoc(thing) and str(inspect.getdoc(thing)) in done.stdout, name
