"""The site in Firefox."""
from __future__ import annotations

from collections.abc import Iterator

import pytest

pytest.register_assert_rewrite("pages")

from browsers import Browser, firefox  # noqa: E402
from pages import *  # noqa: E402,F401,F403


@pytest.fixture(scope="module")
def browser() -> Iterator[Browser]:
    started = firefox()
    yield started
    started.end()
