"""The site in Chromium."""
from __future__ import annotations

from collections.abc import Iterator

import pytest

pytest.register_assert_rewrite("pages")

from browsers import Browser, chromium  # noqa: E402
from pages import *  # noqa: E402,F401,F403


@pytest.fixture(scope="module")
def browser() -> Iterator[Browser]:
    started = chromium()
    yield started
    started.end()
