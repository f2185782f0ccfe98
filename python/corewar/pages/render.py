"""Fills templates. Everything that a page needs is written into it."""
from __future__ import annotations

from importlib.resources import files
from pathlib import Path

from jinja2 import Environment, PackageLoader, StrictUndefined
from markupsafe import Markup

from ..engine.files import replace_file

environment = Environment(
    loader=PackageLoader("corewar.pages"),
    autoescape=True,
    undefined=StrictUndefined,
    trim_blocks=True,
    lstrip_blocks=True,
)
environment.filters["number"] = "{:,}".format


def static(name: str) -> Markup:
    """Returns the content of a file in the folder `static`."""
    return Markup((files("corewar.pages") / "static" / name).read_text(encoding="utf-8"))


environment.globals["static"] = static


def render(template: str, **fields: object) -> str:
    """Returns a template filled with these fields."""
    return environment.get_template(template).render(**fields)


def write_page(path: Path, text: str) -> None:
    """Writes a page. Bytes of file names that are not UTF-8 become `?`."""
    replace_file(path, text.encode("utf-8", "replace"))
