"""The built site, and its page in one file with a fight inside.

The page carries sources, settings and edits, and fights the battle itself, so no battle is fought to write it.
"""
from __future__ import annotations

import base64
import json
import re
import zlib
from collections.abc import Sequence
from pathlib import Path
from typing import Any

from ..engine.calls import Match
from ..model.edits import Edit
from ..model.errors import CorewarError
from ..model.header import CHECKOUT
from ..model.settings import FORMULA, Settings
from ..engine.warriors import Warrior

# Where the site is in an installation and in a wheel, and in a checkout.
INSTALLED, BUILT = Path(__file__).with_name("site"), CHECKOUT / "build" / "site"
# The element for a fight: a match with a round and edits, as addresses carry it; and the version of that form.
FIGHT = re.compile(r'(<script id="page-fight" type="text/plain">)[^<]*(?=</script>)')
VERSION = 1
# The maximum number of turns of a battle that the site shows.
MAX_TURNS = 16_000_000
# What the settings with two words are called in JavaScript.
NAMES = {"read_limit": "readLimit", "write_limit": "writeLimit"}


def site_folder() -> Path:
    """Returns the folder with the built site. Raises CorewarError if there is none."""
    for folder in (INSTALLED, BUILT):
        if (folder / "one.html").is_file():
            return folder
    raise CorewarError("the site is not built; run `make site`")


def check_length(turns: int) -> None:
    """Raises CorewarError if the site does not show a battle of that many turns."""
    if turns > MAX_TURNS:
        raise CorewarError(f"the battle has {turns} turns, but a page shows at most {MAX_TURNS}; set `-c`")


def source_of(warrior: Warrior) -> tuple[str, str]:
    """Returns the name and the text of a warrior's source, or of its load file. Invalid UTF-8 survives."""
    text = warrior.load if warrior.source is None else warrior.source
    return warrior.files[1] or "warrior.red", text.decode("utf-8", "surrogateescape")


def settings_of(settings: Settings) -> dict[str, int]:
    """Returns settings with the names that they have in JavaScript, where a limit of 0 is the core size."""
    return {NAMES.get(name, name): number or 0 for name, number in vars(settings).items()}


def pack_fight(fight: dict[str, Any]) -> str:
    """Returns the text of a fight, as addresses and pages carry it."""
    deflate = zlib.compressobj(9, wbits=-15)
    data = deflate.compress(json.dumps(fight, separators=(",", ":")).encode()) + deflate.flush()
    return base64.urlsafe_b64encode(data).decode().rstrip("=")


def page_of(
    match: Match,
    formula: str = FORMULA,
    round: int = 0,
    turn: int = 0,
    edits: Sequence[tuple[int, Edit]] = (),
) -> str:
    """Returns the page of a match: it opens at a turn of a round, with the edits after their turns. A page may have
    more warriors than a match: then its address selects some. Raises CorewarError if the site is not built.
    """
    given = {
        "v": VERSION,
        "h": settings_of(match.settings),
        "s": match.seed,
        "n": match.rounds,
        "r": round,
        "p": match.position or 0,
        "f": formula,
        "w": [source_of(warrior) for warrior in match.warriors],
        "e": [(after, edit.text(match.settings.core)) for after, edit in edits],
        "t": turn,
    }
    text = pack_fight(given)
    return FIGHT.sub(lambda found: found[1] + text, (site_folder() / "one.html").read_text(encoding="utf-8"), count=1)
