"""What opcodes, directives, modifiers, modes and predefined names mean, in the words of LANGUAGE.md."""
from __future__ import annotations

import json
from importlib.resources import files

WORDS: dict[str, dict[str, str]] = json.loads((files("corewar.explain") / "words.json").read_text("ascii"))
OPCODES = WORDS["opcodes"]
DIRECTIVES = WORDS["directives"]
MODIFIERS = WORDS["modifiers"]
PREDEFINED = WORDS["predefined"]
