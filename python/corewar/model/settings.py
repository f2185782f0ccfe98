"""The settings of matches: numbers with their ranges, and the settings of known hills."""
from __future__ import annotations

from dataclasses import dataclass

from .header import enumeration

FORMULA = "(W*W-1)/S"
# No number of an option or a command has more digits.
MAX_DIGITS = 18
# The limits of the header.
LIMITS = enumeration("MAX_CORE")
MAX_CORE = LIMITS["MAX_CORE"]
# The maximum number of warriors of a match, and of a league, and the greatest seed.
MAX_WARRIORS, MAX_LEAGUE, MAX_SEED = LIMITS["MAX_WARRIORS"], LIMITS["MAX_LEAGUE"], LIMITS["MAX_SEED"]
# The maximum size of a source or load file, in bytes.
MAX_FILE_SIZE = 1_048_576


def whole(text: str) -> int | None:
    """Returns the number that decimal digits stand for, or None for another text and for more than 18 digits."""
    return int(text) if text.isdecimal() and len(text) <= MAX_DIGITS else None


@dataclass(frozen=True, kw_only=True)
class Settings:
    """The parameters of a core, with the defaults of `mars`.

    - `core`: the core size in cells, 1 to 1,048,576
    - `processes`: the maximum number of processes of a warrior, 1 to 65,536
    - `cycles`: the maximum number of cycles of a round, 1 to 10,000,000
    - `longest`: the maximum length of a warrior in cells, 1 to the core size
    - `distance`: the minimum distance between warriors in cells, from `longest` to the core size
    - `read_limit`, `write_limit`: how far instructions read and write, 1 to the core size; None is the core size

    The ranges are checked by the calls that use the settings.
    """

    core: int = 8000
    processes: int = 8000
    cycles: int = 80000
    longest: int = 100
    distance: int = 100
    read_limit: int | None = None
    write_limit: int | None = None


# The settings of known hills. The first hill has the default settings.
HILLS = {
    "94nop": Settings(),
    "94x": Settings(core=55440, processes=10000, cycles=500000, longest=200, distance=200),
    "tiny": Settings(core=800, processes=800, cycles=8000, longest=20, distance=20),
    "nano": Settings(core=80, processes=80, cycles=800, longest=5, distance=5),
}


def settings_of(given: Settings | str) -> Settings:
    """Returns settings, given as such or by the name of a hill. Raises ValueError for another name."""
    if isinstance(given, Settings):
        return given
    if given not in HILLS:
        raise ValueError(f"expected settings or one of {', '.join(HILLS)}, not {given!r}")
    return HILLS[given]


@dataclass(frozen=True)
class Number:
    """A number among the options: its option in `mars`, what it means, its bounds, and its range in words if that
    depends on other options.
    """

    word: str
    meaning: str
    minimum: int
    maximum: int
    words: str = ""

    @property
    def range(self) -> str:
        return self.words or f"{self.minimum} to {self.maximum}"


UP_TO_CORE = "1 to the core size"
NUMBERS = {
    "core": Number("-s", "core size", 1, MAX_CORE),
    "cycles": Number("-c", "cycle limit", 1, LIMITS["MAX_CYCLES"]),
    "processes": Number("-p", "process limit", 1, LIMITS["MAX_PROCESSES"]),
    "longest": Number("-l", "maximum length of a warrior", 1, MAX_CORE, UP_TO_CORE),
    "distance": Number("-d", "minimum distance", 1, MAX_CORE, "from the maximum length to the core size"),
    "read_limit": Number("--read-limit", "read limit", 1, MAX_CORE, UP_TO_CORE),
    "write_limit": Number("--write-limit", "write limit", 1, MAX_CORE, UP_TO_CORE),
    "rounds": Number("-r", "number of rounds", 1, LIMITS["MAX_ROUNDS"]),
    "seed": Number("--seed", "seed for the starting positions", 1, MAX_SEED),
    "position": Number(
        "-F", "position of warrior 2", 1, MAX_CORE, "from the minimum distance to the core size minus it"
    ),
}
# What a number is called where results are shown, if not by its own name.
LABELS = {"core": "core size", "longest": "max length", "distance": "min distance"}


def label(name: str) -> str:
    """Returns what the number of this name is called where results are shown."""
    return LABELS.get(name, name.replace("_", " "))
