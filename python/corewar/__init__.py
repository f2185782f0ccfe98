"""Core War on a verified simulator: assembles warriors, runs matches, leagues and populations, and records every turn.

    import corewar
    dwarf = corewar.read("dwarf.red")
    imp = corewar.assemble("MOV 0, 1")
    print(corewar.Contest(rounds=100).league([dwarf, imp]))
    history = corewar.History(corewar.Match((dwarf, imp)))
    print(history.end, history.deaths(history.end))

The package calls the library that `make` builds, and requires cffi and NumPy.
"""
from .analysis.causes import Why
from .analysis.endings import Executed
from .analysis.losses import Death, Tie, fates
from .analysis.study import Access, Hit, Study, study
from .analysis.turns import Location, Turn, Write
from .battle.conditions import Condition
from .battle.history import History
from .battle.rounds import Round, rounds
from .contests.challenge import Challenge
from .contests.comparison import Comparison
from .contests.contest import Contest, Progress
from .contests.league import League
from .contests.melee import Melee
from .contests.standings import Standings
from .engine.battles import Battle
from .engine.calls import Match, Row, assemble, match
from .engine.outcomes import outcomes
from .engine.rewards import points, shares
from .engine.sources import Assembler, Limit, Overrun, read
from .engine.sums import league, population
from .engine.warriors import Warrior
from .explain.errors import Problem, problems
from .model.cells import CELL, MODES, MODIFIERS, OPCODES, cell_limits, cell_of, cell_text, columns
from .model.edits import Edit
from .model.errors import CorewarError, FileError, MarsError
from .model.settings import HILLS, MAX_SEED, MAX_WARRIORS, Settings
from .model.types import Cell, Cells, Indices, Numbers, Owners, Pasts, Positions, Rates, Records
from .pages.player import Player

# The version of the kit: of this package, the Debian packages and the library (MARS_VERSION in its header).
__version__ = "2.0"

# The older names of the errors, which the next version removes.
Refused = CorewarError
Fault = MarsError
FileFault = FileError

__all__ = [
    "CELL", "HILLS", "MAX_SEED", "MAX_WARRIORS", "MODES", "MODIFIERS", "OPCODES", "Access", "Assembler", "Battle",
    "Cell", "Cells", "Challenge", "Comparison", "Condition", "Contest", "CorewarError", "Death", "Edit", "Executed",
    "FileError", "History", "Hit", "Indices", "League", "Limit", "Location", "MarsError", "Match", "Melee", "Numbers",
    "Overrun", "Owners", "Pasts", "Player", "Positions", "Problem", "Progress", "Rates", "Records", "Round", "Row",
    "Settings", "Standings", "Study", "Tie", "Turn", "Warrior", "Why", "Write", "assemble", "cell_limits", "cell_of",
    "cell_text", "columns", "fates", "league", "match", "outcomes", "points", "population", "problems", "read",
    "rounds", "shares", "study",
]  # fmt: skip
