"""The calls of the library for C at the maximum sizes of their ranges: none runs out of memory."""
import corewar
from corewar.engine.warriors import read_load
from corewar.model.settings import MAX_WARRIORS

MAX_CORE = 1_048_576
PROCESSES = 65_536
MAX_LINES = 65_536
IMP = [(1, 6, 1, 1, 0, 1)]
# Splits until the warrior has the maximum number of processes, which takes some 106,000 turns.
SPLITTER = [(14, 1, 1, 1, 0, 0), (7, 1, 1, 1, MAX_CORE - 1, 0)]
HUGE = corewar.Settings(core=MAX_CORE, processes=PROCESSES, cycles=10, longest=MAX_CORE, distance=MAX_CORE)


def test_longest_warrior() -> None:
    """A warrior as long as the largest core, through its load file, in a battle and in a match."""
    warrior = corewar.Warrior.from_cells(IMP * MAX_CORE, settings=HUGE)
    again = read_load(warrior.load, HUGE)
    assert again.cells.tolist() == warrior.cells.tolist()
    battle = corewar.Battle(corewar.Match((warrior,), settings=HUGE))
    records, touched = battle.play(10, records=10, touched=10)
    assert (battle.turns, len(records), len(touched)) == (10, 10, 10)
    assert corewar.match([warrior], settings=HUGE)[0].wins == 1
    assert corewar.outcomes([warrior], settings=HUGE)["survived"].all()


def test_longest_source() -> None:
    """A source with the maximum number of lines: its cells, and the line of each."""
    source = b"nop\n" * MAX_LINES
    warrior = corewar.assemble(source, settings=HUGE)
    assert len(warrior) == MAX_LINES
    assert warrior.lines == [(line, []) for line in range(1, MAX_LINES + 1)]


def test_most_warriors() -> None:
    """The maximum number of warriors, each with the maximum number of processes, in the largest core."""
    settings = corewar.Settings(core=MAX_CORE, processes=PROCESSES, cycles=140_000, longest=2, distance=2)
    splitter = corewar.Warrior.from_cells(SPLITTER, settings=settings)
    battle = corewar.Battle(corewar.Match((splitter,) * MAX_WARRIORS, settings=settings))
    battle.play(140_000 * MAX_WARRIORS - 1)
    assert [len(queue) for queue in battle.queues] == [PROCESSES] * MAX_WARRIORS
    assert battle.copy() == battle == corewar.Battle.of_bytes(bytes(battle))
    rows = corewar.match([splitter] * MAX_WARRIORS, settings=settings)
    assert [row.ties for row in rows] == [1] * MAX_WARRIORS


def test_longest_history() -> None:
    """A history of a million places, which are all used."""
    imp = corewar.assemble("MOV 0, 1")
    battle = corewar.Battle(corewar.Match((imp, imp), settings=corewar.Settings(cycles=500_000)))
    lines = battle.debug(["run 1000000", "goto 0", "goto 1000000"], 1_000_000)
    assert not [line for line in lines if line.startswith("refused")]


def test_large_league() -> None:
    """A league and a population of 300 warriors, many lineups, and a match with the maximum number of rounds."""
    settings = corewar.Settings(core=80, processes=80, cycles=5, longest=5, distance=5)
    imp = corewar.Warrior.from_cells(IMP, settings=settings)
    assert [row.ties for row in corewar.league([imp] * 300, settings=settings)] == [299] * 300
    assert [row.ties for row in corewar.population([imp] * 300, [imp] * 300, settings=settings)] == [300] * 300
    assert corewar.outcomes([imp], [[0]] * 100_000, settings=settings)["survived"].all()
    assert corewar.match([imp] * 2, settings=settings, rounds=100_000)[0].ties == 100_000
