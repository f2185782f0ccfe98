"""A battle as a value: a block of words that the library plays, edits and checks in place."""
from __future__ import annotations

from collections.abc import Sequence
from itertools import chain
from typing import Any

import numpy as np
from numpy.typing import NDArray

from ..model.types import Cells, Pasts, Records
from ..model.edits import SET, Edit
from ..model.errors import EDIT, MarsError
from ..model.header import numbers
from .binding import MAX_UINT32, array, call, check_size, clamp, dtype_of, library, read_text, settings_struct, slice_of
from .calls import Match, check_count, warrior_arrays
from .parts import TURNS
from .warriors import clamp_fields

Words = NDArray[np.uint32]
# The number of words before the cells.
HEADER = 64
# The maximum number of turns of a call that returns records, touched cells or the turns that meet conditions; and the
# types of a record and of the touched cells of a turn.
RECORDED_TURNS, ROWS = 65_536, ("MarsRecord", "MarsTouched")
# The number of births for which the first buffer of `ancestors` has room.
BIRTHS = 1000
# The size of the debugger's history in places, if none is given.
HISTORY = 200_000
# The number of an edit's error if an address is outside the core, or the first address of a fill is above the last.
ADDRESS = numbers()["EDIT_ADDRESS"]


class Battle:
    """A battle as a value. Warriors are numbered from 0 in the order of their turns.

    - `match`: the match
    - `round`: the round, from 0

    The battle is at the start of the round, and `play` and `edit` change it in place. Its core, queues and deaths are
    views of its words, so a program may also write to them; the next call checks the words, as `check` does at once.
    `bytes(battle)` are the words without unused capacity, the `MarsBattle` of the API for C: equal battles have equal
    bytes. Raises `MarsError` if the match is invalid, and `CorewarError` if it has more than 16 warriors.
    """

    def __init__(self, match: Match, round: int = 0) -> None:
        check_count(len(match.warriors))
        settings = settings_struct(match.settings, round + 1, match.seed, match.position)
        self._words: Words = array("uint32_t", library()[1].mars_words(settings, len(match.warriors)))
        call("mars_start", settings, *warrior_arrays(match.warriors, match.settings.core), clamp(round), *self._slice())

    @staticmethod
    def of_bytes(data: bytes) -> Battle:
        """Returns the battle with these bytes. Raises `MarsError` if they are not a battle."""
        # `bytearray` would turn a number into zeros; a memoryview rejects it.
        words = np.frombuffer(bytearray(memoryview(data)), np.uint32, len(data) // 4)
        call("mars_check", *slice_of("uint32_t", words))
        return battle_of_words(words)

    def __bytes__(self) -> bytes:
        return self._words[: self._head["words"]].tobytes()

    def __eq__(self, other: object) -> bool:
        if not isinstance(other, Battle):
            return NotImplemented
        return bytes(self) == bytes(other)

    def __repr__(self) -> str:
        return f"<Battle of {self._head['warriors']} warriors after {self.turns} turns>"

    # A battle changes, so it has no hash.
    __hash__ = None  # type: ignore[assignment]

    def _slice(self) -> tuple[Any, int]:
        return slice_of("uint32_t", self._words)

    @property
    def _head(self) -> np.void:
        head: np.void = self._words[:HEADER].view(dtype_of("MarsBattle"))[0]
        return head

    @property
    def turns(self) -> int:
        """The number of turns executed."""
        return int(self._head["turns"])

    @property
    def cycle(self) -> int:
        """The number of cycles completed."""
        return int(self._head["cycle"])

    @property
    def next(self) -> int:
        """The warrior whose turn is next."""
        return int(self._head["next"])

    @property
    def over(self) -> bool:
        """Whether no turn is left."""
        return bool(self._head["over"])

    @property
    def cells(self) -> Cells:
        """The core, an array with the fields op, modifier, a_mode, b_mode, a and b."""
        return self._words[HEADER : HEADER + 3 * self._head["core"]].view(dtype_of("MarsCell"))

    @property
    def queues(self) -> list[NDArray[np.uint32]]:
        """For each warrior an array with the addresses of its processes, the next one first."""
        head = self._head
        counts = head["queue"][: head["warriors"]].astype(np.intp)
        return np.split(self._words[HEADER + 3 * head["core"] : head["words"]], np.cumsum(counts)[:-1])

    @property
    def deaths(self) -> Records:
        """The deaths in their order, an array with the fields warrior and turns."""
        deaths: Records = self._head["death"][: self._head["deaths"]]
        return deaths

    def copy(self) -> Battle:
        """Returns a copy, which changes independently."""
        return battle_of_words(self._words)

    def check(self) -> None:
        """Raises `MarsError` if something that was written to the battle is invalid."""
        call("mars_check", *self._slice())

    def play(self, turns: int | None = None, *, records: int = 0, touched: int = 0) -> tuple[Records, Records]:
        """Executes turns until the battle is over, or until `turns` of them are executed.

        - `turns`: the maximum number of turns, or None for all that are left
        - `records`: the maximum number of records to return, those of the first turns; a record has 120 bytes
        - `touched`: the maximum number of rows to return, each with the cells that one of the first turns touched

        Returns an array with the fields of `MarsRecord` and one with those of `MarsTouched` in the API for C. Raises
        `CorewarError` for a negative number, and `MarsError` if something that was written to the battle is invalid.
        """
        before, wanted = self.turns, (check_size(records), check_size(touched))
        # No battle has as many turns as MAX_UINT32.
        left = MAX_UINT32 if turns is None else check_size(turns)
        parts: list[tuple[Records, Records]] = []
        while True:
            # Python raises Ctrl-C between two calls, and a call allocates rows for at most RECORDED_TURNS turns.
            done = self.turns - before
            count = min(left, RECORDED_TURNS if done < max(wanted) else TURNS)
            rows = [array(*one) for one in zip(ROWS, (min(count, max(0, most - done)) for most in wanted))]
            call("mars_play", *self._slice(), count, *chain(*map(slice_of, ROWS, rows)))
            made = self.turns - before - done
            parts.append((rows[0][:made], rows[1][:made]))
            left -= count
            if left <= 0 or self.over:
                break
        recorded, seen = (one[0] if len(parts) == 1 else np.concatenate(one) for one in zip(*parts))
        return recorded, seen

    def follow(self, pasts: Pasts, turns: int, conditions: Sequence[tuple[int, int, int, int]] = ()) -> Records:
        """Executes turns as `play` does, and updates the past of each cell in place, as `mars_follow` does.

        - `pasts`: the past of each cell before these turns, as an array with the fields of `MarsPast`
        - `turns`: the maximum number of turns
        - `conditions`: the fields of each `MarsCondition`

        Returns the turns that meet all conditions, as an array with the fields of `MarsFound`. It is empty if there are
        no conditions. Raises `MarsError` for a condition whose `way` or `number` does not exist, and if something that
        was written to the battle is invalid.
        """
        asked, count = array("MarsCondition", len(conditions)), library()[0].new("uint32_t *")
        asked[:] = [*conditions]
        parts, end = [array("MarsFound", 0)], self.turns + turns
        while self.turns < end and not self.over:
            # Python raises Ctrl-C between two calls.
            made = min(end - self.turns, RECORDED_TURNS)
            found = array("MarsFound", made if len(conditions) else 0)
            rows = (("MarsPast", pasts), ("MarsCondition", asked), ("MarsFound", found))
            call("mars_follow", *self._slice(), made, *chain(*(slice_of(*one) for one in rows)), count)
            parts.append(found[: count[0]])
        return np.concatenate(parts)

    def ancestors(self, warrior: int, index: int, turns: int | None = 0) -> tuple[list[int], int]:
        """Finds the turns in which a process and its ancestors were born, as `mars_ancestors`. The battle is unchanged.

        - `warrior`: the warrior of the process
        - `index`: its index in the queue after the turns; the front has index 0
        - `turns`: the number of turns to look ahead, or None for all that are left

        Returns the turns: first that of the birth of the process, then that of the process that split there, and so on.
        Also returns the index, in the queue before the turns, of the process from which all of them descend. Raises
        `MarsError` if there is no such process after the turns, and if something that was written to the battle is
        invalid.
        """
        ahead = MAX_UINT32 if turns is None else check_size(turns)
        count, first = (library()[0].new("uint32_t *") for _ in range(2))
        given = [*self._slice(), ahead, clamp(warrior), clamp(index)]
        births = array("uint32_t", BIRTHS)
        call("mars_ancestors", *given, *slice_of("uint32_t", births), count, first)
        if count[0] > len(births):
            births = array("uint32_t", count[0])
            call("mars_ancestors", *given, *slice_of("uint32_t", births), count, first)
        return births[: count[0]].tolist(), first[0]

    def edit(self, edit: Edit) -> None:
        """Makes an edit, also if the battle is over.

        Raises `MarsError`, and changes nothing, if the edit is impossible: `refused 2 Address`, `3 FieldOutside`,
        `4 NoSuchWarrior`, `5 NoSuchProcess`, `6 WarriorDead` or `7 QueueFull`, and `1 NoSuchEdit` if the kind of the
        edit or a part of its cell does not exist. Raises `TypeError` for what is not an edit, and `ValueError` for a
        cell that is not six numbers.
        """
        if not isinstance(edit, Edit):
            raise TypeError(f"expected an edit, as the methods of Edit return it, not {edit!r}")
        is_fill = edit.what == SET and edit.last != edit.address
        if is_fill and not edit.address <= edit.last < self._head["core"]:
            raise MarsError(EDIT, ADDRESS)
        numbers = [clamp(edit.what), clamp(edit.warrior), clamp(edit.index), clamp(edit.address)]
        call("mars_edit", *self._slice(), library()[0].new("MarsEdit *", [*numbers, clamp_fields(edit.cell)]))
        if is_fill:
            # The library has checked the new cell.
            self.cells[edit.address : edit.last + 1] = self.cells[edit.address]

    def debug(self, lines: Sequence[str], history: int = HISTORY) -> str:
        """Runs the debugger of `mars -e` on the battle, which stays as it is, and returns its replies.

        - `lines`: the commands, without ends of lines
        - `history`: the size of the history in places, 1 to 1,000,000

        Raises `MarsError` if `history` is out of its range or memory runs out. A command that cannot be executed has a
        reply that begins with `refused`. Raises `TypeError` for a text, since its letters would be taken for commands.
        """
        if isinstance(lines, str):
            raise TypeError("expected a sequence of debugger commands, not a text")
        given = [*self._slice(), clamp(history), *slice_of("uint8_t", "".join(f"{line}\n" for line in lines).encode())]
        return read_text(65536, lambda *room: call("mars_debug", *given, *room)).decode("latin-1")


def battle_of_words(data: Words | bytes) -> Battle:
    """Returns the battle with these words, which are known to be valid, with capacity for all processes."""
    words = np.frombuffer(data, np.uint32)
    head = words[:HEADER].view(dtype_of("MarsBattle"))[0]
    core, warriors, processes, length = (int(head[name]) for name in ("core", "warriors", "processes", "words"))
    battle = Battle.__new__(Battle)
    battle._words = array("uint32_t", HEADER + 3 * core + warriors * processes)
    battle._words[:length] = words[:length]
    return battle
