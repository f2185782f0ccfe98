"""Finds the turns in which a process of a history and its ancestors were born, also if there are edits between them."""
from __future__ import annotations

from collections.abc import Sequence

from ..model.edits import ADD, KILL, Edit
from .runs import Segment


def births_of(segments: Sequence[Segment], turn: int, warrior: int, index: int) -> tuple[list[int], int | None]:
    """Returns the turns in which a process and its ancestors were born, its own birth first; and the turn after which
    an edit added the earliest ancestor, or None if that ancestor was loaded.

    The process has `index` in the queue of its warrior after `turn`, with the edits made after that turn. Raises
    `MarsError` if there is no such process.
    """
    births = list[int]()
    for segment in reversed([one for one in segments if one.first <= turn]):
        start = segment.run.at(segment.first)
        found, index = start.ancestors(warrior, index, min(turn, segment.last) - segment.first)
        births += found
        edit = segment.run.edit
        if edit and is_added(edit, warrior, index, len(start.queues[warrior])):
            return births, segment.first
        index += bool(edit and is_moved_up(edit, warrior, index))
    return births, None


def is_added(edit: Edit, warrior: int, index: int, count: int) -> bool:
    """Returns whether an edit added the process with this index, which is then the last of `count` in the queue."""
    return edit.what == ADD and edit.warrior == warrior and index == count - 1


def is_moved_up(edit: Edit, warrior: int, index: int) -> bool:
    """Returns whether an edit killed a process that was in the queue before the process that now has this index."""
    return edit.what == KILL and edit.warrior == warrior and index >= edit.index
