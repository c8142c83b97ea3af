"""The tracks of an export: a branch with a channel each, with a name that the score has for it."""

from __future__ import annotations

from typing import NamedTuple, Optional

from ..making.midi import INSTRUMENTS
from ..reading.branches import called
from ..reading.walk import Played
from .axis import Heard


class Staff(NamedTuple):
    """What one track has: its name, its instrument if it has one, and its events."""

    name: str
    instrument: str
    events: tuple[Heard, ...]


def staves(walk: Played, events: list[Heard]) -> list[Staff]:
    """The tracks of the events, in the order in which the branches stand."""
    branch_of: list[Optional[int]] = []
    name_of: dict[Optional[int], str] = {}
    for number, comment, phrase in (called(walk, process) for process in range(len(walk.begun))):
        branch_of.append(number)
        name_of[number] = name_of.get(number) or comment or phrase
    groups: dict[tuple[Optional[int], int], list[Heard]] = {}
    for event in events:
        groups.setdefault((branch_of[event.process], event.message[0] & 15), []).append(event)
    for (branch, channel), own in list(groups.items()):
        other = next((key for key in groups if key[0] is not None and key[1] == channel), None)
        if branch is None and other is not None:  # what stands round a `par` goes to its branch of the same channel
            groups[other] += groups.pop((branch, channel))
    found = []
    for (branch, channel), own in sorted(groups.items(), key=lambda item: (item[0][0] is None, item[0])):
        several = sum(key[0] == branch for key in groups) > 1
        name = name_of[branch] or (f"branch {branch + 1}" if branch is not None else "score")
        program = next((event.message[1] for event in sorted(own) if event.message[0] >> 4 == 0xC), None)
        found.append(Staff(f"{name}, channel {channel}" if several else name,
                           INSTRUMENTS[program] if program is not None and channel != 9 else "", tuple(own)))
    return found
