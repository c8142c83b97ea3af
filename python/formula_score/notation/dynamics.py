"""Dynamics, hairpins and accents, from the velocities of a staff alone."""

from __future__ import annotations

from bisect import bisect_left
from typing import NamedTuple, Sequence

from ..making.expected import DEFAULT_VELOCITY
from ..making.midi import DYNAMICS
from .places import MOST_ENDINGS, Bar
from .sheet import Part
from .touch import breaks_of

_FEWEST, _LEAST, _STEP, _ACCENT = 4, 12, 12, 20
_Row = tuple[int, int]


class Loudness(NamedTuple):
    """A word at a place: a dynamic, or `<(` and `<)`, `>(` and `>)`, where a hairpin begins and ends."""

    place: int
    word: str


class Dynamics(NamedTuple):
    """All that a staff has, and the places at which notes are accented."""

    words: tuple[Loudness, ...] = ()
    accents: frozenset[int] = frozenset()


def _level(velocity: int) -> str:
    return min(DYNAMICS, key=lambda word: abs(DYNAMICS[word] - velocity))


def _run(rows: Sequence[_Row], at: int, sign: int) -> int:
    """The last row up to which the velocities rise (or fall) in small steps."""
    last = at
    while last + 1 < len(rows) and 0 < sign * (rows[last + 1][1] - rows[last][1]) <= _STEP:
        last += 1
    return last if last - at + 1 >= _FEWEST and sign * (rows[last][1] - rows[at][1]) >= _LEAST else at


class _Staff:
    def __init__(self) -> None:
        self.words: list[Loudness] = []
        self.accents: set[int] = set()
        self.level = ""

    def add(self, rows: Sequence[_Row]) -> None:
        """Adds a passage; no hairpin goes on behind it."""
        at = base = 0
        while at < len(rows):
            place, velocity = rows[at]
            sign, last = max(((sign, _run(rows, at, sign)) for sign in (1, -1)), key=lambda run: run[1])
            behind = [other for _, other in rows[at + 1:at + 3]]
            if self.level and base and velocity >= base + _ACCENT and (
                    not behind or min(behind) < velocity - _ACCENT // 2):
                self.accents.add(place)
                at += 1
                continue
            level = _level(velocity)
            if level != self.level and (not self.level or last > at or all(_level(other) == level for other in behind)):
                self.level = level
                self.words.append(Loudness(place, level))
            base = velocity
            if last > at:
                mark = "<" if sign > 0 else ">"
                self.words += [Loudness(place, f"{mark}("), Loudness(rows[last][0], f"{mark})")]
                self.level = ""
            at = max(last, at + 1)


def dynamics_of(part: Part, bars: Sequence[Bar]) -> Dynamics:
    """The dynamics of a staff: of several voices the loudest counts. What comes behind a repeat sign says its own where
    one comes to it in another; a staff that is struck as a score is that says nothing has none."""
    loudest: dict[int, int] = {}
    for voice in part.voices:
        for note in voice:
            loudest[note.begin] = max(loudest.get(note.begin, 0), note.velocity)
    if {*loudest.values()} == {DEFAULT_VELOCITY}:
        return Dynamics()
    rows, staff, repeats = sorted(loudest.items()), _Staff(), {bar.begin for bar in bars if bar.forward}
    edges = [0, *breaks_of(bars), rows[-1][0] + 1]
    passages = [rows[bisect_left(rows, (begin, 0)):bisect_left(rows, (end, 0))] for begin, end in zip(edges, edges[1:])]
    levels = [{_level(velocity) for _, velocity in passage} for passage in passages]
    for at, (begin, passage) in enumerate(zip(edges, passages)):
        # one comes to a repeat from its last ending, and to an ending from what is before the first one
        first, last = (at - 1, at + MOST_ENDINGS) if begin in repeats else (at - MOST_ENDINGS, at)
        if len(set[str]().union(*levels[max(0, first):last + 1])) > 1:
            staff.level = ""
        staff.add(passage)
    return Dynamics(tuple(staff.words), frozenset(staff.accents))
