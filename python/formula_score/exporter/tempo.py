"""Tempos that play a grid in time: as few as keep each point of it near its real time.

Times are microseconds times the ticks of a quarter note, so that all numbers are whole: a tick takes as many of them
as a quarter note takes microseconds. A tempo that a shape holds is one mark: it plays each point within a tick, since the
program rounds down to ticks what a tempo map does not round. Where tempos change, points are nearer.
"""

from __future__ import annotations

from bisect import bisect_right
from fractions import Fraction
from typing import NamedTuple, Optional, Sequence

PLAIN = 500_000
SLOWEST = 0xFFFFFF
#: How far a point may lie off its real time, in microseconds.
_NEAR = 900


class Point(NamedTuple):
    """A place on the grid, the time at which it is played, and one near it that is best."""

    place: int
    time: int
    aim: int


class Region(NamedTuple):
    """A part of the grid, and the tempo that it has by its shape; None where that changes."""

    begin: int
    end: int
    tempo: Optional[int]


class Tempos:
    """A tempo map: from each place on a tempo, in microseconds a quarter note."""

    def __init__(self, changes: Sequence[tuple[int, int]], missed: Optional[int] = None):
        self.changes = list(changes)
        #: the first place that no tempo plays in time
        self.missed = missed
        self._places = [place for place, _ in changes]
        self._times = [0]
        for (place, tempo), (behind, _) in zip(changes, changes[1:]):
            self._times.append(self._times[-1] + (behind - place) * tempo)

    def time(self, place: int) -> int:
        """The time of a place."""
        at = bisect_right(self._places, place) - 1
        return self._times[at] + (place - self._places[at]) * self.changes[at][1]

    def place(self, time: int) -> Fraction:
        """The place of a time."""
        at = max(0, bisect_right(self._times, time) - 1)
        return self._places[at] + Fraction(time - self._times[at], self.changes[at][1])

    def tempo_at(self, time: int) -> int:
        """The tempo at a time."""
        return self.changes[max(0, bisect_right(self._times, time) - 1)][1]


def tempos(points: Sequence[Point], regions: Sequence[Region], division: int) -> Tempos:
    """A tempo map for points in rising order, no two at one place; the first one is at place 0 and time 0."""
    near = _NEAR * division
    begins = [region.begin for region in regions]
    changes: list[tuple[int, int]] = []
    missed: Optional[int] = None
    at, time = 0, 0
    while at + 1 < len(points):
        place = points[at].place
        number = bisect_right(begins, place) - 1
        region = regions[number] if number >= 0 and place < regions[number].end else None
        found = _reached(points, at, time, region, near)
        steady = _steady(points, at, time, region)
        if region and region.tempo and steady >= max(found.upto, at + 1):
            tempo, upto = region.tempo, steady
        elif found.upto == at:
            tempo = max(1, min(SLOWEST, (points[at + 1].aim - time) // (points[at + 1].place - place)))
            upto, missed = at + 1, points[at + 1].place if missed is None else missed
        else:
            upto = found.upto
            tempo = max(found.low, min(found.high, (points[upto].aim - time) // (points[upto].place - place)))
        if not changes or changes[-1][1] != tempo:
            changes.append((place, tempo))
        time += (points[upto].place - place) * tempo
        at = upto
    return Tempos(changes or [(0, PLAIN)], missed)


class _Reach(NamedTuple):
    """To which of the points a tempo goes, and the least and the greatest one that does."""

    upto: int
    low: int
    high: int


def _reached(points: Sequence[Point], at: int, time: int, region: Optional[Region], near: int) -> _Reach:
    """How far one tempo goes that plays each point near its time."""
    place = points[at].place
    found = _Reach(at, 1, SLOWEST)
    for upto in range(at + 1, len(points)):
        point = points[upto]
        if region and point.place > region.end and found.upto > at:
            break
        length = point.place - place
        low = max(found.low, -((time + near - point.time) // length))
        high = min(found.high, (point.time + near - time) // length)
        if low > high:
            break
        found = _Reach(upto, low, high)
    return found


def _steady(points: Sequence[Point], at: int, time: int, region: Optional[Region]) -> int:
    """To which of the points of a region its own tempo goes, where it plays each within a tick."""
    if region is None or region.tempo is None or not 0 < region.tempo <= SLOWEST:
        return at
    upto = at
    while upto + 1 < len(points) and points[upto + 1].place <= region.end and abs(
            time + (points[upto + 1].place - points[at].place) * region.tempo - points[upto + 1].time) <= PLAIN:
        upto += 1
    return upto
