"""The events of a score on the grid, the tempos that play them in time, and the ticks that the file needs for both."""

from __future__ import annotations

from typing import NamedTuple

from ..reading.meter import Meter
from ..reading.walk import Level, Played
from .axis import Axis, Heard, Spot, heard
from .tempo import PLAIN, SLOWEST, Point, Region, tempos

_MOST_TICKS = 0x7FFF


class Grid(NamedTuple):
    """An export: its ticks a quarter note, its tempos, each event with its tick, and the last tick.

    `lead` is how long a rest is that stands before the score, and `beside` counts events that lie off the grid, since
    another voice makes the tempo, or since they end where a breath begins.
    """

    division: int
    tempos: tuple[tuple[int, int], ...]
    events: tuple[tuple[int, Heard], ...]
    end: int
    lead: int
    beside: int


def grid_of(walk: Played, meter: Meter) -> Grid:
    """The grid of a score."""
    events = heard(walk)
    last = Heard(walk.tick_of_end(len(walk.begun) - 1), len(walk.begun), 0, b"", Spot(None, 0))
    end = walk.ended[len(walk.begun) - 1]
    last = last._replace(spot=Spot(None, last.tick) if not end.levels else Spot(end.levels[0], end.position))
    left_out: frozenset[Level] = frozenset()
    while True:
        axis = Axis(walk, 0, left_out)
        if any(axis.of(event.spot) == 0 and event.tick > 0 for event in events):
            axis = Axis(walk, meter.start(2) - meter.start(1), left_out)
        making = _Making(walk, axis, [*events, last])
        if making.tempos.missed is None or not axis.sections:
            return making.grid()
        # what is too slow for a tempo stays in the places of the notes
        left_out |= {axis.near(making.tempos.missed).level}


class _Making:
    def __init__(self, walk: Played, axis: Axis, events: list[Heard]):
        self.axis, self.division, self.events = axis, walk.reading.division, events
        self.direct = [axis.of(event.spot) for event in events]
        self.moved: dict[tuple[int, int], int] = {}
        regions = [Region(begin, end, PLAIN * part.first // 1000 if part.kind == "flat" else None)
                   for begin, end, part in axis.stretches()]
        self.tempos = tempos(self.points(), _filled(regions), self.division)

    def behind(self, spot: Spot) -> int:
        """How far the best time of a place in a warp lies behind its tick: half a tick before where it is unrounded."""
        return int(self.axis.exactly(spot) * PLAIN) - PLAIN // 2

    def points(self) -> list[Point]:
        """The places of the grid with their times; of a place that has two, the earlier one comes shortly before."""
        at: dict[int, dict[int, Point]] = {0: {0: Point(0, 0, 0)}}
        for event, place in zip(self.events, self.direct):
            if place is not None and place not in at or place is not None and event.tick not in at[place]:
                aim = event.tick * PLAIN + (self.behind(event.spot) if event.spot.level is not None else 0)
                at.setdefault(place, {})[event.tick] = Point(place, event.tick * PLAIN, aim)
        for place, spot, tick in self.axis.edges():
            at.setdefault(place, {tick: Point(place, tick * PLAIN, tick * PLAIN + self.behind(spot))})
        found: list[Point] = []
        for place in sorted(at):
            *earlier, latest = [at[place][tick] for tick in sorted(at[place])]
            for point in earlier:
                before = -(-(latest.time - point.time) // (SLOWEST - SLOWEST // 16))
                if found and found[-1].place < place - before:
                    self.moved[place, point.time] = place - before
                    found.append(Point(place - before, point.time, point.time))
            found.append(latest)
        return found

    def grid(self) -> Grid:
        """The whole."""
        found = self.tempos
        beside = [event for event, place in zip(self.events, self.direct) if place is None]
        slowest = max([found.tempo_at(event.tick * PLAIN) for event in beside], default=0)
        times = max(1, min(-(-slowest // (1200 * self.division)), _MOST_TICKS // self.division))
        placed = []
        for event, place in zip(self.events, self.direct):
            if place is None:
                placed.append((round(times * found.place(event.tick * PLAIN)), event))
            else:
                placed.append((times * self.moved.get((place, event.tick * PLAIN), place), event))
        *events, (end, _) = placed
        end = max([end, *(tick for tick, _ in events)])
        changes = tuple((times * place, tempo) for place, tempo in found.changes)
        notes = sum(event.message[:1] != b"" for event in beside) + len(self.moved)
        return Grid(times * self.division, changes, tuple(events), end, times * self.axis.lead, notes)


def _filled(regions: list[Region]) -> list[Region]:
    """The regions, with those of 120 quarter notes a minute between them."""
    found, at = [], 0
    for region in sorted(regions):
        if at < region.begin:
            found.append(Region(at, region.begin, PLAIN))
        found.append(region)
        at = region.end
    return [*found, Region(at, 2 ** 62, PLAIN)]
