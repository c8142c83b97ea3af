"""Which grid the onsets of a file lie on, and where each one goes. Distances are in ticks of a score: 480 a quarter.

A file that a converter made by the ticks of a game, or of a sound card, has one tempo, and no onset lies on its grid: then
its clock is looked for, the step in which the piece goes."""

from __future__ import annotations

import math
from bisect import bisect_left
from collections import Counter
from typing import Iterable, Iterator, NamedTuple, Optional, Sequence

from formula_score.making.lengths import DIVISION, WHOLE_NOTE
from formula_score.reading.notes import is_on
from formula_score.reading.playing import Event, Listing

QUARTER, WHOLE = DIVISION, WHOLE_NOTE

#: Parts of a whole note: a 64th, a triplet and a quintuplet below an eighth. Positions of any two of these grids are
#: at least six ticks apart, so a position within two ticks is the only one.
FINEST = (64, 48, 40)
_PLAIN = (32, 24)
#: Grids from the coarsest on, for what is told.
LADDER: tuple[tuple[int, ...], ...] = ((4,), (8,), (8, 12), (16,), (16, 12), (16, 24), (32,), (32, 24), (32, 48), (64,),
                                       (64, 48), FINEST)
#: The share of onsets near the grid from which on a file is one that was written on it.
WRITTEN = 0.9
#: So many places in a quarter note are enough to find where a grid begins.
_PLACES = 400
_SIXTEENTH = WHOLE // 16
#: How sharply the onsets have to lie on the step: 1 where all do, about 0 by chance; and how sharply the first ones.
_SHARP, _NEARLY = 0.95, 0.9
_LEAST_ONSETS, _FEW, _PEAKS = 40, 150, 6
#: The first onsets lie in so many quarter notes of the file.
_QUARTERS = 200
_TEMPO = b"\xff\x51"


class Step(NamedTuple):
    """How far onsets may move, and on which grid."""

    near: int
    parts: tuple[int, ...]


#: The nearest first: the positions of each grid are far enough apart.
STEPS = (Step(2, FINEST), Step(6, _PLAIN), Step(10, (16, 24)))


class Grid:
    """Positions in each whole note."""

    def __init__(self, parts: Sequence[int] = FINEST):
        self.parts = tuple(parts)
        places = {WHOLE * step // part for part in parts for step in range(part)}
        self.places = [*sorted(places), WHOLE]

    def nearest(self, tick: int, division: int) -> int:
        """The nearest position to a tick of a file with so many ticks a quarter note; of two the earlier one."""
        whole, inside = divmod(tick * QUARTER, WHOLE * division)
        at = bisect_left(self.places, -(-inside // division))
        near = min(self.places[max(0, at - 1):at + 1], key=lambda place: abs(place * division - inside))
        return whole * WHOLE + near

    @property
    def half(self) -> float:
        """Half of its widest step: no tick lies farther away."""
        return max(later - earlier for earlier, later in zip(self.places, self.places[1:])) / 2


def distance(position: int, tick: int, division: int) -> float:
    """How far a tick of a file lies from a position, in ticks of a score."""
    return abs(position - tick * QUARTER / division)


def rounded(tick: int, division: int) -> int:
    """The nearest tick of a score."""
    return (2 * tick * QUARTER + division) // (2 * division)


class Fit(NamedTuple):
    """How the onsets lie on a grid: how many there are, how many near it, and how far all are from it in the mean,
    as a part of what is expected by chance (a quarter of the mean distance of its positions)."""

    onsets: int
    near: int
    looseness: float

    @property
    def share(self) -> float:
        """The part that is near."""
        return self.near / max(1, self.onsets)


def fit(grid: Grid, ticks: Iterable[int], division: int, near_by: int = STEPS[0].near) -> Fit:
    """How ticks of a file lie on a grid; near is what is so many ticks of a score away, or fewer."""
    count = near = 0
    total = 0.0
    for tick in ticks:
        away = distance(grid.nearest(tick, division), tick, division)
        count, near, total = count + 1, near + (away <= near_by), total + away
    chance = WHOLE / (len(grid.places) - 1) / 4
    return Fit(count, near, total / max(1, count) / chance)


def shift_of(ticks: Iterable[int], division: int) -> int:
    """How many ticks of the file a grid begins after its tick 0, at most a quarter of a quarter note; before it where
    that is below 0. It is 0 but where the finest grid fits badly and another beginning makes it fit well."""
    places = Counter(dict(Counter(tick % division for tick in ticks).most_common(_PLACES)))
    count, grid, stride = sum(places.values()), Grid(_PLAIN), -(-division // QUARTER)
    if division < 4 or not count or _near(grid, places, division, 0) >= 0.8 * count or (
            _near(Grid(FINEST), places, division, 0) >= WRITTEN * count):
        return 0
    near = {by: _near(grid, places, division, by) for by in range(-division // 4 + 1, division // 4 + 1, stride)}
    most = max(near.values())
    if most < WRITTEN * count:
        return 0
    best = min((by for by in near if near[by] >= 0.97 * most), key=lambda by: (abs(by), -near[by]))
    reach = 2 * STEPS[1].near * division // QUARTER + 2 * stride
    exact = [by for by in range(best - reach, best + reach + 1) if _near(grid, places, division, by) >= 0.97 * most]
    return max(exact, key=lambda by: (_near(grid, places, division, by, STEPS[0].near), -abs(by)))


def _near(grid: Grid, places: Counter[int], division: int, by: int, near_by: int = STEPS[1].near) -> int:
    found = 0
    for place, count in places.items():
        tick = place - by + division
        found += count * (distance(grid.nearest(tick, division), tick, division) <= near_by)
    return found


# ---- the clock of a file

class Clock(NamedTuple):
    """How sharp a step of a sixteenth is, how many ticks of the file it has, and where the first one begins."""

    sharp: float
    step: float
    first: int


def clock_in(listing: Listing) -> Optional[Clock]:
    """Another clock, where the file has one tempo on whose grid few onsets lie."""
    tempos = {event.message for event in listing.events if event.message[:2] == _TEMPO}
    onsets = sorted({event.tick for event in listing.events if is_on(event)})
    if len(tempos) > 1 or fit(Grid(), onsets, listing.division).share >= 0.6 or (
            fit(Grid((16, 24)), onsets, listing.division, 10).share >= 0.7):
        return None
    return clock_of(onsets, listing.division)


def clock_of(onsets: Sequence[int], division: int) -> Optional[Clock]:
    """The step on which the onsets lie most sharply, from an 11th of a quarter note of the file to a third of it: looked
    for among the first onsets, and then sharpened with more and more of them."""
    few: Sequence[int] = [tick for tick in onsets[:_FEW] if tick - onsets[0] <= _QUARTERS * division]
    if len(few) < _LEAST_ONSETS or division < 20:
        return None
    found = sorted(_scan(few, max(4.0, division / 11), division / 2.9))[-_PEAKS:]
    while len(few) < len(onsets):
        sharp, span, few = [clock for clock in found if clock.sharp >= _NEARLY], few[-1] - few[0] + 1, onsets[:4 * len(few)]
        found = [max(_scan(few, step - step ** 2 / span / 2, step + step ** 2 / span / 2)) for _, step, _ in sharp]
    best = max(found, default=None)
    return best if best and best.sharp >= _SHARP else None


def _scan(onsets: Sequence[int], low: float, high: float) -> Iterator[Clock]:
    first, span = onsets[0], onsets[-1] - onsets[0] + 1
    step = low
    while step < high:
        turn = 2 * math.pi / step
        across = sum(math.sin(turn * (tick - first)) for tick in onsets)
        along = sum(math.cos(turn * (tick - first)) for tick in onsets)
        yield Clock(math.hypot(across, along) / len(onsets), step, first)
        step += step * step / span / 5


def by_clock(clock: Clock, listing: Listing) -> Listing:
    """The file in ticks of the score, in which a sixteenth is the step; its tempos are changed as its ticks are."""
    scale = _SIXTEENTH / clock.step
    early = clock.first * scale % _SIXTEENTH
    events = []
    for event in listing.events:
        message = event.message
        if message[:2] == _TEMPO and len(message) == 6:
            tempo = int.from_bytes(message[3:6], "big") * QUARTER / (scale * listing.division)
            message = message[:3] + min(0xFFFFFF, round(tempo)).to_bytes(3, "big")
        events.append(Event(event.track, max(0, round(event.tick * scale - early)), message))
    if not any(event.message[:2] == _TEMPO for event in events):
        tempo = round(500_000 * QUARTER / (scale * listing.division))
        events.insert(0, Event(0, 0, _TEMPO + b"\x03" + tempo.to_bytes(3, "big")))
    return Listing(listing.format, listing.tracks, QUARTER, events)
