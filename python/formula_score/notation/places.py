"""Places and lengths as notation has them: whole numbers of parts of a whole note, and bars over them."""

from __future__ import annotations

from functools import lru_cache
from math import gcd
from typing import NamedTuple

from ..reading.meter import Meter
from ..reading.playing import Failed

#: The parts of a whole note in which all places are counted; each printed value is a whole number of them.
WHOLE = 2 ** 10 * 315
MOST_BARS = 10_000
MOST_ENDINGS = 3
#: Into how many parts of a span notes may fall, beside halves; and how short its plain parts may be.
_ODD_PARTS = (3, 5, 7, 9)
_SHORTEST, _SHORTEST_OF_ODD = 128, 64
_NEAREST = (64, 48)


class Bar(NamedTuple):
    """A bar: where it begins and ends, its signature, and the repeat signs at its lines.

    `forward` begins a repeat, `backward` ends one that is played so often. `opens` and `closes` are the rounds of an
    ending that begins, or ends, here.
    """

    number: int
    begin: int
    end: int
    beats: int
    unit: int
    forward: bool = False
    backward: int = 0
    opens: tuple[int, ...] = ()
    closes: tuple[int, ...] = ()

    @property
    def beat(self) -> int:
        """How long a beat is: three units where they are counted by threes."""
        return (3 if self.is_compound else 1) * WHOLE // self.unit

    @property
    def is_compound(self) -> bool:
        """Whether its units are counted by threes."""
        return self.unit >= 8 and self.beats % 3 == 0 and self.beats > 3


def odd(number: int) -> int:
    """A number without its factors of two."""
    return number // (number & -number)


@lru_cache(maxsize=65536)
def nearest(ticks: int, whole: int) -> int:
    """The place that notation has for a tick, or the nearest one; so many ticks are a whole note."""
    under = whole // gcd(ticks, whole)
    even = under & -under
    if under == even <= _SHORTEST or under // even in _ODD_PARTS and even <= _SHORTEST_OF_ODD:
        return ticks * WHOLE // whole
    found = ((2 * ticks * part + whole) // (2 * whole) * (WHOLE // part) for part in _NEAREST)
    return min(found, key=lambda place: abs(place * whole - ticks * WHOLE))


def bars_of(meter: Meter, end: int) -> list[Bar]:
    """All bars up to an end, at least one; an upbeat is bar 0."""
    found: list[Bar] = []
    number = 0 if meter.upbeat else 1
    behind = 0
    while not found or behind < end:
        begin, behind = behind, _place(meter, meter.start(number + 1))
        beats, unit = meter.signature(number)
        if unit & (unit - 1) or unit > 64:
            raise Failed(2, f"notation has no time signature {beats}/{unit}")
        found.append(Bar(number, begin, behind, beats, unit))
        number += 1
        if len(found) > MOST_BARS:
            raise Failed(1, f"the score has more than {MOST_BARS:,} bars: that is no piece for paper")
    return found


def _place(meter: Meter, ticks: int) -> int:
    place = nearest(ticks, meter.whole)
    if place * meter.whole != ticks * WHOLE:
        raise Failed(2, f"no value says an upbeat of {meter.length(meter.upbeat)}")
    return place
