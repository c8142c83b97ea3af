"""The tempos of a file: how much time its ticks take."""

from __future__ import annotations

from bisect import bisect_right
from typing import Iterable

from .playing import Listing

_USUAL = 500_000  # microseconds a quarter note where a file says nothing


class TempoMap:
    """From which tick on how many microseconds a quarter note takes, each change once."""

    def __init__(self, changes: Iterable[tuple[int, int]], division: int):
        self.division = division
        found = {0: _USUAL, **dict(sorted(changes, key=lambda change: change[0]))}
        befores = [-1, *found.values()]
        self.changes = [(tick, tempo) for (tick, tempo), before in zip(found.items(), befores) if tempo != before]
        self.ticks = [tick for tick, _ in self.changes]
        self.times = [0]
        for (tick, tempo), behind in zip(self.changes, self.ticks[1:]):
            self.times.append(self.times[-1] + (behind - tick) * tempo)

    def time(self, tick: int) -> int:
        """The time of a tick, in microseconds times the ticks of a quarter note."""
        at = bisect_right(self.ticks, tick) - 1
        return self.times[at] + (tick - self.ticks[at]) * self.changes[at][1]

    def seconds(self, tick: int) -> float:
        """The seconds of a tick."""
        return self.time(tick) / self.division / 1e6


def tempos_of(listing: Listing) -> TempoMap:
    """The tempos that a file has."""
    return TempoMap(((event.tick, int.from_bytes(event.message[3:6], "big")) for event in listing.events
                     if event.message[:3] == b"\xff\x51\x03"), listing.division)
