"""Which spans of a bar are tuplets, and where notes go that no tuplet of at most nine parts says."""

from __future__ import annotations

from bisect import bisect_left, bisect_right
from math import gcd, lcm
from typing import Iterable, NamedTuple, Optional, Sequence

from .places import WHOLE, Bar, odd
from .sheet import Note, Voice

#: The most parts of a tuplet that is printed, and the shortest value in a span whose notes are moved.
MOST_PARTS = 9
_SHORTEST_MOVED = WHOLE // 64
_SHORTEST = 128
_SPANS = tuple(WHOLE >> power for power in range(6))


class Tuplet(NamedTuple):
    """So many parts in the time of so many others, from a place to another."""

    begin: int
    end: int
    actual: int
    normal: int


def _tuplet(begin: int, end: int, within: Iterable[int]) -> Tuplet:
    """A tuplet for these places: in the time of the most parts below its own that are plain values."""
    span = end - begin
    actual = lcm(*(odd(span // gcd(place - begin, span)) for place in within))
    normal = odd(span // gcd(span, WHOLE))
    while normal * 2 < actual:
        normal *= 2
    return Tuplet(begin, end, actual, normal)


def _best(place: int, places: Sequence[int], bar: Bar, spans: Sequence[int]) -> Tuplet:
    """The shortest aligned span that notes bound; else the shortest of a beat, over whose ends notes are tied."""
    known = {*places, bar.begin, bar.end}
    for is_bound in (True, False):
        for span in spans:
            begin = bar.begin + (place - bar.begin) // span * span
            end = begin + span
            if end > bar.end or is_bound and not (begin in known and end in known):
                continue
            found = _tuplet(begin, end, places[bisect_right(places, begin):bisect_left(places, end)])
            if found.actual <= MOST_PARTS if is_bound else span >= WHOLE // bar.unit:
                return found
    return _tuplet(bar.begin, bar.end, [other for other in places if bar.begin < other < bar.end])


def tuplets_of(places: Sequence[int], bar: Bar) -> list[Tuplet]:
    """The tuplets of a bar in which notes begin or end at these places, in rising order."""
    length = bar.end - bar.begin
    spans: Optional[list[int]] = None
    found: list[Tuplet] = []
    for place in places:
        inside = place - bar.begin
        if odd(WHOLE // gcd(inside, WHOLE)) == 1 or any(one.begin < place < one.end for one in found):
            continue
        if spans is None:
            spans = sorted({span for span in _SPANS if span <= length} | {length, min(length, bar.beat)})
        best = _best(place, places, bar, spans)
        found = [one for one in found if one.end <= best.begin or best.end <= one.begin] + [best]
    return sorted(found)


def settled(voice: Voice, bars: Sequence[Bar]) -> Voice:
    """The voice with all notes of a span on one grid, where no tuplet of at most nine parts would say them."""
    places = sorted({place for note in voice for place in (note.begin, note.end)})
    moved: dict[int, int] = {}
    for bar in bars:
        inside = places[bisect_right(places, bar.begin):bisect_left(places, bar.end)]
        for tuplet in tuplets_of(inside, bar):
            own = [place for place in inside if tuplet.begin < place < tuplet.end]
            if tuplet.actual > MOST_PARTS or any(_is_too_short(place, tuplet) for place in own):
                moved.update(_on_one_grid(own, tuplet))
    if not moved:
        return voice
    found: list[Note] = []
    for note in voice:
        begin, end = moved.get(note.begin, note.begin), moved.get(note.end, note.end)
        if begin < end:
            found.append(note._replace(begin=begin, end=end))
    return found


def _is_too_short(place: int, tuplet: Tuplet) -> bool:
    inside = (place - tuplet.begin) * tuplet.actual
    unit = WHOLE * tuplet.normal
    return unit // gcd(inside, unit) > _SHORTEST


def _on_one_grid(places: Sequence[int], tuplet: Tuplet) -> dict[int, int]:
    """The grid of at most seven parts, in halves, that moves them least."""
    length = tuplet.end - tuplet.begin

    def on(parts: int) -> dict[int, int]:
        unit = length // parts
        return {place: tuplet.begin + (2 * (place - tuplet.begin) + unit) // (2 * unit) * unit for place in places}

    grids = [parts << power for parts in (1, 3, 5, 7) for power in range(5)
             if length >> (power + parts.bit_length() - 1) >= _SHORTEST_MOVED and length % (parts << power) == 0]
    return min(map(on, grids), key=lambda moves: sum(abs(new - old) for old, new in moves.items()))
