"""From positions as written to ticks of the file, and back: the program is asked, with a small score made for it.

That score has the same shapes, and in them a rest and a control change for each position that is asked for. So the
deformations are those of the program. Which levels a position lies in comes from the walk, which is compared with
what the program plays before anything is told.
"""

from __future__ import annotations

from bisect import bisect_left
from typing import Iterator, Optional, Sequence

from ..making.shapes import Part
from .playing import Failed, Listing, listing_of, located
from .reader import read
from .tree import Reading
from .walk import Happening, Level, Played, tick_of

_ROWS = 1000             # in one score: each is a process
_MARKS = 8000            # in one score: each has a control change of its own
_STEPS = 8_000_000       # half of the steps that a score may have
_LONGEST = 1_000_000     # the ticks of the longest rest


class Spot:
    """A position in the innermost of some levels, in a process."""

    def __init__(self, process: int, levels: tuple[Level, ...], position: int):
        self.process, self.levels, self.position = process, levels, position


def agreed(text: bytes) -> Played:
    """The walk over a text, which plays each event at the tick at which the program does."""
    walk = Played(read(text))
    walk.run()
    agree(walk, listing_of(text))
    return walk


def agree(walk: Played, listing: Listing) -> None:
    """Refuses to go on where a walk is not what the program plays."""
    heard = [(event.tick, event.message) for event in listing.events if event.message[0] < 0xF0]
    expected = [(event.tick, event.message) for event in walk.events()]
    last = walk.tick_of_end(len(walk.begun) - 1)
    if heard != expected or listing.end != last:
        differs = next((at for at, (tick, expected_tick) in enumerate(zip(heard, expected)) if tick != expected_tick),
                       min(len(heard), len(expected)))
        raise Failed(1, f"this companion reads the score otherwise than the program plays it, from event {differs} on: "
                        "this is a fault of the companion, and nothing is told")


def _part(part: Part) -> str:
    by = {"flat": f" by {part.first}", "slope": f" by {part.first} to {part.last}"}.get(part.kind, "")
    return f"{part.kind} ticks {part.ticks}{by}"


def _rest(ticks: int) -> str:
    thousands, left = divmod(ticks, _LONGEST)
    loops = []
    while thousands:
        loops.append(f"repeat {min(thousands, _LONGEST)} {{ rest ticks {_LONGEST}; }}")
        thousands -= min(thousands, _LONGEST)
    return " ".join([*loops, f"rest ticks {left};" if left else ""]).strip()


def _head(reading: Reading, levels: Sequence[Level]) -> str:
    division = f" division {reading.division};" if reading.version == 2 else ""
    shapes = {level.shape.name.text: level.shape for level in levels}
    lines = [f"shape {name} = {', '.join(map(_part, shape.parts))};" for name, shape in shapes.items()]
    return "\n".join([f"formula {reading.version};{division}", *lines, ""])


def _within(levels: Sequence[Level], inside: str) -> str:
    """A text inside the levels, each where it begins."""
    for level in reversed(levels):
        inside = f"{_rest(level.begin)} warp {level.shape.name.text} {{ {inside} }}"
    return inside


def ticks_of(reading: Reading, spots: Sequence[Spot]) -> list[int]:
    """The tick of the file at which what begins at each of these is played, as the program says."""
    found: dict[int, int] = {}
    for share in _shares(spots):
        asked = [at for row in share for at in row]
        number = {at: number_of_tick for number_of_tick, at in enumerate(asked)}
        branches = [f"branch {{ {_within(spots[row[0]].levels, _marks(spots, row, number))} }}" for row in share]
        head = _head(reading, [level for row in share for level in spots[row[0]].levels])
        heard = {event.message[1] * 128 + event.message[2]: event.tick
                 for event in listing_of(f"{head}par {{ {' '.join(branches)} }}\n".encode()).events
                 if event.message[0] == 0xB0}
        found.update((at, heard[number[at]]) for at in asked)
    return [found[at] for at in range(len(spots))]


def _marks(spots: Sequence[Spot], row: Sequence[int], number: dict[int, int]) -> str:
    """A control change at each position of a row, which rises, with its number."""
    reached, words = 0, []
    for at in row:
        words += [_rest(spots[at].position - reached), f"control {number[at] // 128} {number[at] % 128};"]
        reached = spots[at].position
    return " ".join(words)


def _shares(spots: Sequence[Spot]) -> Iterator[list[list[int]]]:
    """The spots by their places in rows: those of a row lie in the same levels, and rise. As many rows at a time as one
    score has room for."""
    rows: dict[tuple[tuple[int, str], ...], list[int]] = {}
    for at, spot in enumerate(spots):
        rows.setdefault(tuple((level.begin, level.shape.name.text) for level in spot.levels), []).append(at)
    share: list[list[int]] = []
    steps = marks = 0
    for row in rows.values():
        row.sort(key=lambda at: spots[at].position)
        for marks_of_row in (row[first:first + _MARKS] for first in range(0, len(row), _MARKS)):
            last = spots[marks_of_row[-1]]
            own = (last.position + sum(level.begin for level in last.levels)) // _LONGEST * 2
            if share and (len(share) == _ROWS or steps + own > _STEPS or marks + len(marks_of_row) > _MARKS):
                yield share
                share, steps, marks = [], 0, 0
            share, steps, marks = [*share, marks_of_row], steps + own, marks + len(marks_of_row)
    if share:
        yield share


def position_at(reading: Reading, levels: Sequence[Level], tick: int) -> Optional[int]:
    """The first position of the innermost level at a tick of the file, or behind it; None where there is none."""
    if not levels:
        return tick
    found = positions_at(reading, levels, tick)
    return found[-1] if found else None


def positions_at(reading: Reading, levels: Sequence[Level], tick: int) -> Optional[tuple[int, ...]]:
    """The first position of each of the levels at a tick of the file, or behind it; None where there is none."""
    text = _head(reading, levels) + _within(levels, "par { branch { } }") + "\n"
    return located(text.encode(), tick, 1)


def spots_at(walk: Played, written: int) -> list[Spot]:
    """Where a position as written lies, in each process that plays there: of the first statement that takes time."""
    found: dict[int, Spot] = {}
    for happening in walk.happenings:
        if happening.begin <= written < happening.end and happening.process not in found:
            position = happening.position + written - happening.begin
            found[happening.process] = Spot(happening.process, happening.levels, position)
    last = walk.ended[len(walk.begun) - 1]
    if not found and written == last.written:
        found[len(walk.begun) - 1] = Spot(len(walk.begun) - 1, last.levels, last.position)
    return [found[process] for process in sorted(found)]


def spots_of(walk: Played, written: list[int]) -> list[Optional[Spot]]:
    """Where positions as written lie, of the first process that plays there; behind the end there is none."""
    found: dict[int, Spot] = {}
    last = walk.ended[len(walk.begun) - 1]
    wanted = sorted(set(written))
    for happening in walk.happenings:
        for position in _between(wanted, happening.begin, happening.end):
            inside = happening.position + position - happening.begin
            found.setdefault(position, Spot(happening.process, happening.levels, inside))
    found.setdefault(last.written, Spot(len(walk.begun) - 1, last.levels, last.position))
    return [found.get(position) for position in written]


def _between(rising: list[int], first: int, behind: int) -> list[int]:
    return rising[bisect_left(rising, first):bisect_left(rising, behind)]


def happening_at(walk: Played, tick: int) -> list[Happening]:
    """What takes time at a tick of the file, in each process that plays there."""
    found: dict[int, Happening] = {}
    for happening in walk.happenings:
        if happening.begin < happening.end and happening.process not in found:
            length = happening.end - happening.begin
            if tick_of(happening.levels, happening.position) <= tick < tick_of(happening.levels, happening.position + length):
                found[happening.process] = happening
    return [found[process] for process in sorted(found)]
