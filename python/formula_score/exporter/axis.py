"""Where each event of a score lies on the written grid: in ticks as they are written in the outermost warp.

A `warp` that stands outside all others becomes the tempo of its passage: what it holds lies where it stands in its
block, and the grid goes on behind the block as it is written. Warps further in stay in the places of the notes. Of
outermost warps that are played at one time, as in branches, the one with most notes makes the tempo.
"""

from __future__ import annotations

from fractions import Fraction
from typing import NamedTuple, Optional

from ..making.expected import Made, come_out, outside
from ..making.shapes import Part
from ..reading.walk import Happening, Level, Played, Process, messages_of, parts_of


class Spot(NamedTuple):
    """A place in the outermost of the levels, or where there is none a tick of the file."""

    level: Optional[Level]
    position: int


class Sent(bytes):
    """A message that knows its tick, and its place."""

    tick: int
    spot: Spot

    @staticmethod
    def of(tick: int, message: bytes, spot: Spot) -> "Sent":
        """A message with both."""
        sent = Sent(message)
        sent.tick, sent.spot = tick, spot
        return sent


class Heard(NamedTuple):
    """An event with its tick in the program's file, its place, its process and its number in the process."""

    tick: int
    process: int
    number: int
    message: bytes
    spot: Spot


class Section(NamedTuple):
    """A passage that a shape makes the tempo of: where its grid begins, its level, and how long it is as written."""

    begin: int
    level: Level
    length: int

    @property
    def tick(self) -> int:
        """The tick of the file at which it begins."""
        return self.level.begin

    @property
    def until(self) -> int:
        """The tick of the file at which it ends."""
        return self.level.begin + self.level.shape.curve.outside(self.length, True)


def _spot(levels: tuple[Level, ...], position: int, onset: bool) -> Spot:
    if not levels:
        return Spot(None, position)
    return Spot(levels[0], outside(parts_of(levels[1:]), position, onset))


def _sent(happening: Happening) -> list[Made]:
    """The messages of a statement, each with its tick and its place."""
    begin = _spot(happening.levels, happening.position, True)
    sounds = (happening.end - happening.begin) * happening.percent // 100
    end = _spot(happening.levels, happening.position + sounds, False)
    if end.position < begin.position:
        end = begin
    return [(tick, Sent.of(tick, message, end if message[0] >> 4 == 8 else begin))
            for tick, message in messages_of(happening)]


def _end(process: Process) -> Spot:
    return _spot(process.levels, process.position, True)


def heard(walk: Played) -> list[Heard]:
    """All events in the order of the file."""
    events: list[list[Made]] = [[] for _ in walk.begun]
    for happening in walk.happenings:
        events[happening.process] += _sent(happening)
    found = []
    for process, own in enumerate(events):
        spot = _end(walk.ended[process])
        for number, (tick, message) in reversed(list(enumerate(come_out(own, walk.tick_of_end(process))))):
            assert isinstance(message, Sent)
            if message[0] >> 4 != 8:
                spot = message.spot
            # a note-off that was cut lies where what cut it does
            found.append(Heard(tick, process, number, bytes(message), message.spot if tick == message.tick else spot))
    return sorted(found, key=lambda event: event[:3])


class Axis:
    """The grid of a walk."""

    def __init__(self, walk: Played, lead: int = 0, left_out: frozenset[Level] = frozenset()):
        self.lead = lead
        self.sections: dict[Level, Section] = {}
        lengths: dict[Level, int] = {}
        notes: dict[Level, int] = {}
        for happening in walk.happenings:
            if happening.levels and happening.levels[0] not in left_out:
                outer = happening.levels[0]
                end = _spot(happening.levels, happening.position + happening.end - happening.begin, True).position
                lengths[outer] = max(lengths.get(outer, 0), end)
                notes[outer] = notes.get(outer, 0) + len(happening.values)
        begin = behind = 0
        taken: list[Section] = []
        for level in sorted(lengths, key=lambda level: (-notes[level], level.begin)):
            section = Section(0, level, lengths[level])
            if all(section.until <= other.tick or other.until <= section.tick for other in taken):
                taken.append(section)
        for section in sorted(taken, key=lambda section: (section.tick, section.until)):
            begin += section.tick - behind
            self.sections[section.level] = section._replace(begin=begin + lead)
            begin, behind = begin + section.length, section.until
        self._behind = begin - behind

    def near(self, place: int) -> Section:
        """The last section that begins at a place or before it, else the first one."""
        found = list(self.sections.values())
        return next((section for section in reversed(found) if section.begin <= place), found[0])

    def of(self, spot: Spot) -> Optional[int]:
        """Where a place lies on the grid; None where the tempo of others is no grid for it."""
        if spot.level is not None:
            section = self.sections.get(spot.level)
            return section.begin + spot.position if section and spot.position <= section.length else None
        shift = self._behind
        for section in reversed(list(self.sections.values())):
            if spot.position >= section.until:
                break
            if spot.position > section.tick:
                return None
            shift = section.begin - self.lead - section.tick
        return spot.position + shift + self.lead

    def exactly(self, spot: Spot) -> Fraction:
        """How far a tick of the file lies behind the place where it would be, if it were not rounded down."""
        at = 0
        for part in spot.level.shape.parts if spot.level else ():
            if part.kind in ("flat", "slope"):
                inside = spot.position - at
                if 0 <= inside < part.ticks:
                    rise = (part.last - part.first) * inside * inside
                    return Fraction((2 * part.ticks * part.first * inside + rise) % (2000 * part.ticks),
                                    2000 * part.ticks)
                at += part.ticks
        return Fraction(0)

    def stretches(self) -> list[tuple[int, int, Part]]:
        """The parts of the tempo: from where to where each lies on the grid."""
        found = []
        for section in self.sections.values():
            at = section.begin
            for part in section.level.shape.parts:
                if part.kind in ("flat", "slope"):
                    end = min(at + part.ticks, section.begin + section.length)
                    if at < end:
                        found.append((at, end, part))
                    at += part.ticks
        return found

    def edges(self) -> list[tuple[int, Spot, int]]:
        """Where a part of the tempo ends and another begins: where that lies on the grid, its place, and its tick."""
        found = []
        for section in self.sections.values():
            at = 0
            for part in section.level.shape.parts:
                if part.kind in ("flat", "slope"):
                    at += part.ticks
                    if at < section.length:
                        tick = section.tick + section.level.shape.curve.outside(at, True)
                        found.append((section.begin + at, Spot(section.level, at), tick))
        return found
