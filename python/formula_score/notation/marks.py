"""What the outermost shape says in notation: tempo marks, `rit.` and `accel.` with their ends, fermatas and breaths."""

from __future__ import annotations

from bisect import bisect_left, bisect_right
from fractions import Fraction
from typing import Iterator, NamedTuple, Optional, Sequence

from ..exporter.axis import Axis
from ..making.expected import outside
from ..making.shapes import Part
from ..reading.walk import Happening, Level, Played, parts_of
from .places import WHOLE
from .sheet import Sheet

_FAR = 1 << 62


class Mark(NamedTuple):
    """A mark at a place: the quarter notes a minute from there on, if they change, and whether it is seen.

    `word` is `rit.` or `accel.`, and `until` where that ends.
    """

    place: int
    tempo: Optional[Fraction]
    is_printed: bool = True
    word: str = ""
    until: int = 0


class Marks(NamedTuple):
    """All marks in rising order, the places of pauses, too, of breaths, and of pauses over which nothing sounds."""

    tempos: tuple[Mark, ...]
    pauses: tuple[int, ...]
    breaths: frozenset[int]
    caesuras: frozenset[int] = frozenset()

    def hold(self, begin: int, end: int, is_end: bool, is_last: bool) -> str:
        """What a sign has: `fermata` where a pause holds it, `caesura` or `breath-mark` where one comes behind it.

        `is_end` says whether its note ends with it, and `is_last` whether the piece does.
        """
        at = bisect_right(self.pauses, begin)
        if at < len(self.pauses) and (self.pauses[at] < end or self.pauses[at] == end and (not is_end or is_last)):
            return "fermata"
        if not is_end:
            return ""
        return "caesura" if end in self.caesuras else "breath-mark" if end in self.breaths else ""


def _outermost(walk: Played) -> dict[Level, list[Happening]]:
    """The outermost warps one after another, with what is in them; of those side by side the one with most notes."""
    inside: dict[Level, list[Happening]] = {level: [] for level in Axis(walk).sections}
    for happening in walk.happenings:
        if happening.levels and happening.levels[0] in inside:
            inside[happening.levels[0]].append(happening)
    return inside


def _rows(level: Level, happenings: Sequence[Happening]) -> list[tuple[int, int]]:
    """Positions of a level beside the places at which they are written; both rise."""
    found = {0: level.written}
    for happening in happenings:
        inner = parts_of(happening.levels[1:])
        length = happening.end - happening.begin
        found.setdefault(outside(inner, happening.position, True), happening.begin)
        found.setdefault(outside(inner, happening.position + length, True), happening.end)
    rows, last = [], -1
    for position in sorted(found):
        if found[position] > last:
            rows.append((position, found[position]))
            last = found[position]
    return rows


class _OfLevel:
    """The marks of one outermost warp."""

    def __init__(self, rows: list[tuple[int, int]], whole: int):
        self.rows, self.whole, self.last = rows, whole, rows[-1][0]

    def place(self, position: int) -> int:
        """Where a position is written."""
        at = bisect_right(self.rows, (position, _FAR)) - 1
        begin, written = self.rows[at]
        if at + 1 < len(self.rows):
            end, written_end = self.rows[at + 1]
            written += (position - begin) * (written_end - written) // (end - begin)
        else:
            written += position - begin
        return written * WHOLE // self.whole

    def marks(self, parts: tuple[Part, ...]) -> Iterator[Mark]:
        """The marks of the parts that are played, and the tempo that holds behind the last slope."""
        at, tempo = 0, Fraction(0)
        for part in parts:
            if at >= self.last:
                return
            if part.kind not in ("flat", "slope"):
                continue
            first, final = Fraction(120_000, part.first), Fraction(120_000, part.last)
            if first != tempo:
                yield Mark(self.place(at), first)
            if part.kind == "slope" and first != final:
                until = self.place(min(at + part.ticks, self.last))
                yield Mark(self.place(at), None, word="rit." if final < first else "accel.", until=until)
                yield from self._steps(part, at)
            at, tempo = at + part.ticks, final
            if first != final and at < self.last:
                yield Mark(self.place(at), final)

    def _steps(self, part: Part, at: int) -> Iterator[Mark]:
        """A tempo for each quarter note of a slope, which is heard and not printed."""
        for begin in range(0, min(part.ticks, self.last - at), self.whole // 4):
            middle = min(begin + self.whole // 8, part.ticks)
            stretch = part.first + Fraction((part.last - part.first) * middle, part.ticks)
            yield Mark(self.place(at + begin), 120_000 / stretch, False)

    def holds(self, parts: tuple[Part, ...], kind: str) -> Iterator[int]:
        """Where pauses, or breaths, are."""
        at = 0
        for part in parts:
            if part.kind in ("flat", "slope"):
                at += part.ticks
            elif part.kind == kind and at <= self.last:
                yield self.place(at)


def _silent(sheet: Sheet, places: Sequence[int]) -> Iterator[int]:
    """The places over which no note sounds."""
    voices = [([note.begin for note in voice], voice) for part in sheet.parts for voice in part.voices]
    for place in places:
        before = [voice[at - 1] for begins, voice in voices for at in [bisect_left(begins, place)] if at]
        if all(note.end <= place for note in before):
            yield place


def marks_of(walk: Played, sheet: Sheet) -> Marks:
    """The marks of a score; of two tempos at one place the later one counts."""
    found: list[Mark] = []
    pauses: list[int] = []
    breaths: list[int] = []
    for level, happenings in _outermost(walk).items():
        own, parts = _OfLevel(_rows(level, happenings), walk.reading.whole), level.shape.parts
        found += own.marks(parts)
        pauses += own.holds(parts, "pause")
        breaths += own.holds(parts, "breath")
    words = [mark for mark in found if mark.word]
    tempos = {0: Mark(0, Fraction(120), False)}
    for mark in found:
        if mark.tempo and (mark.is_printed or mark.place not in tempos or not tempos[mark.place].is_printed):
            tempos[mark.place] = mark
    return Marks(tuple(sorted([*words, *tempos.values()], key=lambda mark: (mark.place, mark.tempo is None))),
                 tuple(sorted(pauses)), frozenset(breaths), frozenset(_silent(sheet, pauses)))
