"""Time deformations: the parts of a shape, what spreads them over a body, and where positions inside lie outside."""

from __future__ import annotations

from bisect import bisect_right
from dataclasses import dataclass, replace
from fractions import Fraction
from typing import Iterable, Optional, SupportsFloat, SupportsIndex, Union

from .errors import ScoreError
from .lengths import MAX_LENGTH, WHOLE_NOTE, Exact, scaled, written
from .values import known, listed, real, shown, whole

#: A number that need not be a whole one.
Number = Union[SupportsFloat, SupportsIndex]

MOST_PARTS = 256
KINDS = ("flat", "slope", "pause", "breath")


@dataclass(frozen=True)
class Part:
    """A part of a shape, as `flat`, `slope`, `pause` and `breath` make it.

    `kind` is one of these words, `length` its ticks at 480 a quarter note, `first` and `last` its stretch at either
    end in thousandths.
    """

    kind: str
    length: Exact
    first: int = 1000
    last: int = 1000

    def __post_init__(self) -> None:
        known("kind of part", self.kind, KINDS)
        if not isinstance(self.length, (int, Fraction)) or not 0 <= self.length <= MAX_LENGTH:
            raise ScoreError(f"a part has 0 to 1,000,000 ticks, and not {shown(self.length)}")
        if self.kind in ("flat", "slope") and self.length == 0:
            raise ScoreError(f"a {self.kind} has at least 1 tick")
        object.__setattr__(self, "first", stretch_in_range(self.first))
        object.__setattr__(self, "last", stretch_in_range(self.last))

    @property
    def ticks(self) -> int:
        """Its ticks, of which a quarter note has 480."""
        if not isinstance(self.length, int):
            raise ScoreError(f"a part of {Fraction(self.length)} ticks has no whole number of them")
        return self.length

    def text(self, whole_note: int) -> str:
        """How a score writes it."""
        by = {"flat": f" by {self.first}", "slope": f" by {self.first} to {self.last}"}.get(self.kind, "")
        return f"{self.kind} {written(self.ticks, whole_note)}{by}"


def stretch_in_range(stretch: SupportsIndex) -> int:
    """The stretch, which is a whole number of thousandths."""
    return whole("a stretch, in thousandths,", stretch, 1, 1_000_000)


def stretch_of(beats_a_minute: Number) -> int:
    """The stretch that makes 120 quarter notes a minute so many, rounded to thousandths."""
    beats = real("a tempo, in quarter notes a minute,", beats_a_minute)
    if not 0.12 <= beats <= 240_000:
        raise ScoreError(f"a tempo goes from 0.12 to 240,000 quarter notes a minute, and {shown(beats)} does not")
    return stretch_in_range(round(120_000 / beats))


class Shape:
    """What makes the parts of a warp, once the ticks of its body are known."""

    def parts(self, ticks: int) -> tuple[Part, ...]:
        """The parts for a body of so many ticks."""
        raise NotImplementedError

    def scaled(self, by: Fraction) -> "Shape":
        """The shape where each length is so many times as long."""
        return self

    def fine(self) -> Optional[Exact]:
        """Its first length that is no whole number of ticks."""
        return None


@dataclass(frozen=True)
class Fixed(Shape):
    """The parts that a caller has written."""

    given: tuple[Part, ...]

    def __post_init__(self) -> None:
        for part in listed("a shape", self.given, 1, MOST_PARTS):
            if not isinstance(part, Part):
                raise ScoreError(f"{shown(part)} is no part of a shape: flat, slope, pause and breath make them")

    def parts(self, ticks: int) -> tuple[Part, ...]:
        return self.given

    def scaled(self, by: Fraction) -> "Fixed":
        return Fixed(tuple(replace(part, length=scaled(part.length, by)) for part in self.given))

    def fine(self) -> Optional[Exact]:
        return next((part.length for part in self.given if not isinstance(part.length, int)), None)


@dataclass(frozen=True)
class Tempo(Shape):
    """One stretch over the whole body."""

    stretch: int

    def parts(self, ticks: int) -> tuple[Part, ...]:
        if ticks > MOST_PARTS * MAX_LENGTH:
            raise ScoreError(f"a tempo over {ticks:,} ticks needs more than {MOST_PARTS} parts: make several")
        # each part but the last is a whole number of thousands, so nothing is rounded between them
        lengths = [MAX_LENGTH] * (ticks // MAX_LENGTH) + [ticks % MAX_LENGTH]
        return tuple(Part("flat", length, self.stretch, self.stretch) for length in lengths if length) or (
            Part("flat", 1, self.stretch, self.stretch),)


@dataclass(frozen=True)
class Change(Shape):
    """One slope over the whole body."""

    first: int
    last: int

    def parts(self, ticks: int) -> tuple[Part, ...]:
        if ticks > MAX_LENGTH:
            raise ScoreError(f"a change of tempo over {ticks:,} ticks is longer than 1,000,000")
        return (Part("slope", max(1, ticks), self.first, self.last),)


@dataclass(frozen=True)
class Swing(Shape):
    """Pairs of units over the whole body; the first of a pair takes the part `long` of both."""

    unit: Exact
    long: float

    def __post_init__(self) -> None:
        if not 0 < self.unit <= MAX_LENGTH or not 0 < self.long < 1:
            raise ScoreError(f"no swing of {shown(self.long)} over {shown(self.unit)} ticks: it lies between 0 and 1")

    def parts(self, ticks: int) -> tuple[Part, ...]:
        if not isinstance(self.unit, int):
            raise ScoreError(f"a unit of {self.unit} ticks has no whole number of them")
        first, both = round(2 * self.unit * self.long), 2 * self.unit
        if not 0 < first < both:
            raise ScoreError(f"no swing of {self.long} over units of {self.unit} ticks: one of them takes no tick")
        pairs = max(1, -(-ticks // both))
        if 2 * pairs > MOST_PARTS:
            raise ScoreError(f"a swing has at most 128 pairs of units, and this one {pairs:,}: make several")
        # the least stretch under which a whole unit becomes exactly so many ticks
        by = [stretch_in_range(-(-1000 * out // self.unit)) for out in (first, both - first)]
        return tuple(Part("flat", self.unit, by[at % 2], by[at % 2]) for at in range(2 * pairs))

    def scaled(self, by: Fraction) -> "Swing":
        return replace(self, unit=scaled(self.unit, by))

    def fine(self) -> Optional[Exact]:
        return None if isinstance(self.unit, int) else self.unit


class Curve:
    """Where positions inside a warp lie outside. It finds a part by its place, and never counts from the first one."""

    def __init__(self, parts: Iterable[Part]):
        # where each stretched part begins, and where that lies outside for a note's end and for an onset
        self._begins, self._ends_there, self._onsets_there = [0], [0], [0]
        self._stretched: list[tuple[int, int, int]] = []
        for part in parts:
            length = part.ticks
            if part.kind in ("pause", "breath"):
                self._onsets_there[-1] += length
                self._ends_there[-1] += length if part.kind == "pause" else 0
                continue
            self._stretched.append((length, part.first, part.last))
            self._begins.append(self._begins[-1] + length)
            end = self._onsets_there[-1] + length * (part.first + part.last) // 2000
            self._ends_there.append(end)
            self._onsets_there.append(end)

    def outside(self, position: int, onset: bool) -> int:
        """Where a position lies outside: of what begins there (onset), or of a note that ends there."""
        at = bisect_right(self._begins, position) - 1
        inside = position - self._begins[at]
        if inside == 0:
            return self._onsets_there[at] if onset else self._ends_there[at]
        if at == len(self._stretched):
            return self._onsets_there[at] + inside
        length, first, last = self._stretched[at]
        stretched = 2 * length * first * inside + (last - first) * inside * inside
        return self._onsets_there[at] + stretched // (2000 * length)


def shape_of(parts: Iterable[Part]) -> Fixed:
    """The shape of these parts."""
    return Fixed(tuple(listed("a shape", parts, 1, MOST_PARTS)))  # type: ignore[arg-type]
