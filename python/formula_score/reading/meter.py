"""Bars: a meter, or several, over positions as they are written."""

from __future__ import annotations

import argparse
import re
from fractions import Fraction
from typing import NamedTuple, Optional

from .playing import Failed


class Signature(NamedTuple):
    """A time signature."""

    beats: int
    unit: int

    def __str__(self) -> str:
        return f"{self.beats}/{self.unit}"


class Group(NamedTuple):
    """Signatures that take turns from a bar on."""

    first: int
    signatures: tuple[Signature, ...]


class At(NamedTuple):
    """A position in bars: the bar, the beat in it from 1, and the ticks behind the beat."""

    bar: int
    beat: int
    ticks: int


class Meter:
    """The bars of a score with so many ticks to a whole note.

    Bar 1 begins behind the upbeat, which is bar 0 where there is one.
    """

    def __init__(self, groups: tuple[Group, ...], upbeat: Fraction, whole: int):
        self.groups, self.whole = groups, whole
        self.upbeat = self._ticks(upbeat, "the upbeat")
        for group in groups:
            for signature in group.signatures:
                self._ticks(Fraction(signature.beats, signature.unit), f"a bar of {signature}")

    def _ticks(self, length: Fraction, what: str) -> int:
        ticks = length * self.whole
        if ticks.denominator != 1:
            raise Failed(2, f"{what} is no whole number of ticks: this score has {self.whole} to a whole note")
        return int(ticks)

    @property
    def only(self) -> Optional[int]:
        """The ticks of a bar, where all are equal."""
        lengths = {self._of(signature) for group in self.groups for signature in group.signatures}
        return lengths.pop() if len(lengths) == 1 else None

    def _of(self, signature: Signature) -> int:
        return self.whole * signature.beats // signature.unit

    def _starts(self) -> list[tuple[int, Group]]:
        """Where each group begins, in ticks."""
        found, at = [], self.upbeat
        for group, behind in zip(self.groups, [*self.groups[1:], None]):
            found.append((at, group))
            if behind is not None:
                at += self._length(group, behind.first - group.first)
        return found

    def _length(self, group: Group, bars: int) -> int:
        """The ticks of so many bars from the beginning of a group on."""
        turns, left = divmod(bars, len(group.signatures))
        lengths = [self._of(signature) for signature in group.signatures]
        return turns * sum(lengths) + sum(lengths[:left])

    def signature(self, bar: int) -> Signature:
        """The signature of a bar; of the upbeat that of bar 1."""
        group = next(group for group in reversed(self.groups) if group.first <= max(bar, 1))
        return group.signatures[(max(bar, 1) - group.first) % len(group.signatures)]

    def start(self, bar: int) -> int:
        """Where a bar begins, in ticks as written."""
        if bar < 1:
            return 0
        at, group = next(start for start in reversed(self._starts()) if start[1].first <= bar)
        return at + self._length(group, bar - group.first)

    def at(self, ticks: int) -> At:
        """The bar and beat of a position."""
        if ticks < self.upbeat:
            return self._beat(0, ticks, self.signature(1))
        at, group = next(start for start in reversed(self._starts()) if start[0] <= ticks)
        turns, left = divmod(ticks - at, self._length(group, len(group.signatures)))
        bar = group.first + turns * len(group.signatures)
        for signature in group.signatures:
            if left < self._of(signature):
                return self._beat(bar, left, signature)
            left -= self._of(signature)
            bar += 1
        raise AssertionError("a turn is as long as its bars")

    def _beat(self, bar: int, ticks: int, signature: Signature) -> At:
        beat = Fraction(self.whole, signature.unit)
        number = int(ticks / beat)
        return At(bar, 1 + number, ticks - int(number * beat))

    def bars(self, begin: int, end: int) -> tuple[int, int]:
        """How many whole bars lie between two positions, and the ticks that are left.

        Of bars that are all equal the two may lie anywhere; else they are counted from bar line to bar line.
        """
        if self.only:
            left = end - begin
            if begin == 0 and self.upbeat and (left - self.upbeat) % self.only == 0:
                left -= self.upbeat
            return divmod(left, self.only)
        first = self.at(begin).bar
        if self.start(first) != begin:
            first += 1
        last = self.at(end).bar
        if end <= self.start(first):
            return 0, end - begin
        return last - first, end - self.start(last) + self.start(first) - begin

    def lasts(self, begin: int, end: int) -> str:
        """How long it is from one position to another, in bars."""
        bars, left = self.bars(begin, end)
        words = [f"{bars} bar{'' if bars == 1 else 's'}"] if bars or not left else []
        return " and ".join([*words, self.length(left)] if left else words)

    def length(self, ticks: int) -> str:
        """So many ticks as a part of a whole note, or as ticks."""
        part = Fraction(ticks, self.whole)
        return f"{part.numerator}/{part.denominator}" if part.denominator <= 96 else f"{ticks} ticks"

    def tell(self, ticks: int) -> str:
        """A position as a bar, and a beat where it is not the first."""
        at = self.at(ticks)
        beat = f", beat {at.beat}" if at.beat > 1 or at.ticks else ""
        return f"bar {at.bar}{beat}{f' and {self.length(at.ticks)}' if at.ticks else ''}"

    def __str__(self) -> str:
        words = [",".join(map(str, group.signatures)) for group in self.groups]
        return ",".join([words[0], *(f"{group.first}:{word}" for group, word in zip(self.groups[1:], words[1:]))])


def groups_of(text: str) -> tuple[Group, ...]:
    """What stands behind --meter: `3/4`, `3/4,2/4` for bars that take turns, `4/4,9:3/4` for 3/4 from bar 9 on."""
    groups: list[Group] = []
    for word in text.split(","):
        found = re.fullmatch(r"(?:([1-9][0-9]{0,5}):)?([1-9][0-9]?)/([1-9][0-9]?)", word.strip())
        if not found:
            raise argparse.ArgumentTypeError(f"{word!r} is no meter: write 3/4, or 9:3/4 from bar 9 on")
        signature = Signature(int(found.group(2)), int(found.group(3)))
        first = int(found.group(1)) if found.group(1) else None
        if first is None and groups:
            groups[-1] = Group(groups[-1].first, (*groups[-1].signatures, signature))
            continue
        if (first or 1) <= (groups[-1].first if groups else 0):
            raise argparse.ArgumentTypeError(f"bar {first} does not come behind bar {groups[-1].first}")
        if not groups and first not in (None, 1):
            raise argparse.ArgumentTypeError("the first meter begins at bar 1")
        groups.append(Group(first or 1, (signature,)))
    return tuple(groups)


def part_of(text: str) -> Fraction:
    """A length, as `1/4`."""
    found = re.fullmatch(r"([0-9]+)/([1-9][0-9]*)", text)
    if not found:
        raise argparse.ArgumentTypeError(f"{text!r} is no length: write 1/4")
    return Fraction(int(found.group(1)), int(found.group(2)))
