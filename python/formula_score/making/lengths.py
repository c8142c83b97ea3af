"""Lengths: exact parts of a whole note; and rhythms."""

from __future__ import annotations

import re
import sys
from fractions import Fraction
from numbers import Rational
from typing import SupportsIndex, Union

from .errors import ScoreError
from .values import MOST_ITEMS, index, shown, whole

#: Ticks of a quarter note, where a score does not say otherwise, and of a whole note.
DIVISION = 480
WHOLE_NOTE = 4 * DIVISION
#: The longest length that can be written, in ticks.
MAX_LENGTH = 1_000_000
MIN_DIVISION, MAX_DIVISION = 24, 960

#: What a length may be given as: `Fraction(3, 8)`, `"3/8"`, or a whole number of whole notes.
LengthLike = Union[Fraction, str, SupportsIndex]
#: Ticks of 480 a quarter note, exactly.
Exact = Union[int, Fraction]


class Fine(Fraction):
    """Ticks that are no whole number at 480 a quarter note; a score with another division may hold them."""

    #: the file and the line that gave it
    place = ""


def _place() -> str:
    """The file and line that called this package."""
    frame = sys._getframe(1)
    while frame.f_back is not None and frame.f_globals.get("__package__") == __package__:
        frame = frame.f_back
    return f"{frame.f_code.co_filename}:{frame.f_lineno}"


def ticks(number: SupportsIndex, division: SupportsIndex = DIVISION) -> Fraction:
    """The length of so many ticks, of which a quarter note has 480, or as many as the division says."""
    of = whole("a division", division, MIN_DIVISION, MAX_DIVISION)
    return Fraction(whole("a number of ticks", number, 0, MAX_LENGTH), 4 * of)


def part_of(length: LengthLike) -> Fraction:
    """The part of a whole note that a length is: `"3/8"`, `Fraction(3, 8)`, `1` for a whole note, `ticks(720)`."""
    number = index(length)
    if number is not None:
        return Fraction(number)
    if isinstance(length, Rational) and not isinstance(length, bool):
        return Fraction(length.numerator, length.denominator)
    found = isinstance(length, str) and re.fullmatch(r"\s*([0-9]{1,9}(?:\.[0-9]{1,9}|/[0-9]{1,9})?)\s*", length)
    if not found or re.search(r"/0+\Z", found.group(1)):
        raise ScoreError(f"{shown(length)} is no length: write '1/4' or Fraction(1, 4)")
    return Fraction(found.group(1))


def exact_ticks(length: LengthLike) -> Exact:
    """The ticks of a length at 480 a quarter note. A length that none of the divisions holds is none."""
    part = part_of(length)
    exact = part * WHOLE_NOTE
    if not 0 <= exact <= MAX_LENGTH:
        raise ScoreError("lengths go from 0 to 1,000,000 ticks, which are 520 whole notes, and "
                         f"{shown(length)} does not")
    if exact.denominator == 1:
        return int(exact)
    if all(4 * division % part.denominator for division in range(MIN_DIVISION, MAX_DIVISION + 1)):
        raise ScoreError(f"the length {shown(length)} is no whole number of ticks, whatever the division")
    fine = Fine(exact)
    fine.place = _place()
    return fine


def scaled(exact: Exact, by: Fraction) -> Exact:
    """So many times the ticks; what is no whole number keeps its place."""
    number = exact * by
    if number.denominator == 1:
        return int(number)
    fine = Fine(number)
    fine.place = getattr(exact, "place", "")
    return fine


def written(number: int, whole_note: int = WHOLE_NOTE) -> str:
    """How a score writes a length of so many ticks: `3/8`, or `ticks 7` where that is shorter to read."""
    part = Fraction(number, whole_note)
    if number and part.denominator <= 96:
        return f"{part.numerator}/{part.denominator}"
    return f"ticks {number}"


def dotted(length: LengthLike) -> Fraction:
    """One and a half times the length."""
    return part_of(length) * Fraction(3, 2)


def triplet(length: LengthLike) -> Fraction:
    """Two thirds of the length: three of them take the time of two."""
    return part_of(length) * Fraction(2, 3)


def euclid(hits: SupportsIndex, steps: SupportsIndex, rotate: SupportsIndex = 0) -> list[bool]:
    """A Euclidean rhythm: the hits as evenly over the steps as they go, from a hit on: `euclid(3, 8)` is x..x..x."""
    count = whole("a number of steps", steps, 1, MOST_ITEMS)
    struck = whole("a number of hits", hits, 0, count)
    turn = whole("a rotation", rotate, -MAX_LENGTH, MAX_LENGTH) % count
    beats = [(step * struck) % count < struck for step in range(count)]
    return beats[turn:] + beats[:turn]
