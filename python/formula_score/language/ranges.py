"""Which numbers each place of the grammar takes."""

from __future__ import annotations

from typing import NamedTuple, Optional

MILLION = 1_000_000
#: How many pitches a note may have, how many entries or parts a list or shape, and how many braces may be open.
PITCHES, ENTRIES, DEEPEST = 16, 256, 64


class Range(NamedTuple):
    """The numbers that a place takes, and what they are."""

    low: int
    high: int
    what: str


_RANGES = {
    "version": Range(1, 2, "the version of the language"), "division": Range(24, 960, "the ticks of a quarter note"),
    "key": Range(0, 127, "a key, and 60 is middle C"), "controller": Range(0, 127, "a controller"),
    "channel": Range(0, 15, "channels count from 0"), "volume": Range(1, 127, "a velocity, and 80 is mf"),
    "gate": Range(0, 400, "in percent of the length"), "loud": Range(1, 127, "a velocity, and 80 is mf"),
    "artic": Range(0, 400, "in percent of the length"), "control": Range(0, 127, "the value of a controller"),
    "program": Range(0, 127, "programs count from 0, and 73 is the flute"),
    "bend": Range(-8192, 8191, "8192 is two semitones on most instruments"), "count": Range(0, MILLION, "a count"),
    "stretch": Range(1, MILLION, "in thousandths, and 1000 is as written"), "most": Range(0, MILLION, "after `max`"),
    "ticks": Range(0, MILLION, "ticks, 1,920 a whole note"), "value": Range(0, MILLION, "a number of an expression"),
}
#: Named pitches above key 127.
TOO_HIGH = ("gs9", "a9", "as9", "ab9", "b9", "bs9", "bb9")


def range_at(place: str, head: str) -> Optional[Range]:
    """The numbers of a place in the statement of a word; None where any number may be."""
    return _RANGES.get(head if place in ("amount", "setting", "entry") else place)


def whole_ticks(over: int, under: int, whole: int) -> Optional[int]:
    """The ticks of a part of a whole note; None where they are no whole number."""
    return over * whole // under if under and over * whole % under == 0 else None
