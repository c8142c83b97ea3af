"""How keys are spelled. A spelling is its place on the line of fifths: F -1, C 0, G 1 .. B 5, F sharp 6, B flat -2. A
signature is the place of its major: so many sharps, and below 0 flats."""

from __future__ import annotations

from collections import Counter
from functools import lru_cache
from typing import Iterable, Mapping, NamedTuple

from .pitch import DEGREES, Pitch

_LETTERS = "fcgdaeb"
_SIGNS = {-1: "b", 0: "", 1: "s"}
#: The spellings that have a name: with one flat to one sharp; and those that are usual in their own signatures alone.
FLATTEST, SHARPEST = -8, 12
_ODD = frozenset((-8, -7, 11, 12))
#: How far right of its signature the middle of what is used with it lies: there are more sharps than flats.
_MIDDLE = 2.4
_BLACK = frozenset((1, 3, 6, 8))


class Spelled(NamedTuple):
    """A letter, how far it is altered, and the octave: that of `c4` is 4."""

    letter: str
    alter: int
    octave: int


def place_of(name: str) -> int:
    """The place of the name of a pitch."""
    return _LETTERS.index(name[0]) - 1 + 7 * (name[1] == "s") - 7 * (name[1] == "b" and len(name) == 3)


def spelled(key: int, place: int) -> Spelled:
    """A key of MIDI by its place."""
    letter, alter = _LETTERS[(place + 1) % 7], (place + 1) // 7
    return Spelled(letter, alter, (key - alter - DEGREES[letter]) // 12 - 1)


def name_of(key: int, place: int) -> str:
    """The name of a key of MIDI by its place; `key 3` where it has none."""
    letter, alter, octave = spelled(key, place)
    return f"{letter}{_SIGNS[alter]}{octave}" if 0 <= octave <= 9 and alter in _SIGNS else str(Pitch(key))


def outside(signature: int, degrees: Mapping[int, int]) -> int:
    """How many of the keys, counted by octaves from C, lie outside of a signature."""
    within = {place * 7 % 12 for place in range(signature - 1, signature + 6)}
    return sum(count for degree, count in degrees.items() if degree not in within)


def signature_of(names: Iterable[str], keys: Iterable[int] = ()) -> int:
    """The signature of pitches with names and of others: that in which most of them lie, of several the one in which
    they lie as they are written, and then the one with fewest accidentals."""
    places = Counter(map(place_of, names))
    degrees = Counter(key % 12 for key in keys)
    for place, count in places.items():
        degrees[place * 7 % 12] += count

    def otherwise(signature: int) -> int:
        return sum(count for place, count in places.items() if not signature - 1 <= place <= signature + 5)

    return min(range(-6, 7), key=lambda signature: (outside(signature, degrees), otherwise(signature), abs(signature),
                                                    -signature))


@lru_cache(maxsize=None)
def places_of(signature: int, degrees: frozenset[int] = frozenset()) -> dict[int, int]:
    """The places of the twelve keys of an octave from C on: the seven of the signature, and round them as the line of
    fifths goes on. An A sharp among these keys without another sharp is a B flat."""
    found: dict[int, int] = {}
    for place in sorted(range(FLATTEST, SHARPEST + 1), key=lambda place: abs(place - signature - _MIDDLE)):
        if place not in _ODD or signature - 1 <= place <= signature + 5:
            found.setdefault(place * 7 % 12, place)
    if degrees and not any(found[degree] > 5 for degree in degrees & _BLACK):
        found[10] = -2
    return found
