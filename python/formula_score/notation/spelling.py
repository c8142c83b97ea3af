"""Which signature a score has, how a key is spelled in it, which clef a staff has, and where drums are on theirs."""

from __future__ import annotations

from functools import lru_cache
from typing import Iterable

from ..making import spelling
from ..making.pitch import DEGREES
from .sheet import Part, Sheet, Tone

#: Where drums are on their staff, and which have a cross as their head; others take what is free.
DRUMS = {35: "f4", 36: "f4", 37: "c5", 38: "c5", 39: "c5", 40: "c5", 41: "g4", 42: "g5", 43: "a4", 44: "d4", 45: "b4",
         46: "g5", 47: "d5", 48: "d5", 49: "a5", 50: "e5", 51: "f5", 52: "a5", 53: "f5", 55: "a5", 57: "a5", 59: "f5"}
CROSSES = frozenset((37, 39, 42, 44, 46, 49, 51, 52, 53, 55, 57, 59))
STEPS = "cdefgab"
_BASS_BELOW = 57
#: Bass drum, snare, closed hi-hat, crash and ride have their own places.
_USUAL = (36, 38, 42, 49, 51)


@lru_cache(maxsize=None)
def signature(fifths: int) -> dict[str, int]:
    """What a signature makes of each letter; flats are below 0."""
    names = (spelling.spelled(0, place) for place in range(fifths - 1, fifths + 6))
    return {name.letter: name.alter for name in names}


@lru_cache(maxsize=None)
def spelled(tone: Tone, fifths: int) -> spelling.Spelled:
    """The spelling of the text, else the one that is usual with the signature."""
    place = spelling.place_of(tone.name) if tone.name else spelling.places_of(fifths)[tone.key % 12]
    return spelling.spelled(tone.key, place)


def fifths_of(sheet: Sheet) -> int:
    """The signature under which fewest signs are printed; of equal ones that with fewest of its own."""
    tones = [tone for part in sheet.parts if not part.is_drums for tone in part.tones().elements()]
    unnamed = [tone.key for tone in tones if not tone.name]
    return spelling.signature_of([tone.name for tone in tones if tone.name], unnamed)


def clef_of(part: Part) -> str:
    """`treble`, `bass` or `percussion`, by the key in the middle of all."""
    if part.is_drums:
        return "percussion"
    keys = sorted(tone.key for tone in part.tones().elements())
    return "bass" if keys[len(keys) // 2] < _BASS_BELOW else "treble"


def drum_places(keys: Iterable[int]) -> dict[int, str]:
    """A place on the staff for each drum, as `f4`: no two at one place, nor where a cross is a sharp at one pitch."""
    free = {f"{step}{octave}": 12 * octave + DEGREES[step] for octave in range(20) for step in STEPS}
    found: dict[int, str] = {}
    pitches: set[int] = set()
    for key in sorted(set(keys), key=lambda key: (key not in _USUAL, key not in DRUMS, key)):
        height, sharp = _height(DRUMS.get(key, "b4")), int(key in CROSSES)
        found[key] = min((place for place, pitch in free.items() if pitch + sharp not in pitches),
                         key=lambda place: abs(_height(place) - height))
        pitches.add(free.pop(found[key]) + sharp)
    return found


def _height(place: str) -> int:
    return 7 * int(place[1:]) + STEPS.index(place[0])
