"""Pitches by their names and numbers, scales and chords."""

from __future__ import annotations

import re
from typing import Iterator, SupportsIndex, Union

from .errors import ScoreError
from .values import known, shown, text, whole

#: How many semitones each letter lies above C.
DEGREES = {"c": 0, "d": 2, "e": 4, "f": 5, "g": 7, "a": 9, "b": 11}
_NAMES = ("c", "cs", "d", "ds", "e", "f", "fs", "g", "gs", "a", "as", "b")

MODES = {
    "major": (0, 2, 4, 5, 7, 9, 11), "minor": (0, 2, 3, 5, 7, 8, 10), "harmonic minor": (0, 2, 3, 5, 7, 8, 11),
    "melodic minor": (0, 2, 3, 5, 7, 9, 11), "dorian": (0, 2, 3, 5, 7, 9, 10), "phrygian": (0, 1, 3, 5, 7, 8, 10),
    "lydian": (0, 2, 4, 6, 7, 9, 11), "mixolydian": (0, 2, 4, 5, 7, 9, 10), "locrian": (0, 1, 3, 5, 6, 8, 10),
    "pentatonic": (0, 2, 4, 7, 9), "minor pentatonic": (0, 3, 5, 7, 10), "blues": (0, 3, 5, 6, 7, 10),
    "whole tone": (0, 2, 4, 6, 8, 10), "chromatic": tuple(range(12)),
}

CHORDS = {
    "": (0, 4, 7), "m": (0, 3, 7), "dim": (0, 3, 6), "aug": (0, 4, 8), "sus2": (0, 2, 7), "sus4": (0, 5, 7),
    "5": (0, 7), "6": (0, 4, 7, 9), "m6": (0, 3, 7, 9), "7": (0, 4, 7, 10), "maj7": (0, 4, 7, 11),
    "m7": (0, 3, 7, 10), "m7b5": (0, 3, 6, 10), "dim7": (0, 3, 6, 9), "add9": (0, 4, 7, 14),
    "9": (0, 4, 7, 10, 14), "maj9": (0, 4, 7, 11, 14), "m9": (0, 3, 7, 10, 14),
}

#: What a pitch may be given as: a `Pitch`, a name such as `"fs4"`, or a key from 0 to 127.
PitchLike = Union["Pitch", str, SupportsIndex]


class Pitch(int):
    """A key of MIDI, 0 to 127, made of its number or its name: `Pitch("c4") + 12 == Pitch("c5") == 72`.

    A name is a letter `a` to `g`, then `s` (sharp), `b` (flat) or nothing, then the octave, 0 to 9. It prints as
    the score writes it.
    """

    def __new__(cls, of: PitchLike) -> "Pitch":
        return super().__new__(cls, whole("a key", _key_of(of) if isinstance(of, str) else of, 0, 127))

    def __add__(self, semitones: SupportsIndex) -> "Pitch":
        return Pitch(int(self) + _semitones(semitones))

    __radd__ = __add__

    def __sub__(self, semitones: SupportsIndex) -> "Pitch":
        return Pitch(int(self) - _semitones(semitones))

    def above(self, other: PitchLike) -> int:
        """How many semitones it lies above another pitch; below, it is negative."""
        return int(self) - int(Pitch(other))

    def __str__(self) -> str:
        octave, degree = divmod(int(self), 12)
        return f"{_NAMES[degree]}{octave - 1}" if octave else f"key {int(self)}"

    def __repr__(self) -> str:
        return f"Pitch({str(self)!r})" if self >= 12 else f"Pitch({int(self)})"


def _semitones(number: SupportsIndex) -> int:
    return whole("a number of semitones", number, -127, 127)


def _key_of(name: str) -> int:
    found = re.fullmatch(r"([a-g])([sb]?)([0-9])", name)
    if not found:
        raise ScoreError(f"{shown(name)} is no pitch: pitches are written as c4, fs4 (F sharp) or bb3 (B flat)")
    letter, sign, octave = found.groups()
    return 12 * (int(octave) + 1) + DEGREES[letter] + {"": 0, "s": 1, "b": -1}[sign]


class Scale:
    """A scale from a pitch up: `Scale("d4", "dorian")[0]` is D4, and any whole number counts on, below too.

    `tonic` is the pitch of degree 0, `mode` its name in `MODES`; `list(scale)` has the pitches of one octave.
    """

    def __init__(self, tonic: PitchLike, mode: str = "major"):
        #: the pitch of degree 0
        self.tonic = Pitch(tonic)
        #: a key of `MODES`
        self.mode = known("mode", mode, MODES)

    def __getitem__(self, degree: SupportsIndex) -> Pitch:
        steps = MODES[self.mode]
        octave, step = divmod(_degree(degree), len(steps))
        return self.tonic + (12 * octave + steps[step])

    def __len__(self) -> int:
        """How many degrees an octave has."""
        return len(MODES[self.mode])

    def __iter__(self) -> Iterator[Pitch]:
        """The pitches of one octave, from the tonic up."""
        return map(self.__getitem__, range(len(self)))

    def __contains__(self, pitch: object) -> bool:
        return (int(Pitch(pitch)) - int(self.tonic)) % 12 in MODES[self.mode]  # type: ignore[arg-type]

    def triad(self, degree: SupportsIndex) -> tuple[Pitch, ...]:
        """The chord of three notes on a degree of the scale."""
        return self[degree], self[_degree(degree) + 2], self[_degree(degree) + 4]

    def __repr__(self) -> str:
        return f"Scale({str(self.tonic)!r}, {self.mode!r})"


def chord(name: str, octave: SupportsIndex = 4, inversion: SupportsIndex = 0) -> tuple[Pitch, ...]:
    """The pitches of a chord by its name, as `chord("Am7", 3)`: a letter `A` to `G`, `#`, `b` or nothing, a kind."""
    found = re.fullmatch(r"([A-G])([#b]?)(.*)", text("the name of a chord", name))
    if not found or found.group(3) not in CHORDS:
        raise ScoreError(f"there is no chord {shown(name)}; kinds are {', '.join(filter(None, CHORDS))}, or none for "
                         "major")
    letter, sign, kind = found.groups()
    root = Pitch(f"{letter.lower()}{whole('an octave', octave, 0, 9)}") + {"": 0, "#": 1, "b": -1}[sign]
    pitches = [root + step for step in CHORDS[kind]]
    turned = whole(f"an inversion of {name}", inversion, 0, len(pitches) - 1)
    return tuple(pitches[turned:] + [pitch + 12 for pitch in pitches[:turned]])


def _degree(degree: SupportsIndex) -> int:
    return whole("a degree", degree, -128, 128)
