"""The notes of a score where they are written, in chords, voices and staves.

No `warp` acts, and each note lasts as long as its length says. What notation has no value for is moved to the nearest
place that it has.
"""

from __future__ import annotations

from collections import Counter
from typing import NamedTuple, Optional

from ..making.midi import DRUM_CHANNEL
from ..reading.walk import Happening, Played
from .places import WHOLE, nearest

#: A fifth voice goes to a second staff.
MOST_VOICES = 4
_LEAST = WHOLE // 64
_INSIDE = "notes in an inner warp or in one beside the tempo, as written"
_LONG = "gates above 100, as long as written"


class Tone(NamedTuple):
    """A key, and how the text spells it: empty where it is a number."""

    key: int
    name: str


class Note(NamedTuple):
    """A note or chord: from where to where, its tones from the lowest, how it is struck, and its process.

    `said` has the ticks at which it begins and ends in the text.
    """

    begin: int
    end: int
    tones: tuple[Tone, ...]
    velocity: int
    percent: int
    process: int
    said: tuple[int, int]


#: Notes one after another, none over another.
Voice = list[Note]


class Part(NamedTuple):
    """What one staff has: its channel, its first program, and its voices from the highest."""

    channel: int
    program: Optional[int]
    voices: tuple[Voice, ...]

    @property
    def is_drums(self) -> bool:
        """Whether its notes are drums."""
        return self.channel == DRUM_CHANNEL

    def tones(self) -> Counter[Tone]:
        """How often each tone is struck."""
        return Counter(tone for voice in self.voices for note in voice for tone in note.tones)


class Sheet(NamedTuple):
    """A whole score: its staves, where it ends, and how many things are not said, by what they are."""

    parts: tuple[Part, ...]
    end: int
    unsaid: Counter[str]


def _unsaid(walk: Played) -> Counter[str]:
    found: Counter[str] = Counter()
    programs: set[int] = set()
    for happening in walk.happenings:
        word = happening.statement.word
        if word in ("note", "play"):
            found[_INSIDE] += len(happening.levels) > 1
            found[_LONG] += happening.percent > 100
        elif word == "control":
            found["control changes"] += 1
        elif word == "bend":
            found["bends"] += 1
        elif word == "program":
            found["later programs"] += happening.channel in programs
            programs.add(happening.channel)
    return found


def _note(happening: Happening, whole: int, unsaid: Counter[str]) -> Optional[Note]:
    if happening.begin == happening.end:
        unsaid["notes without a length"] += 1
        return None
    begin, end = nearest(happening.begin, whole), nearest(happening.end, whole)
    tones = {key: Tone(key, name if name != "key" else "")
             for key, name in zip(happening.values, happening.statement.names)}
    unsaid["keys twice in a chord"] += len(happening.values) - len(tones)
    return Note(begin, max(end, begin + _LEAST) if end <= begin else end, tuple(tones[key] for key in sorted(tones)),
                happening.velocity, happening.percent, happening.process, (happening.begin, happening.end))


def _voices(notes: list[Note]) -> list[Voice]:
    """As few voices as the notes need; a branch stays in its voice where that is free."""
    voices: list[Voice] = []
    for note in sorted(notes, key=lambda note: (note.begin, -note.tones[-1].key)):
        free = [voice for voice in voices if voice[-1].end <= note.begin]
        own = next((voice for voice in free if voice[-1].process == note.process), None)
        if own is None and free:
            own = free[0]
        if own is None:
            own = []
            voices.append(own)
        own.append(note)
    return sorted(voices, key=lambda voice: -sum(note.tones[-1].key for note in voice) / len(voice))


def _in_chords(notes: list[Note]) -> list[Note]:
    """Notes of one channel that begin and end together, struck alike, are a chord."""
    found: dict[tuple[int, ...], Note] = {}
    for note in notes:
        like = note.begin, note.end, note.velocity, note.percent
        if like not in found:
            found[like] = note
        elif {tone.key for tone in found[like].tones} & {tone.key for tone in note.tones}:
            found[(*like, len(found))] = note
        else:
            found[like] = found[like]._replace(tones=tuple(sorted((*found[like].tones, *note.tones))))
    return list(found.values())


def sheet_of(walk: Played) -> Sheet:
    """The sheet of a score that was walked over."""
    whole, unsaid = walk.reading.whole, _unsaid(walk)
    notes: dict[int, list[Note]] = {}
    programs: dict[int, int] = {}
    for happening in walk.happenings:
        if happening.statement.word in ("note", "play"):
            note = _note(happening, whole, unsaid)
            if note:
                notes.setdefault(happening.channel, []).append(note)
        elif happening.statement.word == "program":
            programs.setdefault(happening.channel, happening.values[0])
    parts = []
    for channel in sorted(notes):
        voices = _voices(_in_chords(notes[channel]))
        parts += [Part(channel, programs.get(channel), tuple(voices[first:first + MOST_VOICES]))
                  for first in range(0, len(voices), MOST_VOICES)]
    end = -(-walk.ended[len(walk.begun) - 1].written * WHOLE // whole)
    end = max([end, *(voice[-1].end for part in parts for voice in part.voices)])
    return Sheet(tuple(parts), end, unsaid)
