"""From a MusicXML file to a score: its text, what the program plays of it, and what is told."""

from __future__ import annotations

from collections import Counter
from fractions import Fraction
from typing import Iterator

from formula_score.reading.playing import counted, named
from formula_score.reading.ticks import agreed
from .going import Imported
from .moved import Choices
from .xml_file import root_of
from .xml_notes import Song, song_of
from .xml_text import Text

_Note = tuple[Fraction, Fraction, int, int]


def imported(data: bytes, source: str, choices: Choices) -> Imported:
    """The score of a file, played and compared."""
    song = song_of(root_of(data))
    made = Text(song, source, choices)
    wanted, found = Counter(_notes_of(song)), Counter(_notes_in(made.text))
    lines = [f"{counted(len(song.staves), 'part')}, {counted(len(song.bars), 'bar')}, meter "
             f"{', then '.join(song.meters) or 'not given'}"]
    left = "; ".join(filter(None, (named(song.left), made.said)))
    lines += [f"not played, or not as they are meant: {left}"] if left else []
    apart = sum((wanted - found).values()) + sum((found - wanted).values())
    what = counted(sum(wanted.values()), "note")
    lines.append(f"played and compared: {apart:,} of {what} are elsewhere than in the file" if apart else
                 f"played and compared: {what} where the file has them, with their ends")
    return Imported(made.text, made.branches, sum(wanted.values()), tuple(lines), not apart)


def _notes_of(song: Song) -> Iterator[_Note]:
    """The notes that a file has: from where to where, key and channel."""
    for staff in song.staves:
        for sound in (sound for voice in staff.voices for sound in voice):
            yield from ((sound.begin, sound.end, tone.key, staff.channel) for tone in sound.tones)


def _notes_in(text: str) -> Iterator[_Note]:
    """The notes of a score as written, which the program plays so."""
    walk = agreed(text.encode())
    for happening in walk.happenings:
        if happening.statement.word in ("note", "play"):
            begin, end = (Fraction(place, walk.reading.whole) for place in (happening.begin, happening.end))
            for key in happening.values:
                yield begin, end, key, happening.channel
