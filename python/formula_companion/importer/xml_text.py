"""The text of a score for what a MusicXML file has: its voices in bars, written as those of MIDI files are."""

from __future__ import annotations

from fractions import Fraction
from itertools import accumulate
from typing import Iterator, Sequence

from formula_score.making.lengths import DIVISION, MAX_DIVISION, MIN_DIVISION, written
from formula_score.reading.playing import Failed
from . import bars, parts
from .branches import Voiced, branches_of
from .moved import Choices
from .statements import Words
from .tempo import Tempo, tempo_of
from .text import Writer
from .words import plain
from .xml_notes import Song

_MINUTE = 60_000_000


def _division(song: Song) -> int:
    """The least ticks a quarter note that hold all places; 480 where these do."""
    places = {place for staff in song.staves for voice in staff.voices for sound in voice for place in sound[:2]}
    unders = {(4 * place).denominator for place in (*places, *song.tempos, *song.bars)}
    divisions: Sequence[int] = (DIVISION, *range(MIN_DIVISION, MAX_DIVISION + 1))
    for division in divisions:
        if all(division % under == 0 for under in unders):
            return division
    raise Failed(1, f"its tuplets need more than {MAX_DIVISION} ticks in a quarter note: --by musescore reads it too")


class Text:
    """The text of a song."""

    def __init__(self, song: Song, source: str, choices: Choices):
        self.song, self.division = song, _division(song)
        self.lines = [self.ticks(place) for place in accumulate(song.bars, initial=Fraction(0))]
        tempos = [(self.ticks(place), round(_MINUTE / tempo)) for place, tempo in song.tempos.items() if tempo > 0]
        piece = parts.Piece(self.division, self.lines[-1], title=song.title, composer=song.composer, tempos=tempos,
                            meters=[parts.Meter(0, 4, 4)])
        tempo = tempo_of(piece, self.lines, 1) if choices.with_tempo else Tempo()
        words = Words(lambda ticks: written(ticks, 4 * self.division), list(song.names))
        branches = branches_of(list(self._voices()), {False: words, True: words})
        if not branches:
            raise Failed(1, "it has no note")
        kinds = "flat" if song.fifths < 0 else "sharp"
        notes = [f"# meter {', then '.join(song.meters) or 'not given'}; {abs(song.fifths)} {kinds}s"]
        self.said, self.branches = tempo.said, len(branches)
        self.text = Writer(piece, self.lines, branches, words.length, choices.with_phrases).text(
            f"{plain(source)} by formula-score import", notes, tempo)

    def ticks(self, length: Fraction) -> int:
        """The ticks of a length."""
        return int(length * 4 * self.division)

    def _voices(self) -> Iterator[Voiced]:
        numbers = {name: number for number, name in enumerate(self.song.names)}
        for track, staff in enumerate(self.song.staves):
            part = parts.Part(track, staff.channel, staff.name)
            for number, voice in enumerate(staff.voices):
                line = bars.Line(self.lines, self.lines[-1])
                if staff.program is not None and number == 0:
                    line.add(bars.Said(0xC0 | staff.channel, bytes([staff.program])))
                for sound in voice:
                    line.rest_until(self.ticks(sound.begin))
                    keys = tuple(numbers[tone.name] for tone in sound.tones)
                    length = self.ticks(sound.end - sound.begin)
                    line.add(bars.Sound(keys, length, sound.percent, sound.percent, sound.velocity), length)
                line.rest_until(self.lines[-1])
                yield Voiced(part, False, line.bars())
