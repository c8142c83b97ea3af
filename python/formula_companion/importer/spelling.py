"""A voice as bars of statements: a length for each note that one would write, and the percents that end it in time."""

from __future__ import annotations

from collections import Counter
from functools import lru_cache
from itertools import chain
from typing import Iterator, NamedTuple, Optional, Sequence, Union

from .bars import MAX_GATE, MAX_LENGTH, Bar, Line, Said, Sound, percents
from .moved import Tone, Word
from .voicing import Chord, Voice, tolerance

#: Lengths that have a name in notes, the plainest first.
_VALUES = ((1, 1), (1, 2), (1, 4), (1, 8), (1, 16), (1, 32), (3, 4), (3, 8), (3, 16), (1, 12), (1, 24), (1, 6), (1, 3), (7, 8),
           (7, 16), (5, 8), (5, 16), (1, 64), (1, 48), (3, 32), (1, 20), (1, 40))


class Ways(NamedTuple):
    """How the voices of a part are spelled: the ticks of a whole note, whether ends are free, as those of drums are, the
    percent for which most notes sound, and by how many percents of its length an end may move."""

    whole: int
    is_free: bool
    usual: int
    ends: int


class _Spelling(Line):
    """Spells a voice from left to right."""

    def __init__(self, lines: Sequence[int], end: int, ways: Ways):
        super().__init__(lines, end)
        self.ways, self.values = ways, values_of(ways.whole)
        self.rising = sorted(self.values)
        self.known: dict[tuple[int, ...], int] = {}
        #: of each note the length that it is written with
        self.lengths: list[tuple[Tone, int]] = []

    def window(self, chord: Chord, length: int) -> Optional[tuple[int, int]]:
        """The percents of a length with which a chord ends in time."""
        if self.ways.is_free:
            most = min(length, chord.most - chord.begin)
            return percents(length, 1, most) if most > 0 else (0, 0)
        near = tolerance(length) * self.ways.ends
        least = max(chord.ends[1] - near, chord.least, chord.begin + (chord.ends[1] > chord.begin)) - chord.begin
        most = min(chord.ends[0] + near, chord.most, max(self.end, chord.ends[1])) - chord.begin
        return percents(length, min(least, most), most)

    def chord(self, chord: Chord, following: int) -> None:
        """A note or chord; the next statement of the voice begins at `following`."""
        begin = chord.begin
        key = (chord.ends[0] - begin, chord.ends[1] - begin, min(following - begin, MAX_LENGTH),
               self.line_behind(begin) - begin, chord.least - begin, min(chord.most - begin, 4 * MAX_LENGTH),
               min(self.end - begin, 16 * self.ways.whole))
        length = self.known.get(key, 0)
        if not length:
            length = self.known[key] = self.length(chord, following)
        low, high = self.window(chord, length) or 2 * (
            min(MAX_GATE, (100 * (chord.ends[0] - begin) + length // 2) // max(1, length)),)
        self.add(Sound(chord.keys, length, low, high, chord.velocity), length)
        self.lengths += [(tone, length) for tone in chord.tones]

    def length(self, chord: Chord, following: int) -> int:
        """The length that one would write."""
        gap = min(following - chord.begin, MAX_LENGTH)
        bar = self.line_behind(chord.begin) - chord.begin
        if gap <= 0:  # a note without length at the end of the piece
            return 0
        if self.ways.is_free:
            most = min(gap, bar)
            return most if 2 * most <= self.ways.whole else self.ways.whole // 4
        sounds = (chord.ends[0] + chord.ends[1]) // 2 - chord.begin
        for length in chain(self._wanted(sounds, gap, bar), _exact(sounds, gap)):
            if 0 < length <= gap and self.window(chord, length) is not None:
                return length
        return max(1, min(gap, sounds))

    def _wanted(self, sounds: int, gap: int, bar: int) -> Iterator[int]:
        """Lengths for a note that sounds so long, the best first."""
        usual, whole = self.ways.usual, self.ways.whole
        is_plain = gap in self.values
        if (is_plain or 16 * gap % whole == 0) and 100 * sounds >= (usual - 8) * gap:
            yield gap
        for value in reversed(self.rising):
            if value < gap and 32 * (gap - value) % whole == 0 and abs(100 * sounds - usual * value) <= 8 * value:
                yield value
        if is_plain and gap <= min(bar, whole // 4) and 10 * sounds >= 3 * gap:
            yield gap
        if sounds > bar and bar < gap:  # it sounds over the bar line: to a value behind it
            for value in self.rising:
                if bar + value <= gap and sounds <= bar + value + 2 and 10 * sounds >= 7 * (bar + value):
                    yield bar + value
        if 2 * sounds > 3 * whole:  # a percent of it is more than an end may move: the length has to be that of the sound
            for step in (whole // 4, whole // 8, whole // 16, whole // 32, whole // 48):
                yield (sounds + step // 2) // max(1, step) * step
        for value in self.values:
            if sounds <= value + 2 and value <= gap and 16 * sounds >= 10 * value:
                yield value
        for value in self.rising:
            if sounds <= value <= gap:
                yield value
        yield gap


def _exact(sounds: int, gap: int) -> Iterator[int]:
    """Lengths that no value says, for a note that sounds so long."""
    yield from range(sounds, min(gap, sounds + 20) + 1)
    yield from range(gap, max(1, gap - 100, sounds // 4), -1)
    yield from (-(-100 * sounds // percent) for percent in range(max(1, -(-100 * sounds // gap)), MAX_GATE + 1))


@lru_cache(maxsize=None)
def fits(gap: int, sounds: int) -> bool:
    """Whether a note may sound just so long where the next one of its voice begins after the gap."""
    return sounds <= gap or any(-(-100 * sounds // percent) * percent // 100 == sounds
                                for percent in range(-(-100 * sounds // gap), MAX_GATE + 1))


@lru_cache(maxsize=None)
def values_of(whole: int) -> tuple[int, ...]:
    """The lengths that have a name in notes, where a whole note has so many ticks."""
    return tuple(whole * over // under for over, under in _VALUES if whole * over % under == 0)


def usual_percent(voices: Sequence[Voice], whole: int) -> int:
    """The percent of the time to what follows for which most notes of a part sound."""
    values = values_of(whole)
    found: Counter[int] = Counter()
    for voice in voices:
        for chord, following in zip(voice.chords, voice.chords[1:]):
            gap, sounds = following.begin - chord.begin, chord.ends[1] - chord.begin
            if gap in values and gap // 3 < sounds <= gap + 2:
                found[100 if sounds >= gap - 2 else 100 * sounds // gap] += 1
    return max(found, key=lambda percent: (found[percent] + found[percent + 1] / 2, percent)) if found else 100


def bars_of(voice: Voice, lines: Sequence[int], end: int, ways: Ways) -> tuple[list[Bar], list[tuple[Tone, int]]]:
    """The bars of a voice to the end of the piece, and of each note its written length."""
    spelled = _Spelling(lines, end, ways)
    items: list[tuple[int, int, Union[Word, Chord]]] = [(word.tick, 0, word) for word in voice.words]
    items += [(chord.begin, 1, chord) for chord in voice.chords]
    items.sort(key=lambda item: item[:2])
    for place, (tick, _, item) in enumerate(items):
        spelled.rest_until(tick)
        if isinstance(item, Chord):
            spelled.chord(item, items[place + 1][0] if place + 1 < len(items) else end)
        else:
            spelled.add(Said(item.status, item.data))
    spelled.rest_until(end)
    return spelled.bars(), spelled.lengths
