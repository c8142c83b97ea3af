"""Loops of whole bars as repeats, with endings where only the last bars of the rounds differ.

A loop is folded where its rounds begin at bar lines, and all staves have the same there, struck alike and in the same
tempo. Of loops in one another the one that saves most bars is folded. abc2midi knows no repeat that is played more than
twice and has no endings.
"""

from __future__ import annotations

from bisect import bisect_left, bisect_right
from fractions import Fraction
from itertools import groupby
from typing import Iterator, NamedTuple, Optional, Sequence

from .marks import Mark, Marks
from .piece import Piece
from .places import MOST_ENDINGS, Bar
from .sheet import Sheet

_MOST_ROUNDS = 10_000


class Fold(NamedTuple):
    """A loop on paper: its first bar, the bars of a round, the rounds, how many bars these share, and which of them
    have each ending, from 1."""

    first: int
    bars: int
    rounds: int
    shared: int
    endings: tuple[tuple[int, ...], ...]

    @property
    def saved(self) -> int:
        """How many bars need not be printed."""
        return self.bars * self.rounds - self.shared - len(self.endings) * (self.bars - self.shared)

    @property
    def behind(self) -> int:
        """The bar behind it."""
        return self.first + self.bars * self.rounds

    def kept(self) -> Iterator[tuple[int, int, tuple[int, ...]]]:
        """From which bar to which it is printed, and in which rounds; none where in all."""
        if self.shared:
            yield self.first, self.first + self.shared, ()
        for rounds in self.endings:
            begin = self.first + (rounds[0] - 1) * self.bars
            yield begin + self.shared, begin + self.bars, rounds


class _Content:
    """What each bar has."""

    def __init__(self, sheet: Sheet, bars: Sequence[Bar], marks: Marks):
        self.bars, self.begins = bars, [bar.begin for bar in bars]
        self.lines = [*self.begins, bars[-1].end]
        self.rows: list[list[object]] = [[(bar.beats, bar.unit, bar.end - bar.begin)] for bar in bars]
        #: the bars over whose beginning a note sounds
        self.crossed: set[int] = set()
        self._add_notes(sheet)
        for kind, places in (("pause", marks.pauses), ("breath", marks.breaths)):
            for place in sorted(places):
                at = max(0, bisect_left(self.begins, place) - 1)
                self.rows[at].append((kind, place - self.begins[at]))
        #: the tempo from the first place of each bar on, at its end, and whether it is said there
        self.tempo: list[tuple[Fraction, Fraction, bool]] = []
        self._add_tempos(marks.tempos)

    def _add_notes(self, sheet: Sheet) -> None:
        notes: list[list[tuple[object, ...]]] = [[] for _ in self.bars]
        for number, part in enumerate(sheet.parts):
            for note in (note for voice in part.voices for note in voice):
                at = bisect_right(self.begins, note.begin) - 1
                zero = self.begins[at]
                notes[at].append((number, note.begin - zero, note.end - zero, note.tones, note.velocity, note.percent))
                self.crossed.update(range(at + 1, bisect_left(self.begins, note.end)))
        for row, own in zip(self.rows, notes):
            row += sorted(own)

    def _add_tempos(self, tempos: Sequence[Mark]) -> None:
        now, waiting = Fraction(0), list(reversed(tempos))
        for bar, row in zip(self.bars, self.rows):
            first, is_said = now, False
            while waiting and waiting[-1].place < bar.end:
                mark = waiting.pop()
                inside = mark.place - bar.begin
                now = mark.tempo or now
                if inside <= 0:
                    first, is_said = now, is_said or mark.tempo is not None
                if mark.word or inside > 0:
                    row.append((inside, mark.tempo or Fraction(0), mark.word, mark.until - bar.begin))
            self.tempo.append((first, now, is_said))

    def fold(self, begin: int, length: int, rounds: int, most: int) -> Optional[Fold]:
        """How a loop is folded, if it can be; without endings it has at most so many rounds."""
        first = bisect_left(self.begins, begin)
        bars = bisect_left(self.begins, begin + length) - first
        heads = range(first, first + bars * rounds, bars or 1)
        if bars < 1 or first + bars * rounds >= len(self.lines) or any(
                self.lines[first + bars * number] != begin + length * number for number in range(rounds + 1)):
            return None
        if any(self.tempo[head][0] != self.tempo[first][0] for head in heads):
            return None
        several = [self.rows[head:head + bars] for head in heads]
        shared = next((at for at, same in enumerate(zip(*several)) if any(row != same[0] for row in same)), bars)
        endings = tuple(tuple(number for number, _ in group) for _, group in groupby(
            enumerate(several, 1), lambda row: row[1][shared:])) if shared < bars else ()
        found = Fold(first, bars, rounds, shared, endings)
        is_short = found.saved > 0 and 2 * shared >= bars and len(endings) <= MOST_ENDINGS
        is_crossed = found.behind in self.crossed or any({head, head + shared} & self.crossed for head in heads)
        is_played = bool(endings) or rounds <= most
        return found if is_short and is_played and not is_crossed and self._tempo_returns(found) else None

    def _tempo_returns(self, found: Fold) -> bool:
        """Whether each round begins in the tempo that is said there, or that is still the same."""
        first, _, is_said = self.tempo[found.first]
        return is_said or all(self.tempo[found.first + found.bars * number - 1][1] == first
                              for number in range(1, found.rounds))


class _Folded:
    """The bars that are printed, and where places of the others' bars are on paper."""

    def __init__(self, bars: Sequence[Bar], folds: Sequence[Fold]):
        self.bars: list[Bar] = []
        self.sources: list[tuple[int, int, int]] = []
        at = 0
        for fold in folds:
            self._keep(bars[at:fold.first])
            for first, behind, rounds in fold.kept():
                is_last = not fold.endings or rounds[-1:] == (fold.rounds,)
                times = fold.rounds if not fold.endings else len(rounds) + 1 if rounds and not is_last else 0
                self._keep(bars[first:behind], first == fold.first, times, rounds)
            at = fold.behind
        self._keep(bars[at:])

    def _keep(self, bars: Sequence[Bar], is_first: bool = False, times: int = 0, rounds: tuple[int, ...] = ()) -> None:
        if not bars:
            return
        shift = (self.bars[-1].end if self.bars else 0) - bars[0].begin
        self.sources.append((bars[0].begin, bars[-1].end, shift))
        for bar in bars:
            number = self.bars[-1].number + 1 if self.bars else bar.number
            is_end = bar is bars[-1]
            is_begin = bar is bars[0]
            self.bars.append(Bar(number, bar.begin + shift, bar.end + shift, bar.beats, bar.unit, is_first and is_begin,
                                 times if is_end else 0, rounds if is_begin else (), rounds if is_end else ()))

    def shift(self, place: int, is_end: bool = False) -> Optional[int]:
        """How far a place moves, None where it is not printed; one that ends something belongs to what is before it."""
        at = bisect_right(self.sources, (place - is_end, 1 << 62)) - 1
        begin, end, shift = self.sources[max(at, 0)]
        return shift if begin <= place - is_end < end else None


def folded(piece: Piece, most: int = _MOST_ROUNDS) -> Piece:
    """The piece with its loops of whole bars as repeats; one without endings is played at most so often."""
    if not piece.loops:
        return piece
    content = _Content(piece.sheet, piece.bars, piece.marks)
    folds = filter(None, (content.fold(*loop, most) for loop in piece.loops))
    taken: list[Fold] = []
    used: set[int] = set()
    for fold in sorted(folds, key=lambda fold: (-fold.saved, fold)):
        if used.isdisjoint(range(fold.first, fold.behind)):
            used.update(range(fold.first, fold.behind))
            taken.append(fold)
    return _moved(piece, _Folded(piece.bars, sorted(taken))) if taken else piece


def _moved(piece: Piece, paper: _Folded) -> Piece:
    """The piece with what is printed where it is on paper."""
    parts, marks = [], piece.marks
    for part in piece.sheet.parts:
        voices = ([note._replace(begin=note.begin + shift, end=note.end + shift) for note in voice
                   for shift in [paper.shift(note.begin)] if shift is not None] for voice in part.voices)
        parts.append(part._replace(voices=tuple(filter(None, voices))))
    tempos = tuple(mark._replace(place=mark.place + shift, until=mark.until + shift) for mark in marks.tempos
                   for shift in [paper.shift(mark.place)] if shift is not None)
    pauses, breaths, caesuras = (
        [place + shift for place in places for shift in [paper.shift(place, True)] if shift is not None]
        for places in (marks.pauses, marks.breaths, marks.caesuras))
    left = piece.bars[-1].end - piece.sheet.end
    sheet = piece.sheet._replace(parts=tuple(parts), end=paper.bars[-1].end - left)
    return piece._replace(sheet=sheet, bars=tuple(paper.bars), marks=Marks(
        tempos, tuple(pauses), frozenset(breaths), frozenset(caesuras)))
