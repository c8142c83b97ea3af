"""From a voice to printed values: cut at bar lines, in tuplets where they are needed, tied where one is too few."""

from __future__ import annotations

from bisect import bisect_left, bisect_right
from functools import lru_cache
from math import gcd
from typing import Iterator, NamedTuple, Optional, Sequence

from .places import WHOLE, Bar, odd
from .sheet import Note, Voice
from .tuplets import Tuplet, tuplets_of

_DOTS = {1: 0, 3: 1, 7: 2}
_UNITS = tuple(2 * WHOLE >> power for power in range(10))


class Value(NamedTuple):
    """What is printed as one sign: its place, how long it lasts, and the plain value with its dots that says so.

    `note` is None for a rest; `first` and `last` say whether the note begins and ends with it.
    """

    begin: int
    length: int
    plain: int
    dots: int
    note: Optional[Note]
    first: bool
    last: bool
    tuplet: Optional[Tuplet]

    @property
    def end(self) -> int:
        """Where it ends."""
        return self.begin + self.length


@lru_cache(maxsize=4096)
def _single(length: int) -> Optional[tuple[int, int]]:
    """The plain value and the dots of a length, where one sign says it."""
    part = gcd(length, WHOLE)
    dots = _DOTS.get(odd(length // part))
    if odd(WHOLE // part) > 1 or dots is None:
        return None
    plain = length * 2 ** dots // (2 ** (dots + 1) - 1)
    return (plain, dots) if plain <= 2 * WHOLE else None


def _weight(place: int, bar: Bar) -> int:
    """How strong a place of a bar that begins at 0 is: the longest span that begins there."""
    if place == 0:
        return 8 * WHOLE
    if bar.is_compound and place % bar.beat == 0:
        return bar.beat
    under = WHOLE // gcd(place, WHOLE)
    weight = WHOLE // (under & -under)
    return min(weight, WHOLE // 2 if bar.beats % 2 == 0 else WHOLE // bar.unit)


def _inner(begin: int, end: int, bar: Bar) -> Sequence[int]:
    """The places between two others at which the beats of a bar would be seen, on the coarsest grid that has any."""
    for unit in (bar.beat, *_UNITS) if bar.is_compound else _UNITS:
        found = range((begin // unit + 1) * unit, end, unit)
        if found:
            return found
    return ()


_Cut = tuple[int, int, int, int]


def _cut(begin: int, end: int, bar: Bar, is_rest: bool) -> Iterator[_Cut]:
    """Signs for a length that lies outside tuplets, in a bar that begins at 0."""
    single, inner = _single(end - begin), _inner(begin, end, bar)
    strongest = max(inner, key=lambda place: (_weight(place, bar), -place), default=None)
    if single and (strongest is None or _reads_well(begin, end, single, strongest, bar, is_rest)):
        yield begin, end - begin, *single
        return
    assert strongest is not None
    yield from _cut(begin, strongest, bar, is_rest)
    yield from _cut(strongest, end, bar, is_rest)


def _reads_well(begin: int, end: int, single: tuple[int, int], strongest: int, bar: Bar, is_rest: bool) -> bool:
    (plain, dots), length = single, end - begin
    if bar.is_compound:
        return begin % bar.beat == length % bar.beat == 0 or begin % bar.beat + length <= bar.beat
    if length == bar.end:
        return True
    if is_rest:
        return dots == 0 and begin % plain == 0
    if dots == 0:
        return begin % (plain // 2) == 0 and (plain <= WHOLE // bar.unit or begin % plain == 0 or bar.beats % 2 == 1
                                              or _weight(strongest, bar) < WHOLE // 2)
    if dots == 1:
        return begin % plain == 0 or end % plain == 0 and begin % (plain // 2) == 0
    return begin % (2 * plain) == 0


_Span = tuple[int, int, int]
_Sign = tuple[int, int, int, int, int, Optional[Tuplet]]


def _signs(span: _Span, bar: Bar, tuplets: Sequence[Tuplet]) -> Iterator[_Sign]:
    """The signs of a note, or of a rest, inside a bar; the number of the span says which."""
    at, end, number = span
    while at < end:
        tuplet = next((one for one in tuplets if one.begin <= at < one.end), None)
        if tuplet:
            upto = min(end, tuplet.end)
            inside = [(place - tuplet.begin) * tuplet.actual // tuplet.normal for place in (at, upto)]
            for place, length, plain, dots in _cut_in_tuplet(*inside):
                begin, lasts = (part * tuplet.normal // tuplet.actual for part in (place, length))
                yield number, tuplet.begin + begin, lasts, plain, dots, tuplet
        else:
            upto = min([end, *(one.begin for one in tuplets if one.begin > at)])
            for cut in _cut(at, upto, bar, number < 0):
                yield number, *cut, None
        at = upto


def _cut_in_tuplet(begin: int, end: int) -> Iterator[_Cut]:
    """In a tuplet the longest signs that fit, one after another."""
    while begin < end:
        length = end - begin
        if not _single(length):
            length = WHOLE >> 10
            while begin + 2 * length <= end:
                length *= 2
        single = _single(length)
        assert single
        yield begin, length, *single
        begin += length


@lru_cache(maxsize=4096)
def _layout(spans: tuple[_Span, ...], bar: Bar) -> tuple[_Sign, ...]:
    """The signs of a bar that begins at 0; of music that comes again they are found once."""
    tuplets = tuplets_of(sorted({begin for begin, _, _ in spans} - {0}), bar)
    return tuple(sign for span in spans for sign in _signs(span, bar, tuplets))


def values_of(voice: Voice, bars: Sequence[Bar]) -> list[list[Value]]:
    """The signs of each bar of a voice, its rests too; none where it is silent in all of the bar."""
    ends = [note.end for note in voice]
    return [_of_bar(voice[bisect_right(ends, bar.begin):bisect_left(ends, bar.end) + 1], bar) for bar in bars]


def _of_bar(notes: Sequence[Note], bar: Bar) -> list[Value]:
    spans: list[_Span] = []
    at, zero, length = 0, bar.begin, bar.end - bar.begin
    for number, note in enumerate(notes):
        begin, end = max(note.begin - zero, 0), min(note.end - zero, length)
        if begin < end:
            if at < begin:
                spans.append((at, begin, -1))
            spans.append((begin, end, number))
            at = end
    if not spans:
        return []
    if at < length:
        spans.append((at, length, -1))
    found = []
    for number, begin, lasts, plain, dots, tuplet in _layout(tuple(spans), Bar(0, 0, length, bar.beats, bar.unit)):
        own = notes[number] if number >= 0 else None
        begin += zero
        placed = tuplet and tuplet._replace(begin=tuplet.begin + zero, end=tuplet.end + zero)
        found.append(Value(begin, lasts, plain, dots, own, own is not None and begin == own.begin,
                           own is not None and begin + lasts == own.end, placed))
    return found
