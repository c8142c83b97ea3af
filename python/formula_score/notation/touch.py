"""How notes are joined: slurs, where a gate of 100 percent and more joins them, and what is staccato."""

from __future__ import annotations

from bisect import bisect_right
from typing import NamedTuple, Sequence

from .places import Bar
from .sheet import Note, Voice

#: The most bars of a slur.
_MOST_BARS = 4
_JOINED, _SHORT = 100, 50


class Slurs(NamedTuple):
    """Where the notes begin at which slurs begin, and those at which they end."""

    begins: frozenset[int] = frozenset()
    ends: frozenset[int] = frozenset()


def is_short(note: Note) -> bool:
    """Whether a note has a dot."""
    return note.percent <= _SHORT


def breaks_of(bars: Sequence[Bar]) -> list[int]:
    """The bar lines at which a repeat or an ending begins or ends."""
    return sorted({place for bar in bars for place, is_one in ((bar.begin, bar.forward or bar.opens),
                                                               (bar.end, bar.backward or bar.closes)) if is_one})


def slurs_of(voice: Voice, bars: Sequence[Bar]) -> Slurs:
    """The slurs of a voice: over notes that follow one another and are joined, of some bars, over no repeat sign."""
    if all(note.percent < _JOINED for note in voice):
        return Slurs()
    lines, breaks = [bar.begin for bar in bars], {*breaks_of(bars)}
    begins, ends, run = set(), set(), list[Note]()
    first = 0
    for note in [*voice, None]:
        bar = bisect_right(lines, note.begin) - 1 if note else 0
        is_joined = note is not None and note.percent >= _JOINED
        if run and note and is_joined and note.begin == run[-1].end and note.begin not in breaks and not (
                note.begin == lines[bar] and bar - first >= _MOST_BARS):
            run.append(note)
            continue
        if len(run) > 1:
            begins.add(run[0].begin)
            ends.add(run[-1].begin)
        run, first = ([note] if note and is_joined else []), bar
    return Slurs(frozenset(begins), frozenset(ends))
