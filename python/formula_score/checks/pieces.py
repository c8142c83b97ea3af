"""Scores and MIDI files as a musician compares them: bars with notes and messages by part, and how long each bar lasts.

Places and lengths are parts of a whole note: of a score as they are written, of a file by its ticks.
"""

from __future__ import annotations

import re
from fractions import Fraction
from typing import Iterator, NamedTuple, Optional

from ..making.pitch import Pitch
from ..reading import names
from ..reading.marks import bars_of
from ..reading.meter import Group, Meter
from ..reading.notes import is_off, is_on, paired
from ..reading.playing import Listing
from ..reading.tempos import tempos_of
from ..reading.ticks import spots_of, ticks_of
from ..reading.tree import Statement
from ..reading.walk import Happening, Place, Played, messages_of

#: With which number of bars the program is no longer asked how long each is.
_MOST_BARS = 20_000


class Part(NamedTuple):
    """Who plays: the outermost branch, counted from 1, or 0 outside all, and the channel."""

    branch: int
    channel: int


class Tone(NamedTuple):
    """A note: where in its bar it begins, its key and name, its velocity, how long it sounds, and its process; -1 in
    a file."""

    begin: Fraction
    key: int
    name: str
    velocity: int
    sounds: Fraction
    process: int


class Word(NamedTuple):
    """A message that is no note: where in its bar it is, what it sets, and to what, in words."""

    begin: Fraction
    what: str
    value: str
    process: int


class Bar:
    """What a bar has by part, and how many seconds it lasts; None where nobody plays at one of its ends."""

    def __init__(self) -> None:
        self.tones: dict[Part, list[Tone]] = {}
        self.words: dict[Part, list[Word]] = {}
        self.seconds: Optional[float] = None

    @property
    def signature(self) -> tuple[tuple[Part, Fraction, int], ...]:
        """By what it is known again: its notes, whoever plays them how loud."""
        return tuple(sorted((part, tone.begin, tone.key) for part, tones in self.tones.items() for tone in tones))


class Piece:
    """The bars of a piece, from the first one on, and the names of its parts."""

    def __init__(self, meter: Meter, end: int):
        self.meter = meter
        self.first = 0 if meter.upbeat else 1
        last = meter.at(max(0, end - 1)).bar
        self.bars = [Bar() for _ in range(self.first, last + 1)]
        self.parts: dict[Part, str] = {}

    def bar(self, position: int) -> tuple[Bar, Fraction]:
        """The bar of a position, and where in it that is; what is at the end of the piece is in its last bar."""
        number = min(self.meter.at(position).bar, self.first + len(self.bars) - 1)
        return self.bars[number - self.first], Fraction(position - self.meter.start(number), self.meter.whole)

    def beat(self, number: int, begin: Fraction) -> str:
        """A place of a bar, as a musician says it."""
        unit = self.meter.signature(number).unit
        beat, rest = divmod(begin, Fraction(1, unit))
        return f"beat {beat + 1}" + (f" and {rest}" if rest else "")

    def tempo(self, number: int) -> Optional[float]:
        """The quarter notes a minute of a bar, in the mean."""
        seconds = self.bars[number - self.first].seconds
        ticks = self.meter.start(number + 1) - self.meter.start(number)
        return 240 * ticks / self.meter.whole / seconds if seconds else None


def of_score(walk: Played, meter: Meter) -> Piece:
    """A score that is played."""
    piece = Piece(meter, walk.ended[len(walk.begun) - 1].written)
    whole = walk.reading.whole
    for happening in walk.happenings:
        if not happening.values:
            continue
        bar, begin = piece.bar(happening.begin)
        branch, name = _branch(walk, happening.place)
        part = Part(branch, happening.channel)
        piece.parts.setdefault(part, name or f"channel {happening.channel}")
        if happening.statement.word in ("note", "play"):
            sounds = Fraction((happening.end - happening.begin) * happening.percent, 100 * whole)
            bar.tones.setdefault(part, []).extend(
                Tone(begin, key, named, happening.velocity, sounds, happening.process)
                for key, named in _named(happening))
        else:
            bar.words.setdefault(part, []).append(_word(begin, messages_of(happening)[0][1], happening.process))
    if len(piece.bars) <= _MOST_BARS:
        lines = [meter.start(piece.first + at) for at in range(len(piece.bars) + 1)]
        spots = spots_of(walk, lines)
        there = [spot for spot in spots if spot is not None]
        ticks = iter(ticks_of(walk.reading, there))
        at = [None if spot is None else next(ticks) for spot in spots]
        for bar, begin_tick, end_tick in zip(piece.bars, at, at[1:]):
            if begin_tick is not None and end_tick is not None:
                bar.seconds = (end_tick - begin_tick) / (2 * walk.reading.division)
    return piece


def _named(happening: Happening) -> Iterator[tuple[int, str]]:
    for key, name in zip(happening.values, happening.statement.names):
        yield key, str(Pitch(key)) if name == "key" else name


def _word(begin: Fraction, message: bytes, process: int) -> Word:
    kind = message[0] >> 4
    words = names.message(message)
    if kind == 0xC:
        return Word(begin, "program", words.partition("(")[2].rstrip(")"), process)
    what = words[:words.rindex(f" {message[2]}")] if kind == 0xB else words.split()[0]
    return Word(begin, what, words[len(what) + 1:], process)


def _branch(walk: Played, place: Optional[Place]) -> tuple[int, str]:
    """The outermost branch of a place, with the name that the score has for it: a comment above it, or its first
    phrase."""
    found = None
    while place is not None:
        found, place = (place if place.kind == "branch" else found), place.outer
    if found is None or not isinstance(found.node, Statement):
        return 0, ""
    block = found.node.blocks[found.number]
    for comment in walk.reading.comments_above().get(block.head.start, ()):
        if bars_of(comment) is None and comment.text:
            return found.number + 1, comment.text
    return found.number + 1, _phrase(block.statements) or f"branch {found.number + 1}"


def _phrase(statements: tuple[Statement, ...]) -> str:
    for statement in statements:
        name = re.sub(r"_[0-9]+$", "", statement.name) if statement.word == "do" else next(
            filter(None, (_phrase(block.statements) for block in statement.blocks)), "")
        if name:
            return name
    return ""


def of_file(listing: Listing, groups: tuple[Group, ...], upbeat: Fraction) -> Piece:
    """A MIDI file."""
    meter = Meter(groups, upbeat, 4 * listing.division)
    piece = Piece(meter, listing.end)
    titles: dict[int, str] = {}
    for sounding in paired(listing):
        event = sounding.event
        if event.message[:2] == b"\xff\x03":
            titles.setdefault(event.track, names.message(event.message).partition(": ")[2])
        if event.message[0] >= 0xF0 or is_off(event):
            continue
        bar, begin = piece.bar(event.tick)
        part = Part(0, event.message[0] & 15)
        piece.parts.setdefault(part, titles.get(event.track) or f"channel {part.channel}")
        if is_on(event):
            end = listing.end if sounding.end is None else sounding.end
            bar.tones.setdefault(part, []).append(Tone(begin, event.message[1], str(Pitch(event.message[1])),
                                                       event.message[2],
                                                       Fraction(end - event.tick, meter.whole), -1))
        else:
            bar.words.setdefault(part, []).append(_word(begin, event.message, -1))
    _last(piece, listing)
    return piece


def _last(piece: Piece, listing: Listing) -> None:
    """How long each bar of a file lasts, by its tempos."""
    seconds = tempos_of(listing).seconds
    for number, bar in enumerate(piece.bars, piece.first):
        bar.seconds = seconds(piece.meter.start(number + 1)) - seconds(piece.meter.start(number))
