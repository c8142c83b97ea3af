"""The calls that make music. `nodes` and `blocks` have what they give, and refuse what is out of its range."""

from __future__ import annotations

from fractions import Fraction
from functools import reduce
from itertools import groupby
from typing import Iterable, Optional, SupportsIndex, Union

from ..language.grammar import KEYWORDS
from . import origins
from .blocks import Block, Phrase, Warp
from .errors import BarError, ScoreError
from .lengths import WHOLE_NOTE, Exact, LengthLike, exact_ticks, written
from .midi import DRUM_CHANNEL, instrument_number, velocity
from .nodes import (
    MAX_COUNT, MAX_ENTRIES, MAX_PITCHES, Held, Message, Music, Note, Par, Repeat, Rest, Seq, as_int, body_of,
    first_of_all, joined, music,
)
from .pitch import Pitch, PitchLike
from .shapes import Change, Curve, Number, Part, Swing, Tempo, shape_of, stretch_of
from .values import index, listed, real, shown, truth, whole

__all__ = [
    "Block", "KEYWORDS", "Message", "Meter", "Music", "Note", "Par", "Part", "Phrase", "Repeat", "Rest", "Seq", "Warp",
    "accents", "articulations", "bend", "body_of", "breath", "channel", "control", "crescendo", "deformed", "drums",
    "dynamics", "flat", "gate", "hits", "instrument", "melody", "note", "par", "pause", "phrase", "repeat", "rest",
    "seq", "slope", "stretch_of", "swing", "tempo", "tempo_change", "warp",
]


def deformed(parts: Iterable[Part], position: int, onset: bool) -> int:
    """Where a position inside a warp lies outside: of what begins there (onset), or of a note that ends there."""
    return Curve(parts).outside(position, onset)


def note(pitches: Union[PitchLike, Iterable[PitchLike]], length: LengthLike, tied: bool = False) -> Note:
    """A note, or a chord of up to 16 pitches: `note("c4", "1/4")`, `note(chord("Am7"), "1/2")`."""
    if isinstance(pitches, str) or index(pitches) is not None:
        return Note((Pitch(pitches),), exact_ticks(length), tied)  # type: ignore[arg-type]
    several = listed("what a note plays", pitches, 1, MAX_PITCHES)
    return Note(tuple(map(Pitch, several)), exact_ticks(length), tied)  # type: ignore[arg-type]


def rest(length: LengthLike) -> Rest:
    """Silence for the length."""
    return Rest(exact_ticks(length))


def control(controller: SupportsIndex, value: SupportsIndex) -> Message:
    """A control change, both 0 to 127."""
    return Message("control", as_int(value), as_int(controller))


def instrument(name: Union[str, SupportsIndex]) -> Message:
    """A program change to an instrument by its name in General MIDI, or by its number from 0."""
    return Message("program", instrument_number(name))


def bend(amount: SupportsIndex) -> Message:
    """A pitch bend, -8192 to 8191; 0 is none."""
    return Message("bend", as_int(amount))


def seq(*items: Music) -> Seq:
    """One after another; what stands in a `seq` inside is taken out of it."""
    parts = [part for is_seq, several in groupby(items, lambda item: isinstance(item, Seq))
             for part in (several if is_seq else [Seq(tuple(several))]) if isinstance(part, Seq)]
    return reduce(joined, parts) if parts else Seq(())


def repeat(count: SupportsIndex, *items: Music) -> Repeat:
    """The items so many times, 0 to 1,000,000."""
    return Repeat(as_int(count), items)


def par(*branches: Music) -> Par:
    """Voices that begin together. Give each a channel of its own."""
    return Par(tuple((music(branch),) for branch in branches))


def channel(number: SupportsIndex, *items: Music) -> Block:
    """The items on a channel, 0 to 15."""
    return Block("channel", (as_int(number),), items)


def drums(*items: Music) -> Block:
    """The items on the channel of drums."""
    return channel(DRUM_CHANNEL, *items)


def dynamics(loudness: Union[str, SupportsIndex], *items: Music) -> Block:
    """The items as loud as `pp`, `mf` .. say, or by a velocity from 1 to 127."""
    return Block("volume", (_velocity(loudness),), items)


def accents(velocities: Iterable[Union[str, SupportsIndex]], *items: Music) -> Block:
    """The items with a velocity for each note or chord in turn, from a list that goes round."""
    return Block("loud", tuple(map(_velocity, listed("a list of velocities", velocities, 1, MAX_ENTRIES))), items)


def gate(percent: SupportsIndex, *items: Music) -> Block:
    """The items with each note sounding for so many percent of its length, 0 to 400; above 100 into the next ones."""
    return Block("gate", (as_int(percent),), items)


def articulations(percents: Iterable[SupportsIndex], *items: Music) -> Block:
    """The items with a gate for each note or chord in turn, from a list that goes round."""
    return Block("artic", tuple(listed("a list of gates", percents, 1, MAX_ENTRIES)), items)  # type: ignore[arg-type]


def crescendo(first: Union[str, SupportsIndex], last: Union[str, SupportsIndex], *items: Music) -> Block:
    """The items from one loudness evenly to another, note by note; a diminuendo too. At most 256 notes."""
    low, rise, body = _velocity(first), _velocity(last) - _velocity(first), body_of(items)
    known: dict[int, int] = {}
    count = sum(_notes(item, known) for item in body)
    if not 1 <= count <= MAX_ENTRIES:
        raise ScoreError(f"a crescendo has 1 to {MAX_ENTRIES} notes, and this one {count:,}")
    steps = max(1, count - 1)
    return Block("loud", tuple(low + (2 * rise * at + steps) // (2 * steps) for at in range(count)), body)


def warp(parts: Iterable[Part], *items: Music) -> Warp:
    """The items played through a shape of up to 256 parts, of `flat`, `slope`, `pause` and `breath`."""
    return Warp(shape_of(parts), items)


def flat(length: LengthLike, by: SupportsIndex) -> Part:
    """A part of one stretch, in thousandths: 2000 is half as fast."""
    return Part("flat", exact_ticks(length), as_int(by), as_int(by))


def slope(length: LengthLike, first: SupportsIndex, last: SupportsIndex) -> Part:
    """A part that goes evenly from one stretch to another: upwards a ritardando, downwards an accelerando."""
    return Part("slope", exact_ticks(length), as_int(first), as_int(last))


def pause(length: LengthLike) -> Part:
    """A part that delays all that falls on it or follows: a fermata, if a note sounds over it."""
    return Part("pause", exact_ticks(length))


def breath(length: LengthLike) -> Part:
    """A part that delays as a pause does, but no note that ends exactly on it."""
    return Part("breath", exact_ticks(length))


def tempo(beats_a_minute: Number, *items: Music) -> Warp:
    """The items at so many quarter notes a minute, in place of 120."""
    return Warp(Tempo(_stretch_of(beats_a_minute)), items)


def tempo_change(first: Number, last: Number, *items: Music) -> Warp:
    """The items from one tempo evenly to another; together at most 1,000,000 ticks."""
    return Warp(Change(_stretch_of(first), _stretch_of(last)), items)


def swing(*items: Music, unit: LengthLike = "1/8", long: Number = 2 / 3) -> Warp:
    """The items with each pair of units made uneven: the first takes the part `long` of both."""
    return Warp(Swing(exact_ticks(unit), real("the long part of a swing", long)), items)


def phrase(name: str, *items: Music) -> Phrase:
    """The items under a name: the text writes them once. Two of one name have to be equal."""
    return Phrase(name, items)


def melody(pitches: Union[str, Iterable[object]], lengths: Union[str, Iterable[LengthLike]]) -> Seq:
    """Notes with lengths that go round: `melody("c4 e4 r c4+e4+g4 g4~ g4", "1/8 1/8 1/4")`.

    In a text `r` is a rest, `+` joins a chord and `~` ties a note to the next one; in a list None is a rest.
    """
    taken = listed("what a melody plays", pitches.split() if isinstance(pitches, str) else pitches, 1)
    several = listed("the lengths of a melody", lengths.split() if isinstance(lengths, str) else lengths, 1)
    if len(several) > len(taken):
        raise ScoreError(f"{len(several)} lengths for {len(taken)} pitches")
    exact = [exact_ticks(length) for length in several]  # type: ignore[arg-type]
    return Seq(tuple(_word(word, exact[at % len(exact)]) for at, word in enumerate(taken)))


def hits(beats: Union[str, Iterable[object]], pitch: PitchLike, length: LengthLike) -> Seq:
    """A note at each beat that is hit and a rest at the others: `hits("x..x..x.", drum("snare"), "1/8")`.

    In a text `x` is a hit and `.` a rest, and blanks and `|` count for nothing; a list has True and False, as
    `euclid(3, 8)` gives them.
    """
    struck, silent = note(pitch, length), rest(length)
    if isinstance(beats, str):
        marks = "".join(mark for mark in beats if not mark.isspace() and mark != "|")
        wrong = marks.strip("x.")
        if wrong:
            raise ScoreError(f"{shown(wrong[0])} is no beat: a pattern has `x` for a hit and `.` for a rest")
        taken = [mark == "x" for mark in marks]
    else:
        taken = [truth("a beat", beat) for beat in listed("a list of beats", beats, 0)]
    return Seq(tuple(struck if beat else silent for beat in taken))


class Meter:
    """A time signature, as `Meter("3/4")`, which counts bars.

    `signature` is its text, and `ticks` the ticks of a bar, of which a quarter note has 480.
    """

    def __init__(self, signature: LengthLike):
        #: the ticks of a bar
        self.ticks: Exact = exact_ticks(signature)
        if not self.ticks:
            raise ScoreError(f"the time signature {shown(signature)} has no length")
        self.signature = str(signature)

    def bars(self, *bars: Music, pickup: Optional[LengthLike] = None, first: SupportsIndex = 1) -> Seq:
        """The bars one after another; a `BarError` names the first that is too long or too short.

        With a pickup, a bar of that length stands before the first one. `first` is the first one's number.
        """
        begin = whole("the number of the first bar", first, -MAX_COUNT, MAX_COUNT)
        wanted = [] if pickup is None else [(begin - 1, exact_ticks(pickup), str(pickup))]
        wanted += [(begin + at, self.ticks, self.signature) for at in range(len(bars) - len(wanted))]
        every = [music(bar) for bar in bars]
        for (bar_number, ticks, name), bar in zip(wanted, every):
            if bar.bar_ticks != ticks:
                less, more = sorted((bar.bar_ticks, ticks))
                how = f"{_told(more - less)} too {'long' if bar.bar_ticks > ticks else 'short'}"
                raise origins.kept(bar, BarError(bar_number,
                                                 f"is {how}: it has {_told(bar.bar_ticks)} in place of {name}"))
        return Seq(bars)

    def __repr__(self) -> str:
        return f"Meter({self.signature!r})"


def _word(word: object, exact: Exact) -> Music:
    if word is None:
        return Rest(exact)
    if isinstance(word, str):
        if word == "r":
            return Rest(exact)
        return Note(tuple(map(Pitch, word.rstrip("~").split("+"))), exact, word.endswith("~"))
    if index(word) is not None:
        return Note((Pitch(word),), exact)  # type: ignore[arg-type]
    return Note(tuple(map(Pitch, listed("a chord", word, 1, MAX_PITCHES))), exact)  # type: ignore[arg-type]


def _velocity(loudness: object) -> int:
    return velocity(first_of_all("a loudness", loudness))  # type: ignore[arg-type]


def _stretch_of(beats_a_minute: object) -> int:
    return stretch_of(first_of_all("a tempo", beats_a_minute))  # type: ignore[arg-type]


def _notes(item: Music, known: dict[int, int]) -> int:
    """How many entries of a list of velocities it takes."""
    if isinstance(item, Note):
        return 1
    if isinstance(item, Par):
        raise ScoreError("each branch of a par begins a list anew: put a crescendo into each branch")
    if not isinstance(item, Held) or isinstance(item, Block) and item.word in ("volume", "loud"):
        return 0
    if id(item) not in known:
        times = item.count if isinstance(item, Repeat) else 1
        known[id(item)] = times * sum(_notes(inner, known) for inner in item.body)
    return known[id(item)]


def _told(ticks: Exact) -> str:
    """How a reader writes a length."""
    return written(ticks) if isinstance(ticks, int) else str(Fraction(ticks) / WHOLE_NOTE)
