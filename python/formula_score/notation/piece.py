"""A whole piece as it is printed: its sheet in bars, its marks, and what it and its staves are called."""

from __future__ import annotations

from collections import defaultdict
from typing import Iterator, NamedTuple, Optional

from ..making.midi import INSTRUMENTS
from ..reading.branches import Titles, called
from ..reading.meter import Meter
from ..reading.playing import Failed
from ..reading.walk import Place, Played
from .marks import Marks, marks_of
from .places import WHOLE, Bar, bars_of
from .sheet import Sheet, sheet_of
from .tuplets import settled


class Piece(NamedTuple):
    """What is printed; of its loops where each begins, how long a round is, and how many there are."""

    sheet: Sheet
    bars: tuple[Bar, ...]
    marks: Marks
    loops: tuple[tuple[int, int, int], ...]
    names: tuple[str, ...]
    titles: Titles


def piece_of(walk: Played, meter: Meter, titles: Titles) -> Piece:
    """The piece of a score that was walked over, each note where it is printed; those that moved are counted."""
    if not any(happening.values and happening.begin < happening.end for happening in walk.happenings
               if happening.statement.word in ("note", "play")):
        raise Failed(1, "the score has no note that has a length")
    sheet = sheet_of(walk)
    bars = bars_of(meter, sheet.end)
    before = sum(len(voice) for part in sheet.parts for voice in part.voices)
    parts = (part._replace(voices=tuple(filter(None, (settled(voice, bars) for voice in part.voices))))
             for part in sheet.parts)
    sheet = sheet._replace(parts=tuple(part for part in parts if part.voices))
    _count_moved(sheet, before, walk.reading.whole)
    names = tuple(map(_shown, _names(walk, sheet)))
    return Piece(sheet, tuple(bars), marks_of(walk, sheet), tuple(_loops(walk)), names, Titles(*map(_shown, titles)))


def _shown(text: str) -> str:
    """A text without what no file of notation may have."""
    return "".join(sign if sign.isprintable() else "?" for sign in text)


def _loops(walk: Played) -> Iterator[tuple[int, int, int]]:
    """The loops whose rounds are equally long."""
    whole = walk.reading.whole
    rounds: dict[tuple[int, int], dict[int, int]] = defaultdict(dict)
    seen: set[int] = set()
    for happening in walk.happenings:
        place: Optional[Place] = happening.place
        while place and id(place) not in seen:
            seen.add(id(place))
            if place.kind == "round":
                rounds[id(place.node), id(place.outer)].setdefault(place.number, place.begin)
            place = place.outer
    for begins in rounds.values():
        lengths = {begins[number + 1] - begins[number] for number in begins if number + 1 in begins}
        if len(lengths) == 1 and len(begins) == max(begins) + 1:
            begin, length = begins[0] * WHOLE, lengths.pop() * WHOLE
            if length and begin % whole == length % whole == 0:
                yield begin // whole, length // whole, len(begins)


def _count_moved(sheet: Sheet, before: int, whole: int) -> None:
    notes = [note for part in sheet.parts for voice in part.voices for note in voice]
    sheet.unsaid["notes too short to be printed"] += before - len(notes)
    moves = [max(abs(note.begin * whole - note.said[0] * WHOLE), abs(note.end * whole - note.said[1] * WHOLE))
             for note in notes]
    most = max(moves, default=0)
    if most:
        ticks = -(-most // WHOLE)
        sheet.unsaid[f"notes moved, by at most {ticks} tick{'' if ticks == 1 else 's'}"] = sum(map(bool, moves))


def _names(walk: Played, sheet: Sheet) -> list[str]:
    """Of each staff a comment above its branch or behind its head, else its instrument, else its first phrase."""
    said: dict[int, tuple[str, str]] = {}
    for happening in walk.happenings:
        if happening.statement.word in ("note", "play") and happening.channel not in said:
            said[happening.channel] = called(walk, happening.process)[1:]
    found = []
    for part in sheet.parts:
        comment, phrase = said[part.channel]
        instrument = "drums" if part.is_drums else INSTRUMENTS[part.program] if part.program is not None else ""
        found.append(comment or instrument or phrase.replace("_", " ") or f"channel {part.channel}")
    return found
