"""A piano roll as SVG, of the listing of a MIDI file.

Time goes from left to right, with lines at bars or quarter notes. Keys go from the lowest note of the piece upwards
and are named as in scores. A channel has a colour, and from the ninth on a hatch too, so that channels can be told
apart in print, also without colours: no two of the first eight are equally light. Messages that are no notes are ticks
in the row at the foot.
"""

from __future__ import annotations

from typing import Iterator, NamedTuple, Sequence

from ..making.pitch import Pitch
from ..reading.meter import Meter
from ..reading.notes import is_off, is_on, paired
from ..reading.playing import Listing

BLACK = {1, 3, 6, 8, 10}
# From dark to light; each differs from its neighbours in hue too.
COLOURS = ("#000000", "#7b1c3a", "#0b5fa5", "#b34d00", "#2a9d5c", "#cc79a7", "#e8a200", "#8ed3f0")

ROW = 9  # height of a key
LEFT = 44  # room for the names of keys
TOP = 30
FOOT = 44
QUARTER = 48  # width of a quarter note, unless the piece is long
WIDEST = 1500
MOST_LINES = 256

#: The colours that are too dark for a dark page, and what stands for them there.
DARKER = {"#000000": "#e6edf3", "#7b1c3a": "#d4577f", "#0b5fa5": "#4a9fe8"}

# what changes where the reader's page is dark
DARK = (
    "@media (prefers-color-scheme: dark) { .ground { fill: #0d1117 } .black { fill: #1c2128 } "
    "text { fill: #e6edf3 } text.quiet { fill: #9198a1 } .strong { stroke: #8b949e } .weak { stroke: #3d444d } "
    ".edge { stroke: #e6edf3 } "
    + " ".join(f'[fill="{light}"] {{ fill: {dark} }} [stroke="{light}"] {{ stroke: {dark} }}'
               for light, dark in DARKER.items()) + " }"
)

_KINDS = {11: "control", 12: "program", 14: "bend"}


class Note(NamedTuple):
    """A note with the ticks of its beginning and its end."""

    begin: int
    channel: int
    key: int
    end: int


class Mark(NamedTuple):
    """A channel message that is no note."""

    channel: int
    tick: int
    what: str


class Rule(NamedTuple):
    """A line across all keys, with a label where it is a strong one."""

    tick: int
    label: str


class Piece(NamedTuple):
    """What is drawn: the ticks of a quarter note, notes, marks, the end, and lines with what they count."""

    division: int
    notes: Sequence[Note]
    marks: Sequence[Mark]
    end: int
    rules: Sequence[Rule]
    counted: str


def quarters(listing: Listing) -> list[Rule]:
    """A line at each quarter note, a strong one at every fourth; of a long piece only at every 4th, 16th and so on."""
    count, step = _quarters(listing.end, listing.division), 1
    while count // step > MOST_LINES:
        step *= 4
    return [Rule(quarter * listing.division, "" if quarter % (4 * step) else str(quarter))
            for quarter in range(0, count + 1, step)]


def bars(meter: Meter, end: int) -> list[Rule]:
    """A line at each beat up to an end, a strong one at each bar; of a long piece only bars, or every so many."""
    last = meter.at(max(0, end - 1)).bar
    first = 0 if meter.upbeat else 1
    step = 1
    while (last - first + 1) // step > MOST_LINES // 4:
        step *= 4
    rules = []
    for bar in range(first if step == 1 else -(-first // step) * step, last + 2, step):
        rules.append(Rule(meter.start(bar), str(bar)))
        if step == 1 and bar <= last:
            unit, beats = meter.whole // meter.signature(bar).unit, meter.signature(bar).beats
            stop = meter.start(bar + 1)
            rules += [Rule(tick, "") for tick in (meter.start(bar) + beat * unit for beat in range(1, beats))
                      if tick < stop]
    return rules


def piece_of(listing: Listing, rules: Sequence[Rule], counted: str) -> Piece:
    """The piece of a listing, all tracks at once; a note that nothing ends goes on to the end."""
    notes, marks = [], []
    for event, end in paired(listing):
        data = event.message
        if is_on(event):
            notes.append(Note(event.tick, data[0] & 15, data[1], listing.end if end is None else end))
        elif data[0] < 0xF0 and not is_off(event):
            what = " ".join([_KINDS.get(data[0] >> 4, "message"), *map(str, data[1:])])
            marks.append(Mark(data[0] & 15, event.tick, what))
    marks.sort(key=lambda mark: mark.tick)
    return Piece(listing.division, sorted(notes), marks, listing.end, rules, counted)


def _quarters(end: int, division: int) -> int:
    return max(1, -(-end // division))


def _paint(channel: int) -> str:
    return COLOURS[channel] if channel < 8 else f"url(#hatch{channel})"


def _hatches(used: Sequence[int]) -> Iterator[str]:
    yield "<defs>"
    for channel in used:
        if channel >= 8:
            yield (
                f'<pattern id="hatch{channel}" width="4" height="4" patternUnits="userSpaceOnUse" '
                f'patternTransform="rotate(45)"><rect width="4" height="4" fill="#ffffff"/>'
                f'<rect width="2" height="4" fill="{COLOURS[channel - 8]}"/></pattern>'
            )
    yield "</defs>"


class _Sheet:
    """Where things lie on the picture of a piece."""

    def __init__(self, piece: Piece):
        self.piece = piece
        self.last = _quarters(max([piece.end, *(rule.tick for rule in piece.rules)]), piece.division) * piece.division
        self.scale = min(QUARTER, (WIDEST - LEFT) / (self.last // piece.division)) / piece.division
        self.sounding = {note.key for note in piece.notes} or {60}
        self.low, self.high = max(0, min(self.sounding) - 1), min(127, max(self.sounding) + 1)
        self.foot = TOP + (self.high - self.low + 1) * ROW
        self.used = sorted({note.channel for note in piece.notes} | {mark.channel for mark in piece.marks})

    def x(self, tick: int) -> float:
        return LEFT + tick * self.scale

    def y(self, key: int) -> int:
        return TOP + (self.high - key) * ROW

    def keys(self) -> Iterator[str]:
        for key in range(self.low, self.high + 1):
            if key % 12 in BLACK:
                yield (
                    f'<rect class="black" x="{LEFT}" y="{self.y(key)}" width="{self.x(self.last) - LEFT:.2f}" '
                    f'height="{ROW}" fill="#f0f0f0"/>'
                )
            weight = ' font-weight="bold"' if key in self.sounding else ' class="quiet" fill="#808080"'
            yield f'<text x="{LEFT - 4}" y="{self.y(key) + ROW - 2}" text-anchor="end"{weight}>{Pitch(key)}</text>'

    def rules(self) -> Iterator[str]:
        for rule in self.piece.rules:
            at, strong = self.x(rule.tick), bool(rule.label)
            yield (
                f'<line class="{"strong" if strong else "weak"}" x1="{at:.2f}" y1="{TOP}" x2="{at:.2f}" '
                f'y2="{self.foot + 12}" stroke="{"#606060" if strong else "#c8c8c8"}" '
                f'stroke-width="{0.8 if strong else 0.5}"/>'
            )
            if strong:
                yield f'<text x="{at:.2f}" y="{TOP - 4}" text-anchor="middle">{rule.label}</text>'
        yield f'<text x="{LEFT - 10}" y="{TOP - 4}" text-anchor="end">{self.piece.counted}</text>'

    def notes(self) -> Iterator[str]:
        for note in self.piece.notes:
            length = max((note.end - note.begin) * self.scale, 0.8)
            yield (
                f'<rect class="edge" x="{self.x(note.begin):.2f}" y="{self.y(note.key) + 1}" width="{length:.2f}" '
                f'height="{ROW - 2}" rx="1" fill="{_paint(note.channel)}" stroke="#000000" '
                f'stroke-width="0.4"><title>{Pitch(note.key)} channel {note.channel} tick {note.begin} '
                f"to {note.end}</title></rect>"
            )

    def marks(self) -> Iterator[str]:
        for mark in self.piece.marks:
            yield (
                f'<line x1="{self.x(mark.tick):.2f}" y1="{self.foot + 2}" x2="{self.x(mark.tick):.2f}" '
                f'y2="{self.foot + 11}" stroke="{COLOURS[mark.channel % 8]}" stroke-width="1.4"><title>{mark.what} '
                f"channel {mark.channel} tick {mark.tick}</title></line>"
            )
        if self.piece.marks:
            yield f'<text x="{LEFT - 4}" y="{self.foot + 10}" text-anchor="end">others</text>'
        yield (
            f'<line class="edge" x1="{self.x(self.piece.end):.2f}" y1="{TOP}" x2="{self.x(self.piece.end):.2f}" '
            f'y2="{self.foot + 12}" stroke="#000000" stroke-width="1.6"><title>end, tick {self.piece.end}</title>'
            "</line>"
        )

    def legend(self) -> Iterator[str]:
        for place, channel in enumerate(self.used):
            at = LEFT + place * 66
            yield (
                f'<rect class="edge" x="{at}" y="{self.foot + 24}" width="12" height="{ROW - 2}" '
                f'fill="{_paint(channel)}" stroke="#000000" stroke-width="0.4"/><text x="{at + 16}" '
                f'y="{self.foot + 31}">channel {channel}</text>'
            )


def drawn(piece: Piece) -> Iterator[str]:
    """The lines of the picture."""
    sheet = _Sheet(piece)
    width = LEFT + sheet.last * sheet.scale + 12
    height = sheet.foot + FOOT
    yield (
        f'<svg xmlns="http://www.w3.org/2000/svg" width="{width:.0f}" height="{height}" '
        f'viewBox="0 0 {width:.0f} {height}" font-family="sans-serif" font-size="8">'
    )
    yield from _hatches(sheet.used)
    yield f"<style>{DARK}</style>"
    yield f'<rect class="ground" width="{width:.0f}" height="{height}" fill="#ffffff"/>'
    for lines in (sheet.keys(), sheet.rules(), sheet.notes(), sheet.marks(), sheet.legend()):
        yield from lines
    yield "</svg>"
