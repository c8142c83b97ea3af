"""A piece as MusicXML 3.1, partwise: its head, its parts, its bars and what stands above and below them."""

from __future__ import annotations

from functools import reduce
from math import gcd
from typing import Iterator, Optional, Union
from xml.sax.saxutils import escape

from ..reading.midi_file import MADE_BY
from ..reading.names import note
from .dynamics import Loudness, dynamics_of
from .marks import Mark
from .piece import Piece
from .places import WHOLE, Bar
from .repeats import folded
from .rhythm import Value, values_of
from .sheet import Part
from .spelling import clef_of, fifths_of
from .touch import slurs_of
from .xml_notes import Notes

_CLEFS = {"treble": ("G", 2), "bass": ("F", 4), "percussion": ("percussion", 2)}
_HEAD = """<?xml version="1.0" encoding="UTF-8"?>
<!DOCTYPE score-partwise PUBLIC "-//Recordare//DTD MusicXML 3.1 Partwise//EN"
 "http://www.musicxml.org/dtds/partwise.dtd">
<score-partwise version="3.1">"""
_WEDGES = {"<(": "crescendo", ">(": "diminuendo", "<)": "stop", ">)": "stop"}
_BAR = "heavy-light", "light-heavy"
#: Of a bar the signs of each voice.
_Bars = list[list[list[Value]]]


def musicxml_of(piece: Piece) -> str:
    """The whole file."""
    piece = folded(piece)
    parts: list[_Bars] = [[list(voices) for voices in zip(*(values_of(voice, piece.bars) for voice in part.voices))]
                          for part in piece.sheet.parts]
    unit = reduce(gcd, {length for part in parts for bar in part for voice in bar for value in voice
                             for length in (value.begin, value.length)} | {bar.end for bar in piece.bars}, WHOLE // 4)
    fifths = fifths_of(piece.sheet)
    lines = [*_head(piece), "<part-list>"]
    for number, (part, name) in enumerate(zip(piece.sheet.parts, piece.names), 1):
        lines += _score_part(number, part, name)
    lines.append("</part-list>")
    for number, (part, bars) in enumerate(zip(piece.sheet.parts, parts), 1):
        lines += _Staff(piece, number, part, fifths, unit).lines(bars)
    return "\n".join([*lines, "</score-partwise>", ""])


def _head(piece: Piece) -> Iterator[str]:
    yield _HEAD
    if piece.titles.title:
        yield f"<work><work-title>{escape(piece.titles.title)}</work-title></work>"
    yield "<identification>"
    if piece.titles.composer:
        yield f'<creator type="composer">{escape(piece.titles.composer)}</creator>'
    yield f"<encoding><software>{MADE_BY.decode()}</software></encoding></identification>"


def _score_part(number: int, part: Part, name: str) -> Iterator[str]:
    """What the list of parts says of a staff: its name, and how it is played."""
    yield f'<score-part id="P{number}"><part-name>{escape(name)}</part-name>'
    keys = sorted({tone.key for tone in part.tones()}) if part.is_drums else [1]
    for key in keys:
        said = note(part.channel, key) if part.is_drums else escape(name)
        yield f'<score-instrument id="P{number}-I{key}"><instrument-name>{said}</instrument-name></score-instrument>'
    for key in keys:
        sound = (f"<midi-unpitched>{key + 1}</midi-unpitched>" if part.is_drums else
                 f"<midi-program>{(part.program or 0) + 1}</midi-program>")
        yield (f'<midi-instrument id="P{number}-I{key}"><midi-channel>{part.channel + 1}</midi-channel>{sound}'
               "</midi-instrument>")
    yield "</score-part>"


class _Staff:
    """The bars of a staff."""

    def __init__(self, piece: Piece, number: int, part: Part, fifths: int, unit: int):
        self.piece, self.number, self.part, self.fifths, self.unit = piece, number, part, fifths, unit
        dynamics = dynamics_of(part, piece.bars)
        slurs = [slurs_of(voice, piece.bars) for voice in part.voices]
        self.notes = Notes(piece, number, part, fifths, unit, dynamics.accents, slurs)
        #: what is above and below the staff, the first one last: where, what is printed, and what is heard
        waiting = [row for mark in piece.marks.tempos for row in _tempo(mark)] if number == 1 else []
        waiting += [(loudness.place, _loudness(loudness), "") for loudness in dynamics.words]
        waiting += [(bar.begin, _direction("above", f"<words>{bar.backward}x</words>"), "") for bar in piece.bars
                    if number == 1 and bar.backward > 2 and not bar.closes]
        self.waiting = sorted(waiting, key=lambda row: row[0])[::-1]

    def lines(self, bars: _Bars) -> Iterator[str]:
        """The part."""
        yield f'<part id="P{self.number}">'
        before: Optional[Bar] = None
        for bar, voices in zip(self.piece.bars, bars):
            yield f'<measure number="{bar.number}"' + (' implicit="yes">' if bar.number == 0 else ">")
            if self.number > 1:  # endings are printed above the first staff alone
                bar = bar._replace(opens=(), closes=())
            if bar.forward or bar.opens:
                yield _left(bar)
            yield from self._attributes(bar, before)
            yield from self._voices(bar, voices)
            yield from _right(bar, bar.end == self.piece.bars[-1].end)
            yield "</measure>"
            before = bar
        yield "</part>"

    def _attributes(self, bar: Bar, before: Optional[Bar]) -> Iterator[str]:
        words = []
        if before is None:
            words += [f"<divisions>{WHOLE // 4 // self.unit}</divisions>", f"<key><fifths>{self.fifths}</fifths></key>"]
        if before is None or (before.beats, before.unit) != (bar.beats, bar.unit):
            words.append(f"<time><beats>{bar.beats}</beats><beat-type>{bar.unit}</beat-type></time>")
        if before is None:
            sign, line = _CLEFS[clef_of(self.part)]
            words.append(f"<clef><sign>{sign}</sign><line>{line}</line></clef>")
        if words:
            yield f"<attributes>{''.join(words)}</attributes>"

    def _voices(self, bar: Bar, voices: list[list[Value]]) -> Iterator[str]:
        """The voices one after another; from the second on one that is silent is not printed."""
        length = (bar.end - bar.begin) // self.unit
        self.notes.begin_bar(voices)
        self.late: list[tuple[int, str]] = []
        for number, values in enumerate(voices, 1):
            if number > 1 and values:
                yield f"<backup><duration>{length}</duration></backup>"
            if number == 1 and not values:
                yield from self._pending(bar, bar)
                yield f'<note><rest measure="yes"/><duration>{length}</duration><voice>1</voice></note>'
            for value in values:
                if number == 1:
                    yield from self._pending(bar, value)
                yield from self.notes.value(number, value)
        at = length
        for late, direction in [*self.late, (length, "")] if self.late else []:
            if late != at:
                way = "backup" if late < at else "forward"
                yield f"<{way}><duration>{abs(late - at)}</duration></{way}>"
            yield from filter(None, [direction])
            at = late

    def _pending(self, bar: Bar, value: Union[Bar, Value]) -> Iterator[str]:
        """What stands before the end of a sign; what stands inside it comes behind all voices, since MuseScore hears an
        offset at the beginning of the sign."""
        while self.waiting and self.waiting[-1][0] < value.end:
            place, printed, sound = self.waiting.pop()
            direction = printed.replace("</direction>", f"{sound}</direction>")
            if place > value.begin:
                self.late.append((round((place - bar.begin) / self.unit), direction))
            else:
                yield direction


def _left(bar: Bar) -> str:
    """The left bar line of a bar that begins a repeat or an ending."""
    ending = f'<ending number="{",".join(map(str, bar.opens))}" type="start"/>' if bar.opens else ""
    if not bar.forward:
        return f'<barline location="left">{ending}</barline>'
    return f'<barline location="left"><bar-style>{_BAR[0]}</bar-style>{ending}<repeat direction="forward"/></barline>'


def _right(bar: Bar, is_last: bool) -> Iterator[str]:
    """The right bar line of a bar, where it is another than a thin one."""
    style = f"<bar-style>{_BAR[1]}</bar-style>" if bar.backward or is_last else ""
    number = ",".join(map(str, bar.closes))
    ending = f'<ending number="{number}" type="{"stop" if bar.backward else "discontinue"}"/>' if bar.closes else ""
    times = f' times="{bar.backward}"' if bar.backward > 2 else ""
    repeat = f'<repeat direction="backward"{times}/>' if bar.backward else ""
    if style or ending:
        yield f'<barline location="right">{style}{ending}{repeat}</barline>'


def _direction(where: str, inside: str) -> str:
    return f'<direction placement="{where}"><direction-type>{inside}</direction-type></direction>'


def _tempo(mark: Mark) -> Iterator[tuple[int, str, str]]:
    """Where something is printed of a tempo, what, and what is heard; a word has dashes to the end of its slope."""
    if mark.word:
        inside = f'<words>{mark.word}</words></direction-type><direction-type><dashes type="start" number="1"/>'
        yield mark.place, _direction("above", inside), ""
        yield mark.until - 1, _direction("above", '<dashes type="stop" number="1"/>'), ""
        return
    assert mark.tempo is not None
    said = f"<beat-unit>quarter</beat-unit><per-minute>{round(mark.tempo * 10) / 10:g}</per-minute>"
    shown = f"<metronome>{said}</metronome>" if mark.is_printed else "<words>&#160;</words>"
    yield mark.place, _direction("above", shown), f'<sound tempo="{float(mark.tempo):.7g}"/>'


def _loudness(loudness: Loudness) -> str:
    wedge = _WEDGES.get(loudness.word)
    return _direction("below", f'<wedge type="{wedge}"/>' if wedge else f"<dynamics><{loudness.word}/></dynamics>")
