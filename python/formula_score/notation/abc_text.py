"""A piece as ABC 2.1, which abc2midi plays and abcm2ps draws."""

from __future__ import annotations

from math import gcd
from typing import Iterator, Optional, Sequence

from ..reading.midi_file import MADE_BY
from .dynamics import dynamics_of
from .marks import Mark
from .piece import Piece
from .places import WHOLE, Bar
from .repeats import folded
from .rhythm import Value, values_of
from .sheet import Note, Part, Tone, Voice
from .spelling import CROSSES, clef_of, drum_places, fifths_of, signature, spelled
from .touch import is_short, slurs_of

_UNIT = WHOLE // 8
_KEYS = "Gb Db Ab Eb Bb F C G D A E B F#".split()
_SIGNS = {-1: "_", 0: "=", 1: "^"}
_CLEFS = {"treble": "treble", "bass": "bass", "percussion": "perc"}
_BARS_OF_LINE = 4
_WORDS = {"<(": "crescendo(", "<)": "crescendo)", ">(": "diminuendo(", ">)": "diminuendo)"}
_HOLDS = {"": "", "fermata": "!fermata!", "breath-mark": "!breath!", "caesura": "!breath!"}


def _length(length: int) -> str:
    """A length in units; of one nothing is said."""
    part = gcd(length, _UNIT)
    over, under = length // part, _UNIT // part
    if under == 1:
        return "" if over == 1 else str(over)
    return f"{over if over > 1 else ''}/{under if under > 2 else ''}"


def letter(step: str, octave: int) -> str:
    """A step as ABC writes it: `c` is the one above middle C."""
    return step + "'" * (octave - 5) if octave >= 5 else step.upper() + "," * (4 - octave)


def drum(place: str, key: int) -> str:
    """A drum by its place on the staff: in this clef abcm2ps draws what has a sharp as a cross."""
    return ("^" if key in CROSSES else "") + letter(place[0], int(place[1:]))


def _mark(mark: Mark) -> str:
    return f'"^{mark.word}"' if mark.tempo is None else f"[Q:1/4={max(1, round(mark.tempo))}]"


def _plain(text: str) -> str:
    """A text that closes no string, and begins no comment."""
    return text.replace("\\", "/").replace('"', "'").replace("%", "\\%")


class _Voice:
    """The text of one voice of a staff."""

    def __init__(self, piece: Piece, part: Part, number: int, fifths: int, has_tempos: bool):
        self.piece, self.part, self.number, self.fifths = piece, part, number, fifths
        dynamics = dynamics_of(part, piece.bars)
        self.accents = dynamics.accents if number == 1 else frozenset()
        self.drums = drum_places(tone.key for tone in part.tones()) if part.is_drums else {}
        self.words = list(reversed(dynamics.words if number == 1 else ()))
        self.marks = [mark for mark in reversed(piece.marks.tempos) if has_tempos and mark.is_printed and (
            mark.place > 0 or mark.tempo is None)]
        self.slurs = slurs_of(part.voices[number - 1], piece.bars)
        self.altered: dict[tuple[str, int], int] = {}
        self.last: dict[str, int] = {}

    def bar(self, bar: Bar, values: Sequence[Value]) -> str:
        """One bar, without its bar lines."""
        self.altered, self.last = {}, {}
        out: list[str] = []
        if not values:
            out += [*self.signs(bar.end - 1), *self.loudness(bar.end - 1)]
            out.append(("z" if self.number == 1 else "x") + _length(bar.end - bar.begin))
        for value in values:
            out += self.signs(value.begin)
            if value.tuplet and value.begin == value.tuplet.begin:
                tuplet = value.tuplet
                count = sum(other.tuplet == tuplet for other in values)
                out.append(f"({tuplet.actual}:{tuplet.normal}:{count}")
            out.append(self.value(value))
            is_inside = value.tuplet and value.end != value.tuplet.end
            if _beat(value.begin, bar) != _beat(value.end, bar) and not is_inside:
                out.append(" ")
        out += self.signs(bar.end - 1)
        return "".join(out).rstrip()

    def signs(self, place: int) -> Iterator[str]:
        """The tempo marks up to a place that are not written yet."""
        while self.marks and self.marks[-1].place <= place:
            yield _mark(self.marks.pop())

    def loudness(self, place: int) -> Iterator[str]:
        """The dynamics and hairpins up to a place that are not written yet."""
        while self.words and self.words[-1].place <= place:
            word = self.words.pop().word
            yield f"!{_WORDS.get(word, word)}!"

    def value(self, value: Value) -> str:
        """One sign."""
        note = value.note
        printed = _length(value.plain * (2 ** (value.dots + 1) - 1) // 2 ** value.dots)
        if note is None:
            return f"{''.join(self.loudness(value.begin))}z{printed}"
        tones = [self.tone(tone) for tone in note.tones]
        said = tones[0] if len(tones) == 1 else f"[{''.join(tones)}]"
        behind = ")" if value.last and note.begin in self.slurs.ends else "" if value.last else "-"
        return f"{''.join(self.before(value, note))}{said}{printed}{behind}"

    def before(self, value: Value, note: Note) -> Iterator[str]:
        """What is written before a note."""
        yield from self.loudness(value.begin)
        if value.first:
            if value.begin in self.accents:
                yield "!accent!"
            if value.last and is_short(note):
                yield "."
        yield _HOLDS[self.piece.marks.hold(value.begin, value.end, value.last, note.end == self.piece.sheet.end)]
        if value.first and note.begin in self.slurs.begins:
            yield "("

    def tone(self, tone: Tone) -> str:
        """A pitch; its accidental is printed where one of another octave might be taken for its own, too."""
        if self.drums:
            return drum(self.drums[tone.key], tone.key)
        pitch = spelled(tone, self.fifths)
        by_key = signature(self.fifths)[pitch.letter]
        here = pitch.letter, pitch.octave
        sign = ""
        if pitch.octave < 0 or {self.altered.get(here, by_key), self.last.get(pitch.letter, by_key)} != {pitch.alter}:
            sign = _SIGNS[pitch.alter]
            self.altered[here] = self.last[pitch.letter] = pitch.alter
        return sign + letter(pitch.letter, pitch.octave)


def _beat(place: int, bar: Bar) -> int:
    return (place - bar.begin) // (bar.beat if bar.is_compound else WHOLE // 4)


def abc_of(piece: Piece) -> str:
    """The whole file."""
    piece = folded(piece, 2)
    fifths = fifths_of(piece.sheet)
    numbers: list[range] = []
    for part in piece.sheet.parts:
        last = numbers[-1].stop if numbers else 1
        numbers.append(range(last, last + len(part.voices)))
    lines = list(_head(piece, fifths, numbers))
    for part, row in zip(piece.sheet.parts, numbers):
        for nth, (number, voice) in enumerate(zip(row, part.voices), 1):
            lines += [f"V:{number}", *(["K:none"] if part.is_drums else []), f"%%MIDI channel {part.channel + 1}",
                      f"%%MIDI program {part.program or 0}"]
            text = _Voice(piece, part, nth, fifths, number == 1)
            lines += [f"%%MIDI drummap {drum(place, key)} {key}" for key, place in text.drums.items()]
            lines += _lines(text, piece.bars, voice)
    return "\n".join(lines) + "\n"


def _head(piece: Piece, fifths: int, numbers: Sequence[range]) -> Iterator[str]:
    first = next((bar for bar in piece.bars if bar.number == 1), piece.bars[0])
    tempo = next(mark.tempo for mark in piece.marks.tempos if mark.place == 0 and mark.tempo)
    yield from ("%abc-2.1", f"% {MADE_BY.decode()}", "%%continueall 1", "%%indent 50", "X:1")
    yield f"T:{_plain(piece.titles.title)}"
    if piece.titles.composer:
        yield f"C:{_plain(piece.titles.composer)}"
    yield from ("%%propagate-accidentals octave", f"M:{first.beats}/{first.unit}", "L:1/8",
                f"Q:1/4={max(1, round(tempo))}", "%%MIDI nobeataccents", "%%MIDI fermatafixed", "%%MIDI chordattack 0")
    score = (f"({' '.join(map(str, row))})" if len(row) > 1 else str(row[0]) for row in numbers)
    yield f"%%score {' '.join(score)}"
    for part, row, name in zip(piece.sheet.parts, numbers, piece.names):
        for number in row:
            yield f"V:{number} clef={_CLEFS[clef_of(part)]}" + (f' name="{_plain(name)}"' if number == row[0] else "")
    yield f"K:{_KEYS[fifths + 6]}"


def _lines(text: _Voice, bars: Sequence[Bar], voice: Voice) -> Iterator[str]:
    row: list[str] = []
    before = next((bar for bar in bars if bar.number == 1), bars[0])
    for bar, behind, values in zip(bars, [*bars[1:], None], values_of(voice, bars)):
        change = f"[M:{bar.beats}/{bar.unit}]" if (before.beats, before.unit) != (bar.beats, bar.unit) else ""
        opened = "|:" if bar.forward and bar is bars[0] else ""
        row.append(opened + _ending(bar) + change + text.bar(bar, values) + _line(bar, behind))
        before = bar
        if len(row) == _BARS_OF_LINE or behind is None:
            yield " ".join(row)
            row = []


def _ending(bar: Bar) -> str:
    return f"[{','.join(map(str, bar.opens))} " if bar.opens else ""


def _line(bar: Bar, behind: Optional[Bar]) -> str:
    """The bar line behind a bar: a double one ends the bracket of the last ending."""
    if bar.backward:
        return " ::" if behind is not None and behind.forward else " :|"
    if behind is None:
        return " |]"
    return " |:" if behind.forward else " ||" if bar.closes else " |"
