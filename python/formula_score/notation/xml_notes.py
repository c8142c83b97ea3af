"""The notes of a staff as MusicXML."""

from __future__ import annotations

from functools import lru_cache
from typing import Iterator, Optional, Sequence

from .piece import Piece
from .places import WHOLE
from .rhythm import Value
from .sheet import Note, Part, Tone
from .spelling import CROSSES, DRUMS, signature, spelled
from .touch import Slurs, is_short

_TYPES = {WHOLE * 2 >> power: name for power, name in enumerate(
    "breve whole half quarter eighth 16th 32nd 64th 128th 256th 512th 1024th".split())}
_SIGNS = {-1: "flat", 0: "natural", 1: "sharp"}


@lru_cache(maxsize=None)
def _pitch(tone: Tone, fifths: int) -> str:
    pitch = spelled(tone, fifths)
    alter = f"<alter>{pitch.alter}</alter>" if pitch.alter else ""
    return f"<pitch><step>{pitch.letter.upper()}</step>{alter}<octave>{pitch.octave}</octave></pitch>"


class Notes:
    """Writes the notes of a staff."""

    def __init__(self, piece: Piece, number: int, part: Part, fifths: int, unit: int, accents: frozenset[int],
                 slurs: Sequence[Slurs]):
        self.marks, self.end = piece.marks, piece.sheet.end
        self.number, self.is_drums, self.fifths, self.unit = number, part.is_drums, fifths, unit
        self.accents, self.slurs = accents, slurs
        #: of a voice, a place and a tone the accidental that is printed
        self.accidentals: dict[tuple[int, int, Tone], str] = {}

    def begin_bar(self, voices: Sequence[Sequence[Value]]) -> None:
        """Begins a bar: what one voice alters in it is altered for the others, from there on."""
        self.accidentals = {}
        if self.is_drums:
            return
        altered: dict[tuple[str, int], int] = {}
        by_key = signature(self.fifths)
        firsts = [(value.begin, number, value.note) for number, values in enumerate(voices, 1) for value in values
                  if value.note and value.first]
        for begin, number, note in sorted(firsts, key=lambda row: row[:2]) if len(voices) > 1 else firsts:
            for tone in note.tones:
                pitch = spelled(tone, self.fifths)
                here = pitch.letter, pitch.octave
                if altered.get(here, by_key[pitch.letter]) != pitch.alter:
                    altered[here] = pitch.alter
                    self.accidentals[number, begin, tone] = f"<accidental>{_SIGNS[pitch.alter]}</accidental>"

    def value(self, voice: int, value: Value) -> Iterator[str]:
        """One sign: a rest, a note or a chord."""
        note, tuplet = value.note, value.tuplet
        duration = f"<duration>{value.length // self.unit}</duration>"
        typed = f"<voice>{voice}</voice><type>{_TYPES[value.plain]}</type>{'<dot/>' * value.dots}"
        time = (f"<time-modification><actual-notes>{tuplet.actual}</actual-notes><normal-notes>{tuplet.normal}"
                "</normal-notes></time-modification>") if tuplet else ""
        brackets = "".join(self._brackets(value))
        if note is None:
            notations = f"<notations>{brackets}</notations>" if brackets else ""
            yield f"<note><rest/>{duration}{typed}{time}{notations}</note>"
            return
        kinds = [kind for kind, is_one in (("stop", not value.first), ("start", not value.last)) if is_one]
        ties, tied = ("".join(f'<{word} type="{kind}"/>' for kind in kinds) for word in ("tie", "tied"))
        signs = brackets + "".join(self._signs(voice, value, note))
        opened = f'<note dynamics="{note.velocity / 0.9:.4f}">'
        for tone in note.tones:
            pitch, after, head = self._tone(tone)
            accidental = self.accidentals.get((voice, value.begin, tone), "")
            notations = f"<notations>{tied}{signs}</notations>" if tied or signs else ""
            yield f"{opened}{pitch}{duration}{ties}{after}{typed}{accidental}{time}{head}{notations}</note>"
            signs, opened = "", f'<note dynamics="{note.velocity / 0.9:.4f}"><chord/>'

    def _tone(self, tone: Tone) -> tuple[str, str, str]:
        """A pitch, the instrument of a drum, and its head."""
        if not self.is_drums:
            return _pitch(tone, self.fifths), "", ""
        place = DRUMS.get(tone.key, "b4").upper()
        shown = f"<display-step>{place[0]}</display-step><display-octave>{place[1:]}</display-octave>"
        return (f"<unpitched>{shown}</unpitched>", f'<instrument id="P{self.number}-I{tone.key}"/>',
                "<notehead>x</notehead>" if tone.key in CROSSES else "")

    def _brackets(self, value: Value) -> Iterator[str]:
        if value.tuplet and value.begin == value.tuplet.begin:
            yield '<tuplet type="start" bracket="yes"/>'
        if value.tuplet and value.end == value.tuplet.end:
            yield '<tuplet type="stop"/>'

    def _signs(self, voice: int, value: Value, note: Note) -> Iterator[str]:
        slurs = self.slurs[voice - 1]
        if value.first and note.begin in slurs.begins:
            yield f'<slur type="start" number="{voice}"/>'
        if value.last and note.begin in slurs.ends:
            yield f'<slur type="stop" number="{voice}"/>'
        articulations = ["<accent/>"] if value.first and value.begin in self.accents else []
        if value.first and value.last and is_short(note):
            articulations.append("<staccato/>")
        hold = self.marks.hold(value.begin, value.end, value.last, note.end == self.end)
        if hold in ("breath-mark", "caesura"):
            articulations.append(f"<{hold}/>")
        if articulations:
            yield f"<articulations>{''.join(articulations)}</articulations>"
        if hold == "fermata":
            yield '<fermata type="upright"/>'
