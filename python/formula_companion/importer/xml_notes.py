"""The notes of a MusicXML file: of each part its voices, with pitches as a score writes them."""

from __future__ import annotations

from collections import Counter, defaultdict
from dataclasses import dataclass, field
from fractions import Fraction
from typing import Iterator, NamedTuple, Optional, Sequence
from xml.etree.ElementTree import Element

from formula_score.making.midi import DRUM_CHANNEL, DYNAMICS
from formula_score.making.pitch import DEGREES, Pitch
from formula_score.making.spelling import name_of, place_of
from formula_score.notation.sheet import Tone
from formula_score.reading.playing import Failed
from .xml_bars import length_of, lengths_of, number, number_of, order_of, played, signature_of

_SHORT, _USUAL, _JOINED = 50, 90, 100
_SNARE = 38
#: What is not played, by the path to it in a note or in a direction.
_LEFT = {"grace": "grace notes", "cue": "cue notes", "notations/arpeggiate": "arpeggios",
         "notations/ornaments": "ornaments", "notations/fermata": "fermatas", "notations/glissando": "glissandos",
         "notations/slide": "slides"}
_JUMPS = ("dacapo", "dalsegno", "tocoda", "fine")
_MOST_TONES = 16


class Sound(NamedTuple):
    """A note or chord: from where to where, its tones, its velocity and its percent."""

    begin: Fraction
    end: Fraction
    tones: tuple[Tone, ...]
    velocity: int
    percent: int


class Staff(NamedTuple):
    """A part: its name, channel and program, and its voices."""

    name: str
    channel: int
    program: Optional[int]
    voices: list[list[Sound]]


@dataclass
class Song:
    """A file: its staves, the lengths of its bars as they are played, its tempos, meters and key, what is not done."""

    bars: list[Fraction]
    meters: list[str]
    fifths: int
    title: str
    composer: str
    staves: list[Staff] = field(default_factory=list)
    tempos: dict[Fraction, Fraction] = field(default_factory=dict)
    left: Counter[str] = field(default_factory=Counter)

    @property
    def names(self) -> dict[str, None]:
        """The names of all pitches, each once."""
        return dict.fromkeys(tone.name for staff in self.staves for voice in staff.voices for sound in voice
                             for tone in sound.tones)


class _Part:
    """Reads a part."""

    def __init__(self, head: Element, left: Counter[str], tempos: dict[Fraction, Fraction]):
        self.left, self.tempos = left, tempos
        self.voices: dict[str, list[Sound]] = defaultdict(list)
        #: of a voice, a pitch and a place the note that ends there and goes on
        self.tied: dict[tuple[str, Tone, Fraction], int] = {}
        self.drums = {one.get("id", ""): int(number_of(one, "midi-unpitched")) - 1
                      for one in head.findall("midi-instrument") if one.find("midi-unpitched") is not None}
        self.velocity, self.moves, self.slurs = 80, (0, 0), Counter[str]()
        self.divisions = Fraction(1)

    def measure(self, at: Fraction, measure: Element, divisions: Fraction) -> None:
        """Adds what a measure has."""
        self.divisions = divisions
        now = last = at
        for item in measure:
            length = length_of(item, self.divisions)
            if item.tag == "attributes":
                self._attributes(item)
            elif item.tag in ("backup", "forward"):
                now += length if item.tag == "forward" else -length
            elif item.tag in ("direction", "sound"):
                self._direction(item, now)
            elif item.tag == "note" and not self._is_left(item):
                if item.find("chord") is None:
                    last, now = now, now + length
                self._note(item, last, length)

    def _attributes(self, item: Element) -> None:
        self.divisions = number_of(item, "divisions", self.divisions)
        if item.find("transpose") is not None:
            chromatic, diatonic, octaves = (int(number_of(item, f"transpose/{word}", Fraction(0)))
                                            for word in ("chromatic", "diatonic", "octave-change"))
            self.moves = chromatic + 12 * octaves, diatonic + 7 * octaves

    def _direction(self, item: Element, now: Fraction) -> None:
        sound = item if item.tag == "sound" else item.find("sound")
        if sound is not None:
            tempo = sound.get("tempo")
            if tempo:
                place = now + number_of(item, "offset", Fraction(0)) / self.divisions / 4
                self.tempos[place] = number(tempo, "the tempo of <sound>")
            self.left["jumps, as D.C. and D.S."] += any(sound.get(word) for word in _JUMPS)
        for mark in item.iterfind("direction-type/dynamics/*"):
            self.velocity = DYNAMICS.get(mark.tag, self.velocity)

    def _is_left(self, item: Element) -> bool:
        for path, what in _LEFT.items():
            self.left[what] += item.find(path) is not None
        return item.find("grace") is not None or item.find("cue") is not None

    def _note(self, item: Element, begin: Fraction, length: Fraction) -> None:
        slurs = [slur.get("type") for slur in item.findall("notations/slur")]
        voice = f"{item.findtext('staff', '1')}.{item.findtext('voice', '1')}"
        self.slurs[voice] += slurs.count("start")
        is_joined = self.slurs[voice] > 0
        self.slurs[voice] = max(0, self.slurs[voice] - slurs.count("stop"))
        tone = self._tone(item)
        if tone is None or length <= 0:
            return
        ends = {tie.get("type") for tie in item.findall("tie")}
        end, own = begin + length, self.voices[voice]
        at = self.tied.pop((voice, tone, begin), None) if "stop" in ends else None
        if at is not None:
            own[at] = own[at]._replace(end=end)
        else:
            at = len(own)
            is_short = item.find("notations/articulations/staccato") is not None
            percent = _SHORT if is_short else _JOINED if is_joined else _USUAL
            own.append(Sound(begin, end, (tone,), self._loud(item), percent))
        if "start" in ends:
            self.tied[voice, tone, end] = at

    def _loud(self, item: Element) -> int:
        dynamics = item.get("dynamics")
        percent = number(dynamics, "the dynamics of <note>") if dynamics else Fraction(10 * self.velocity, 9)
        return max(1, min(127, round(percent * 9 / 10)))

    def _tone(self, item: Element) -> Optional[Tone]:
        """The pitch of a note; a signature of one instrument moves it on the line of fifths."""
        if item.find("unpitched") is not None:
            instrument = item.find("instrument")
            key = self.drums.get(instrument.get("id", "") if instrument is not None else "", _SNARE)
            drum = Pitch(min(127, max(0, key)))
            return Tone(int(drum), str(drum))
        pitch = item.find("pitch")
        if pitch is None:
            return None
        step, alter = pitch.findtext("step", "").strip().lower(), int(number_of(pitch, "alter", Fraction(0)))
        if step not in DEGREES:
            raise Failed(1, f"<step> is {step!r}")
        key = 12 * int(number_of(pitch, "octave")) + 12 + DEGREES[step] + alter + self.moves[0]
        if not 0 <= key <= 127:
            self.left["notes below or above all keys"] += 1
            return None
        return Tone(key, name_of(key, place_of(step + "4") + 7 * (alter + self.moves[0]) - 12 * self.moves[1]))

    def sounds(self) -> Iterator[list[Sound]]:
        """The voices, those that overlap themselves in several; notes that begin and end together are a chord."""
        for voice in self.voices.values():
            chords: dict[tuple[Fraction, ...], Sound] = {}
            for sound in voice:
                like = chords.setdefault(sound[:2], sound)
                if sound.tones[0] not in like.tones and len(like.tones) < _MOST_TONES:
                    chords[sound[:2]] = like._replace(tones=(*like.tones, *sound.tones))
            rows: list[list[Sound]] = []
            for sound in sorted(chords.values(), key=lambda sound: sound[:2]):
                row = next((row for row in rows if row[-1].end <= sound.begin), None)
                if row is None:
                    row = []
                    rows.append(row)
                row.append(sound)
            yield from rows


def song_of(root: Element) -> Song:
    """What a file has."""
    parts = root.findall("part")
    lengths = lengths_of(parts)
    order = order_of(parts[0].findall("measure")) if parts else []
    attributes = root.findall("part/measure/attributes")
    meters = dict.fromkeys(f"{item.findtext('time/beats', '').strip()}/{item.findtext('time/beat-type', '').strip()}"
                           for item in attributes if signature_of(item))
    fifths = next((int(number_of(item, "key/fifths")) for item in attributes if item.find("key/fifths") is not None), 0)
    title, composer = (" ".join((next(filter(None, map(root.findtext, paths)), None) or "").split()) for paths in (
        ("work/work-title", "movement-title"), ("identification/creator[@type='composer']",)))
    song = Song([lengths[at] for at in order], list(meters), fifths, title, composer)
    heads = {head.get("id"): head for head in root.findall("part-list/score-part")}
    free = [channel for channel in range(16) if channel != DRUM_CHANNEL]
    for at, part in enumerate(parts):
        head = heads.get(part.get("id"), Element("score-part"))
        tempos: dict[Fraction, Fraction] = {}
        reader = _Part(head, song.left, tempos)
        for place, measure, divisions in played(part, order, lengths):
            reader.measure(place, measure, divisions)
        song.tempos = {**tempos, **song.tempos}
        song.staves.append(_staff(at, head, bool(reader.drums), list(reader.sounds()), free))
    return song


def _staff(at: int, head: Element, is_drums: bool, voices: list[list[Sound]], free: Sequence[int]) -> Staff:
    name = " ".join((head.findtext("part-name") or "").split()) or f"part {at + 1}"
    channel, program = (int(number_of(head, f"midi-instrument/midi-{word}", Fraction(0))) - 1
                        for word in ("channel", "program"))
    channel = DRUM_CHANNEL if is_drums else channel if 0 <= channel < 16 else free[at % len(free)]
    return Staff(name, channel, None if is_drums or program < 0 else min(127, program), voices)
