"""The voices of a part: chords one after another, as few voices as sound at once; and branches for messages that stand
where no statement of a voice begins."""

from __future__ import annotations

from bisect import bisect_right
from collections import defaultdict
from dataclasses import dataclass, field
from itertools import groupby
from typing import NamedTuple, Optional, Sequence

from formula_score.making.expected import MOST_WAITING
from formula_score.making.midi import DRUM_CHANNEL
from .messages import is_pedal
from .moved import FAR, MovedPart, Tone, Word

#: Up to this many voices a note rather begins a new one than that the voice's last note sounds on over it.
_EASY_VOICES = 3
#: How far a note sounds on into the next one of its voice, as a part of the time between them: played legato.
_LEGATO = 0.3
_MOST_MOVE = 20


def tolerance(length: int) -> int:
    """How far the end of a note of this length may move: a percent of it, and no more than a hundredth of two wholes."""
    return max(2, min(_MOST_MOVE, -(-length // 100)))


class Chord(NamedTuple):
    """Notes that begin together, are equally loud, and end so that one percent of a length ends them all."""

    begin: int
    ends: tuple[int, int]   # the first and the last end of its notes
    least: int
    most: int
    velocity: int
    keys: tuple[int, ...]
    tones: tuple[Tone, ...]


@dataclass(eq=False)
class Voice:
    """Chords one after another, and messages at places where a statement may stand."""

    chords: list[Chord] = field(default_factory=list)
    words: list[Word] = field(default_factory=list)

    def ringing(self, tick: int) -> int:
        """How many notes of its last chords sound at the tick."""
        return sum(len(chord.keys) for chord in self.chords[-MOST_WAITING - 1:] if chord.ends[1] > tick)

    @property
    def pitch(self) -> float:
        """How high it lies in the mean."""
        return sum(chord.keys[-1] for chord in self.chords) / max(1, len(self.chords))


def chords_of(part: MovedPart, is_free: bool, loose: int, places: Sequence[int] = ()) -> list[Chord]:
    """The chords in the order in which they begin; at none of these places is there an event between notes of one."""
    groups: dict[tuple[int, int, int], list[Tone]] = defaultdict(list)
    for tone in part.tones:
        groups[tone.begin, tone.velocity, bisect_right(places, tone.on)].append(tone)
    found: list[Chord] = []
    for tones in groups.values():
        tones.sort(key=lambda tone: (tone.end, tone.key))
        several: list[Tone] = []
        for tone in tones:
            if several and not _goes_with(tone, several, is_free, loose):
                found.append(_chord(several))
                several = []
            several.append(tone)
        found.append(_chord(several))
    found.sort(key=lambda chord: (chord.begin, -chord.keys[-1]))
    return found


def _goes_with(tone: Tone, others: Sequence[Tone], is_free: bool, loose: int) -> bool:
    """Whether a note may be in a chord with others that end no later."""
    if len(others) == MOST_WAITING or any(tone.key == other.key for other in others):
        return False
    return is_free or (tone.end - others[0].end <= loose * tolerance(tone.end - tone.begin)
                       and max(tone.least, *(other.least for other in others)) <= min(
                           tone.most, *(other.most for other in others)))


def _chord(tones: list[Tone]) -> Chord:
    tones = sorted(tones, key=lambda tone: tone.key)
    ends = [tone.end for tone in tones]
    return Chord(tones[0].begin, (min(ends), max(ends)), max(tone.least for tone in tones), min(tone.most for tone in tones),
                 tones[0].velocity, tuple(tone.key for tone in tones), tuple(tones))


def _voiced(chords: Sequence[Chord], is_free: bool) -> list[Voice]:
    """Gives each chord a voice: those that begin together each to the one that it goes on best."""
    voices: list[Voice] = []
    for _, several in groupby(chords, key=lambda chord: chord.begin):
        together = list(several)
        costs = ((_cost(voice, chord, is_free, len(voices)), number, place) for number, chord in enumerate(together)
                 for place, voice in enumerate(voices))
        given: dict[int, int] = {}
        for _, number, place in sorted((cost, number, place) for cost, number, place in costs if cost is not None):
            if number not in given and place not in given.values():
                given[number] = place
        for number, chord in enumerate(together):
            if number in given:
                voices[given[number]].chords.append(chord)
            else:
                voices.append(Voice([chord]))
    return voices


def _cost(voice: Voice, chord: Chord, is_free: bool, voices: int) -> Optional[float]:
    """How badly a chord goes on after the last one of a voice, of so many; None where it cannot."""
    last = voice.chords[-1]
    length = chord.begin - last.begin
    if length <= 0:
        return None
    far = abs(chord.keys[-1] - last.keys[-1]) / 6
    if is_free or last.ends[1] - tolerance(length) <= chord.begin and last.least <= chord.begin:
        is_struck = bool(set(chord.keys) & set(last.keys)) and last.ends[1] >= chord.begin - 2
        return far - (4 if is_struck else 0)
    over = (last.ends[1] - last.begin - length) / length
    if over > 3 or set(chord.keys) & set(last.keys) or voice.ringing(chord.begin) + len(chord.keys) > MOST_WAITING:
        return None
    if over <= _LEGATO:
        return far + 1 + over
    return None if voices < _EASY_VOICES else 100 + far + over


def voices_of(part: MovedPart, loose: int) -> list[Voice]:
    """The voices, the highest first, with the messages; branches of messages before and behind them where it must be. What
    such a branch says of a controller it says throughout."""
    is_free = part.part.channel == DRUM_CHANNEL
    voices = _voiced(chords_of(part, is_free, loose), is_free)
    if not is_free:
        voices.sort(key=lambda voice: -voice.pitch)
    _keep_order(voices)
    before, behind = Voice(), Voice()
    last = len(voices) - 1
    first = voices[0].chords[0].begin if voices else FAR
    for is_behind, place, beside in ((False, 0, before), (True, last, behind)):
        words = [word for word in part.words if is_pedal(word.status, word.data) == is_behind]
        begins = [chord.begin for chord in voices[place].chords] if voices else []
        apart = [word for word in words if not voices or not may_stand(word.tick, voices[place], begins)]
        kinds = {(word.status, word.data[0]) for word in apart if word.status >> 4 == 0xB} | {
            (word.status, byte) for word in apart if word.status >> 4 == 0xE for byte in range(128)}
        for word in words:
            is_home = not apart or voices and (word.status, word.data[0]) not in kinds and word.tick <= min(first, begins[0])
            (voices[place] if is_home else beside).words.append(word)
    return [voice for voice in (before, *voices, behind) if voice.chords or voice.words]


def may_stand(tick: int, voice: Voice, begins: Sequence[int], near: int = 2) -> bool:
    """Whether a message may stand in a voice: where a chord begins, or after the last one has ended, or nearly so."""
    at = bisect_right(begins, tick) - 1
    return at < 0 or begins[at] == tick or voice.chords[at].ends[1] - near <= tick


def _keep_order(voices: list[Voice]) -> None:
    """Ends a note a tick early where its key is struck at its end by an earlier branch, which would come first."""
    struck: dict[tuple[int, int], int] = {}
    for place, voice in enumerate(voices):
        for chord in voice.chords:
            for key in chord.keys:
                struck.setdefault((chord.begin, key), place)
    for place, voice in enumerate(voices):
        for at, chord in enumerate(voice.chords):
            if chord.most < FAR and any(struck.get((chord.most, key), place) < place for key in chord.keys):
                early = max(chord.begin, chord.most - 1)
                voice.chords[at] = chord._replace(most=early, least=min(chord.least, early))
