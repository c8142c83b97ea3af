"""The exact way: each event of a file at its own tick.

The order of the voices is that of their branches, and so that of events at one tick. It keeps what is heard of the
file's order: a note-off before the next note-on of its key, a message before the notes that it was sent for.
"""

from __future__ import annotations

from collections import Counter, defaultdict
from math import gcd
from typing import Optional

from formula_score.making.expected import MOST_WAITING
from formula_score.making.lengths import MAX_DIVISION, MIN_DIVISION
from formula_score.reading.playing import Event, Failed, Listing
from .messages import is_pedal
from .moved import MovedPart, Word
from .parts import Piece
from .spelling import fits
from .voicing import Chord, Voice, chords_of, may_stand

#: What a voice of its own costs a chord, beside a note that overlaps by so much, or is so far away.
_NEW_VOICE = 7.0


def scaled(listing: Listing) -> tuple[Listing, int, str]:
    """The listing with a division that a score may have; where there is none, with all lengths so many times as long. And
    what became of it."""
    old = listing.division
    if MIN_DIVISION <= old <= MAX_DIVISION:
        return listing, 1, ""
    said = f"{old} ticks a quarter note: written with"
    new = old * -(-MIN_DIVISION // old)
    if old > MAX_DIVISION:
        step = gcd(*(event.tick for event in listing.events))
        parts = [by for by in range(2, old // MIN_DIVISION + 1) if old % by == 0 and old // by <= MAX_DIVISION]
        new = next((old // by for by in parts if step % by == 0), 0)
        if not new and parts:
            said += f" {old // parts[0]}, each length {parts[0]} times as long; no tick moves"
            return listing._replace(division=old // parts[0]), parts[0], said
    if not new:
        raise Failed(1, f"a score has {MIN_DIVISION} to {MAX_DIVISION} ticks a quarter note, and with none of these each event "
                     f"of a file with {old} is at its tick: without --exact they move, and a table says by how much")
    events = [Event(event.track, event.tick * new // old, event.message) for event in listing.events]
    return Listing(listing.format, listing.tracks, new, events), 1, f"{said} {new}; no event moves"


def voices_of(part: MovedPart) -> list[Voice]:
    """The voices of a part, with its messages."""
    voices: list[Voice] = []
    #: where the notes of each key end: what the order of voices has to keep
    ends: dict[tuple[int, int], list[tuple[int, Voice]]] = defaultdict(list)
    chords = chords_of(part, False, 0, [word.place for word in part.words])
    for chord in sorted(chords, key=lambda chord: (chord.begin, -chord.keys[-1])):
        low, high = 0, len(voices)
        for tone in chord.tones:
            for off, voice in ends.get((tone.begin, tone.key), ()):
                place = voices.index(voice)
                low, high = (max(low, place), high) if off < tone.on else (low, min(high, place - 1))
        costs = ((_cost(voices[at], chord), at) for at in range(low, min(high + 1, len(voices))))
        best = min(((cost, at) for cost, at in costs if cost is not None and cost < _NEW_VOICE), default=None)
        own = voices[best[1]] if best else Voice()
        if best is None:
            voices.insert(max(0, min(high + 1, len(voices))), own)
        own.chords.append(chord)
        for tone in chord.tones:
            ends[tone.end, tone.key].append((tone.off, own))
    _Messages(part, voices).place()
    return [voice for voice in voices if voice.chords or voice.words]


def _cost(voice: Voice, chord: Chord) -> Optional[float]:
    """How badly the chord goes on after the voice's last one; None where it cannot."""
    last = voice.chords[-1]
    length, sounds = chord.begin - last.begin, last.ends[1] - last.begin
    if length <= 0 or not fits(length, sounds) or voice.ringing(chord.begin) + len(chord.keys) > MOST_WAITING:
        return None
    distance = abs(chord.keys[-1] - last.keys[-1]) / 6
    return distance + (1 + 3 * (sounds - length) / length if sounds > length else 0.0)


class _Messages:
    """Where the messages of a part go: into a voice where a statement may stand at their tick, else beside them."""

    def __init__(self, part: MovedPart, voices: list[Voice]):
        self.part, self.voices = part, voices
        self.ons: dict[int, list[tuple[int, int]]] = defaultdict(list)
        self.offs: dict[int, list[tuple[int, int]]] = defaultdict(list)
        for place, voice in enumerate(voices):
            for tone in (tone for chord in voice.chords for tone in chord.tones):
                self.ons[tone.begin].append((tone.on, place))
                self.offs[tone.end].append((tone.off, place))
        self.begins = [[chord.begin for chord in voice.chords] for voice in voices]
        #: branches of messages alone, by the place of the voice before which they stand
        self.beside: dict[int, Voice] = {}

    def place(self) -> None:
        """Gives each message its place."""
        groups: dict[tuple[int, int], list[Word]] = defaultdict(list)
        for word in self.part.words:
            before = sum(on < word.place for on, _ in self.ons[word.tick])
            groups[word.tick, before].append(word)
        for (tick, _), words in groups.items():
            self.place_group(tick, words)
        for place in sorted(self.beside, reverse=True):
            self.voices.insert(place, self.beside[place])

    def place_group(self, tick: int, words: list[Word]) -> None:
        """Gives messages a place that keeps their order to the note-ons of the tick, and where it may be to the
        note-offs: for a pedal always, which may hold a note that ends with it."""
        first, last = words[0].place, words[-1].place
        low = max([place + 1 for on, place in self.ons[tick] if on < first], default=0)
        high = min([place for on, place in self.ons[tick] if on > last], default=len(self.voices))
        after = max([place for off, place in self.offs[tick] if off < first], default=0)
        before = min([place for off, place in self.offs[tick] if off > last], default=len(self.voices) + 1)
        loose = [] if any(is_pedal(word.status, word.data) for word in words) else [(low, high)]
        for least, most in ((max(low, after), min(high, before - 1)), *loose):
            for place in range(least, min(most, len(self.voices) - 1) + 1):
                if may_stand(tick, self.voices[place], self.begins[place], 0):
                    self.voices[place].words += words
                    return
        behind = max([place + 1 for off, place in self.offs[tick] if off < first], default=0)
        if max(low, behind) <= min(high, before):
            low, high = max(low, behind), min(high, before)
        place = low if low <= 0 else max(0, min(high, len(self.voices)))
        self.beside.setdefault(place, Voice()).words += words


# ---- the order of events at one tick

def out_of_order(file: Listing, piece: Piece, played: Listing) -> tuple[int, int]:
    """Of events at one tick and channel, how many note-offs stand on another side of a message than in the file, and how
    many others in another order."""
    orders = _orders(file, piece.idle) - _orders(played, set())
    early = sum(count for (_, kind, _, _), count in orders.items() if kind == 8)
    return early, sum(orders.values()) - early


def _orders(listing: Listing, without: set[tuple[int, int, bytes]]) -> Counter[tuple[object, int, object, object]]:
    """Of each tick and channel what is heard of the order: of each key's note-ons and note-offs, of messages, and how
    many messages stand before each note-on and note-off."""
    found: Counter[tuple[object, int, object, object]] = Counter()
    messages: Counter[tuple[int, int]] = Counter()
    keys: dict[tuple[tuple[int, int], int], tuple[int, ...]] = defaultdict(tuple)
    for event in sorted(listing.events, key=lambda event: (event.tick, event.track)):
        status, data, place = event.message[0], event.message[1:], (event.tick, event.message[0] & 15)
        if status >> 4 == 8 or status >> 4 == 9 and data[1] == 0:
            status, data = 0x80 | status & 15, data[:1]
        if (event.tick, status, data) in without:
            continue
        if status >> 4 in (8, 9):
            found[place, status >> 4, data, messages[place]] += 1
            keys[place, data[0]] += (status >> 4,)
        elif status >> 4 in (0xB, 0xC, 0xE):
            messages[place] += 1
            found[place, 0, (status, data), messages[place]] += 1
    found.update((place, 1, key, kinds) for (place, key), kinds in keys.items() if len(kinds) > 1)
    return found
