"""What a score plays against the file that it was made from: whether each event is within its bound, what moved and by
how much, and whether each note has the program and the held length that it has in the file."""

from __future__ import annotations

from collections import Counter, defaultdict
from itertools import zip_longest
from typing import NamedTuple, Optional, Sequence

from formula_score.making.midi import DRUM_CHANNEL
from formula_score.reading.notes import is_off
from formula_score.reading.playing import Listing
from .grid import Grid
from .messages import is_smooth
from .moved import Choices, Moved, MovedPart, Tone
from .voicing import tolerance

#: Ends of notes of one key that overlap may change places; so near ones are the same for a judge.
_NEAR = 100
#: Half a 32nd, to which messages of small steps go; and half a tick of the score, to which all is rounded.
_SMOOTH, _HALF = 30.5, 0.5
#: How far apart the ends of two notes may be that are heard alike, in ticks of a score.
_ALIKE = 30
_PEDAL, _DOWN = 64, 64
_NEVER = float(1 << 40)
_LETTERS = {0x9: "note-on", 0xB: "control", 0xC: "program", 0xE: "bend"}
#: Of each note of the score its part, and the length that it is written with.
Lengths = Sequence[tuple[MovedPart, Tone, int]]


class Judged(NamedTuple):
    """What came of it: how many events; of each kind how many there are, how many moved, and by how much at most and in
    the mean of those; how many faults there are, and the first of these."""

    events: int
    moves: tuple[tuple[str, int, int, float, float], ...]
    faults: int
    first: str


class _Judge:
    """Compares; `played` is of the score without its tempo."""

    def __init__(self, moved: Moved, played: Listing, choices: Choices):
        self.moved, self.scale, self.choices = moved, moved.scale, choices
        self.faults: list[tuple[int, str]] = []
        self.moves: dict[str, list[float]] = defaultdict(list)
        #: where each message is played, and where note-offs are, by channels and keys
        self.played: dict[bytes, list[int]] = defaultdict(list)
        self.offs: dict[tuple[int, int], list[int]] = defaultdict(list)
        for event in sorted(played.events, key=lambda event: event.tick):
            if is_off(event):
                self.offs[event.message[0] & 15, event.message[1]].append(event.tick)
            elif event.message[0] < 0xF0:
                self.played[event.message].append(event.tick)

    def bound_of(self, part: MovedPart) -> float:
        """How far the onsets of a part may move."""
        if part.step is None:
            return 0 if self.choices.is_exact else _HALF
        return _HALF + (Grid(part.step.parts).half if self.moved.is_asked else part.step.near)

    def events(self, lengths: Lengths) -> None:
        """All events: of each message where it was written, where it is in the file, and how far apart these may be."""
        wanted: dict[bytes, list[tuple[int, int, float]]] = defaultdict(list)
        offs: dict[tuple[int, int], list[tuple[int, float]]] = defaultdict(list)
        is_exact, bounds = self.choices.is_exact, {id(part): self.bound_of(part) for part in self.moved.parts}
        for part, tone, length in lengths:
            channel, bound = part.part.channel, bounds[id(part)]
            wanted[bytes((0x90 | channel, tone.key, tone.velocity))].append((tone.begin, tone.first, bound))
            free = 0 if is_exact else float("inf") if channel == DRUM_CHANNEL else (
                tolerance(length) * self.choices.ends + 1)
            offs[channel, tone.key].append((tone.last, bound + free))
        for word in (word for part in self.moved.parts for word in part.words):
            bound = max(bounds.values()) + _SMOOTH * (is_smooth(word.status, word.data) and not is_exact)
            wanted[bytes((word.status, *word.data))].append((word.tick, word.first, bound))
        for message in {*wanted, *self.played}:
            kind = "onsets" if message[0] >> 4 == 9 else (
                "controllers" if is_smooth(message[0], message[1:]) else "messages")
            what = f"channel {message[0] & 15}, {_LETTERS[message[0] >> 4]} {' '.join(map(str, message[1:]))}"
            self.compare(what, wanted[message], self.played[message], kind)
        for pair in {*offs, *self.offs}:
            self.compare_ends(*pair, sorted(offs[pair]), self.offs[pair])

    def compare_ends(self, channel: int, key: int, wanted: Sequence[tuple[int, float]], got: Sequence[int]) -> None:
        """The ends of the notes of a key."""
        what, kind = f"channel {channel}, note-off {key}", "ends of drums" if channel == DRUM_CHANNEL else "ends"
        if len(wanted) != len(got):
            self.faults.append((0, f"{what}: {len(got)} are played for {len(wanted)}"))
        for (last, allowed), tick in zip(wanted, got):
            off = abs(tick - last * self.scale)
            self.moves[kind].append(off)
            if off > allowed and off > max(other for near, other in wanted if abs(near - last) * self.scale <= _NEAR):
                self.faults.append((tick, f"{what}: {off:.1f} ticks away"))

    def compare(self, what: str, wanted: Sequence[tuple[int, int, float]], got: Sequence[int], kind: str) -> None:
        """Events of one kind: each has to be where it was written, and within its bound."""
        written = Counter(tick for tick, _, _ in wanted)
        for said, more in (("not played", written - Counter(got)), ("not in the file", Counter(got) - written)):
            self.faults += [(tick, f"{what}: {said}") for tick in more.elements()]
        for tick, first, bound in wanted:
            off = abs(tick - first * self.scale)
            self.moves[kind].append(off)
            if off > bound:
                self.faults.append((tick, f"{what}: {off:.1f} ticks away"))

    def heard(self, file: Listing, played: Listing) -> None:
        """The program of each note, and how long a pedal holds it."""
        here, there = _Heard(file, self.scale), _Heard(played, 1.0)
        for (channel, key), programs in here.programs.items():
            self.faults += [(int(tick), f"channel {channel}, key {key} has the program {got}, in the file {program}")
                            for (tick, program), (_, got) in zip(programs, there.programs[channel, key]) if program != got]
        for (channel, key), ends in here.ends.items():
            if channel != DRUM_CHANNEL and (channel, key) not in self.moved.piece.endless:  # a drum has no length
                self.faults += [(int(min(one, other)), f"channel {channel}, key {key} is held to another tick than in the file")
                                for one, other in zip_longest(sorted(ends), sorted(there.ends[channel, key]), fillvalue=_NEVER)
                                if abs(one - other) > _ALIKE]


class _Heard:
    """Of each channel and key the program of each note-on, and where each note is let go: by its note-off, by the pedal,
    or where its key is struck again."""

    def __init__(self, listing: Listing, scale: float):
        self.programs: dict[tuple[int, int], list[tuple[float, int]]] = defaultdict(list)
        self.ends: dict[tuple[int, int], list[float]] = defaultdict(list)
        self._program: Counter[int] = Counter()
        self._is_down: dict[int, bool] = defaultdict(bool)
        self._held: dict[int, set[int]] = defaultdict(set)     # keys that sound, and those of them that are up
        self._up: dict[int, set[int]] = defaultdict(set)
        self._over: Counter[tuple[int, int]] = Counter()       # note-offs of notes whose key was struck again
        for event in sorted(listing.events, key=lambda event: (event.tick, event.track)):
            if event.message[0] < 0xF0:
                self._hear(event.tick * scale, event.message[0] >> 4, event.message[0] & 15, *event.message[1:])

    def _hear(self, tick: float, kind: int, channel: int, key: int, value: int = 0) -> None:
        held, up = self._held[channel], self._up[channel]
        if kind == 0xC:
            self._program[channel] = key
        elif kind == 9 and value:
            self.programs[channel, key].append((tick, self._program[channel]))
            if key in held:
                self._over[channel, key] += key not in up
                self.ends[channel, key].append(tick)
            held.add(key)
            up.discard(key)
        elif kind in (8, 9) and self._over[channel, key]:
            self._over[channel, key] -= 1
        elif kind in (8, 9) and key in held:
            up.add(key)
        elif kind == 0xB and key == _PEDAL:
            self._is_down[channel] = value >= _DOWN
        if not self._is_down[channel]:
            for each in up:
                self.ends[channel, each].append(tick)
            held -= up
            up.clear()


def judged(file: Listing, moved: Moved, lengths: Lengths, played: Listing, choices: Choices) -> Judged:
    """What came of it."""
    judge = _Judge(moved, played, choices)
    judge.events(lengths)
    if not choices.is_exact:
        judge.heard(file, played)
    elif file.end != played.end:
        judge.faults.append((played.end, f"the end; in the file it is at tick {file.end}"))
    moves = []
    for kind, found in sorted(judge.moves.items()):
        count = sum(off > 0.01 for off in found)
        moves.append((kind, len(found), count, max(found), sum(found) / max(1, count)))
    first: Optional[tuple[int, str]] = min(judge.faults, default=None)
    return Judged(sum(map(len, judge.moves.values())), tuple(moves), len(judge.faults),
                  f"tick {first[0]}, {first[1]}" if first else "")
