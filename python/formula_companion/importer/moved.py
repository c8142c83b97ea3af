"""The notes and messages of a file, moved to the grid where they lie near it."""

from __future__ import annotations

from bisect import bisect_left, bisect_right
from collections import Counter, defaultdict
from dataclasses import dataclass, field, replace
from typing import Iterator, NamedTuple, Optional, Sequence

from formula_score.making.midi import DYNAMICS, INSTRUMENTS
from .grid import QUARTER, STEPS, WHOLE, WRITTEN, Fit, Grid, Step, distance, fit, rounded
from .messages import is_smooth, with_messages_together
from .parts import Message, Note, Part, Piece

#: A part of fewer onsets than this is on the grid of the whole.
_FEW = 16
_SLOT = WHOLE // 32
FAR = 1 << 40


class Choices(NamedTuple):
    """What was asked for: whether no event moves, a grid as parts of a whole note, by how much a velocity may change and by
    how many percents of its length an end, whether the tempo, phrases, idle messages and a clock of its own are wanted, and
    controllers that are left out."""

    is_exact: bool = False
    grid: Optional[tuple[int, ...]] = None
    velocities: int = 4
    ends: int = 1
    with_tempo: bool = True
    with_phrases: bool = True
    with_idle: bool = False
    with_clock: bool = True
    without: frozenset[int] = frozenset()


class Tone(NamedTuple):
    """A note: its ticks in the file and the places of its note-on and note-off, where it begins in the score, where it
    would best end, and where it has to."""

    key: int
    velocity: int
    first: int
    last: int
    on: int
    off: int
    begin: int
    end: int
    least: int
    most: int


class Word(NamedTuple):
    """A message: its tick in the file and in the score."""

    first: int
    place: int
    tick: int
    status: int
    data: bytes


@dataclass
class MovedPart:
    """A part with its notes and messages in ticks of the score; how far its onsets move, on which grid."""

    part: Part
    step: Optional[Step]
    tones: list[Tone] = field(default_factory=list)
    words: list[Word] = field(default_factory=list)


@dataclass
class Moved:
    """A piece in ticks of the score, but for the notes and messages of its own parts; the ticks of the file a quarter note,
    and whether the grid was asked for."""

    piece: Piece
    division: int
    is_asked: bool = False
    parts: list[MovedPart] = field(default_factory=list)

    @property
    def scale(self) -> float:
        """How many ticks of the score a tick of the file is."""
        return self.piece.division / self.division


class _Moves:
    """Where the ticks of a part go."""

    def __init__(self, step: Optional[Step], division: int):
        self.near, self.grid = (step.near, Grid(step.parts)) if step else (0, None)
        self.division, self.is_far = division, self.near == WHOLE
        self.known: dict[int, int] = {}

    def __call__(self, tick: int) -> int:
        if tick not in self.known:
            near = self.grid.nearest(tick, self.division) if self.grid else 0
            is_near = self.grid and distance(near, tick, self.division) <= self.near
            self.known[tick] = near if is_near else rounded(tick, self.division)
        return self.known[tick]


def unmoved(piece: Piece) -> Moved:
    """The piece as it is."""
    return Moved(piece, piece.division, False, [MovedPart(part, None, [
        Tone(*note[:2], note.begin, note.end, note.on, note.off, note.begin, note.end, note.end, note.end)
        for note in part.notes], [Word(tick, place, tick, status, data) for tick, place, status, data in part.messages])
        for part in piece.parts])


def moved(piece: Piece, choices: Choices) -> Moved:
    """The piece on the grid that is asked for; else each part on the first grid that it was written on."""
    found = Moved(piece, piece.division, bool(choices.grid))
    pedals = with_messages_together(piece)
    steps = [Step(WHOLE, choices.grid)] if choices.grid else list(STEPS)
    fits = [list(_fits(sorted({note.begin for note in part.notes}), steps, piece.division)) for part in piece.parts]
    whole = _best([Fit(sum(each[at].onsets for each in fits), sum(each[at].near for each in fits), 0.0)
                   for at in range(len(steps))])
    moves = {}
    for part, own in zip(piece.parts, fits):
        best = _best(own)
        best = whole if best is None and own[0].onsets < _FEW else best
        found.parts.append(MovedPart(part, None if best is None else steps[best]))
        moves[id(part)] = _Moves(found.parts[-1].step, piece.division)
    held = {channel: _Pedals(messages, moves[id(part)]) for channel, (part, messages) in pedals.items()}
    for new in found.parts:
        _Tones(new, moves[id(new.part)], held[new.part.channel]).add(choices.velocities)
        piece.left_out["message overtaken at its tick"] += _add_words(new, moves[id(new.part)])
    for channel in _overtaken(found.parts):
        several = [new for new in found.parts if new.part.channel == channel]
        found.parts = [new for new in found.parts if new.part.channel != channel] + _by_program(several)
    to_tick = _Moves(None if whole is None else steps[whole], piece.division)
    piece.division, piece.end = QUARTER, to_tick(piece.end)
    piece.meters = [meter._replace(tick=to_tick(meter.tick)) for meter in piece.meters]
    piece.tempos = [(to_tick(tick), tempo) for tick, tempo in piece.tempos]
    return found


def _fits(ticks: Sequence[int], steps: Sequence[Step], division: int) -> Iterator[Fit]:
    """How onsets lie on the grids; behind one on which all lie it is not asked for more."""
    found: Optional[Fit] = None
    for step in steps:
        if found is None or found.near < found.onsets:
            found = fit(Grid(step.parts), ticks, division, step.near)
        yield found


def _best(fits: Sequence[Fit]) -> Optional[int]:
    """The first way to move on which so many onsets lie; with `--grid` there is one."""
    return next((at for at, each in enumerate(fits) if each.share >= WRITTEN), None)


class _Pedals:
    """The pedals of a channel: a note ends on its side of each of them, and they stand behind the note-offs of a tick."""

    def __init__(self, messages: Sequence[Message], to_tick: _Moves):
        self.places = [(message.tick, message.place) for message in messages]
        self.ticks = [to_tick(message.tick) for message in messages]

    def bounds(self, note: Note, begin: int, most: int) -> tuple[int, int]:
        """From where to where a note may end."""
        at = bisect_left(self.places, (note.end, note.off))
        least = max(begin, self.ticks[at - 1] + 1) if at else begin
        most = min(most, max(begin, self.ticks[at])) if at < len(self.ticks) else most
        return min(least, most), most


class _Tones:
    """Makes the notes of a part."""

    def __init__(self, new: MovedPart, to_tick: _Moves, pedals: _Pedals):
        self.new, self.notes, self.to_tick, self.pedals = new, new.part.notes, to_tick, pedals
        self.begins = self._begins()
        #: of each key where it is struck: in the file, and here
        self.struck: dict[int, list[tuple[int, int]]] = defaultdict(list)
        for note, begin in sorted(zip(self.notes, self.begins), key=lambda pair: (pair[0].begin, pair[1])):
            self.struck[note.key].append((note.begin, begin))

    def _begins(self) -> list[int]:
        """Where the notes begin; two notes of one key that begin apart do not fall together."""
        begins = [self.to_tick(note.begin) for note in self.notes]
        together: dict[tuple[int, int], list[int]] = defaultdict(list)
        for at, note in enumerate(self.notes):
            together[note.key, begins[at]].append(at)
        for places in together.values():
            if not self.to_tick.is_far and len({self.notes[at].begin for at in places}) > 1:
                for at in places:
                    begins[at] = rounded(self.notes[at].begin, self.to_tick.division)
        return begins

    def add(self, velocities: int) -> None:
        """Adds them, with as few velocities as may be."""
        loud = few_velocities([note.velocity for note in self.notes], velocities)
        for note, begin in zip(self.notes, self.begins):
            struck = self.struck[note.key]
            at = bisect_right(struck, (note.begin, FAR))
            again, here = struck[at] if at < len(struck) else (FAR, FAR)
            most = max(begin, here) if note.end <= again else FAR
            first, last = rounded(note.begin, self.to_tick.division), rounded(note.end, self.to_tick.division)
            end = max(begin + (note.end > note.begin), last + (begin - first if self.to_tick.is_far else 0))
            least, most = self.pedals.bounds(note, begin, most)
            self.new.tones.append(Tone(note.key, loud[note.velocity], note.begin, note.end, note.on, note.off, begin,
                                       min(end, most), least, most))


def few_velocities(velocities: Sequence[int], by: int) -> dict[int, int]:
    """For each velocity one that is at most so far away: as few different ones as may be, the usual ones first. For 127
    it is the nearest of ppp to fff."""
    if by >= 127:
        return {velocity: min(DYNAMICS.values(), key=lambda each: abs(each - velocity)) for velocity in velocities}
    left, found = Counter(velocities), {}
    while left:
        level = max(range(1, 128), key=lambda level: (sum(left[level + off] for off in range(-by, by + 1)), left[level],
                                                      level % 5 == 0))
        for velocity in range(level - by, level + by + 1):
            if left.pop(velocity, 0):
                found[velocity] = level
    return found


def _add_words(new: MovedPart, to_tick: _Moves) -> int:
    """Adds the messages of a part; of small steps at one tick the last alone. Gives how many others there were."""
    words: list[Word] = []
    for message in new.part.messages:
        tick = to_tick(message.tick)
        if is_smooth(message.status, message.data) and tick % _SLOT:
            tick = (tick + _SLOT // 2) // _SLOT * _SLOT
        words.append(Word(message.tick, message.place, tick, message.status, message.data))
    words.sort(key=lambda word: (word.tick, word.first, word.place))
    last = {(word.tick, word.status, word.data[0]): word for word in words}
    new.words += [word for word in words if not is_smooth(word.status, word.data)
                  or last[word.tick, word.status, word.data[0]] is word]
    return len(words) - len(new.words)


# ---- programs that come between notes of a tick

def _overtaken(parts: Sequence[MovedPart]) -> set[int]:
    """Channels in which a program comes behind a note-on, and both fall on one tick."""
    ons: dict[tuple[int, int], tuple[int, int]] = {}
    for part, tone in ((part, tone) for part in parts for tone in part.tones):
        place = part.part.channel, tone.begin
        ons[place] = min((tone.first, tone.on), ons.get(place, (FAR, 0)))
    return {word.status & 15 for part in parts for word in part.words if word.status >> 4 == 0xC
            and (word.first, word.place) > ons.get((word.status & 15, word.tick), (FAR, 0))}


def _by_program(parts: Sequence[MovedPart]) -> list[MovedPart]:
    """The parts of a channel with one for each program of each, whose notes have their program before them."""
    programs = sorted((word.first, word.place, word.data[0]) for new in parts for word in new.words if word.status >> 4 == 0xC)
    found: dict[tuple[int, int], MovedPart] = {}
    for number, new in enumerate(parts):
        for tone in new.tones:
            at = bisect_left(programs, (tone.first, tone.on))
            own = number, programs[at - 1][2] if at else 0
            if own not in found:
                found[own] = MovedPart(replace(new.part, instrument=INSTRUMENTS[own[1]]), new.step)
            found[own].tones.append(tone)
    several, now = list(found.values()), -1
    several[0].words += [word for new in parts for word in new.words if word.status >> 4 != 0xC]
    for begin, place, tone in sorted((tone.begin, place, tone) for place, new in enumerate(several) for tone in new.tones):
        program = list(found)[place][1]
        if program != now:
            several[place].words.append(Word(tone.first, tone.on, begin, 0xC0 | several[place].part.channel, bytes([program])))
            now = program
    return several
