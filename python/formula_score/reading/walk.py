"""What a score plays, statement by statement: in which process, where it stands as written, in which levels.

A `Walk` goes over a reading as the program does, and hands each statement to its methods `statement` and `closed`,
which do nothing: a verb has a walk of its own that keeps what it needs. What a score computes is computed here too.
Positions as written are ticks from the beginning of the score, as if no `warp` stood there.
"""

from __future__ import annotations

from typing import Callable, NamedTuple, Optional, Union

from ..making.expected import DEFAULT_GATE, DEFAULT_VELOCITY, RELEASE_VELOCITY, Event, Made, come_out, outside
from ..making.shapes import Curve
from .tree import Amount, Block, Computed, Expression, Length, Phrase, Reading, Shape, Statement

_LIMIT = 1_000_000
_WORD = 2 ** 64


class Level(NamedTuple):
    """An open `warp`: where it begins in the level round it and as written, and its shape."""

    begin: int
    written: int
    shape: Shape


class Place(NamedTuple):
    """A block that is played: of a phrase, a round of a loop, a branch, or another.

    `node` is the phrase or the statement that has the block; None for the whole score. `number` is the round or the
    branch, from 0; `begin` where it begins as written, `process` in which, and `outer` is the place round it.
    """

    kind: str
    node: Union[Statement, Phrase, None]
    number: int
    begin: int
    process: int
    outer: Optional["Place"]


class Happening(NamedTuple):
    """A statement as it is played.

    `begin` and `end` are its positions as written; `position` is where it begins in the innermost of the `levels`.
    Of a note `values` are its keys, of `control`, `program` and `bend` the value that is sent; `velocity` and
    `percent` are a note's.
    """

    statement: Statement
    process: int
    place: Place
    begin: int
    end: int
    levels: tuple[Level, ...]
    position: int
    channel: int
    values: tuple[int, ...] = ()
    velocity: int = 0
    percent: int = 0


#: What a happening has behind its channel: values, and of a note velocity and percent.
_Sent = Union[tuple[tuple[int, ...]], tuple[tuple[int, ...], int, int]]


class Process(NamedTuple):
    """Where a process begins or ends: as written, and in the innermost of the levels."""

    written: int
    position: int
    levels: tuple[Level, ...]
    place: Place


class _Now:
    """What the process that is played has by itself."""

    def __init__(self, number: int, position: int, written: int, seed: int):
        self.number, self.position, self.written = number, position, written
        self.registers = [0] * 8
        self.drawn = (seed + number) % _WORD


class Entries:
    """An open list of `rhythm`, `artic` or `loud`, or a `gate` or `volume` as one of a single entry; and how many
    entries it has given."""

    def __init__(self, kind: str, entries: tuple[int, ...], statement: Statement, given: int = 0):
        self.kind, self.entries, self.statement, self.given = kind, entries, statement, given

    def next(self) -> int:
        self.given += 1
        return self.entries[(self.given - 1) % len(self.entries)]


def _within(value: int, low: int = -_LIMIT, high: int = _LIMIT) -> int:
    return low if value < low else high if value > high else value


_OPERATORS: dict[str, Callable[[int, int], int]] = {
    "+": lambda left, right: left + right, "-": lambda left, right: left - right, "*": lambda left, right: left * right,
    "/": lambda left, right: left // right if right else 0, "%": lambda left, right: left % right if right else 0,
    "min": min, "max": max, "less": lambda left, right: int(left < right), "same": lambda left, right: int(left == right),
}


class TooMuch(Exception):
    """More is played than somebody has time for."""


class Walk:
    """Goes over what a reading plays, at most so many statements of it, where a number is given. After `run`, `begun`
    and `ended` have each process by its number, and `waits_for` the processes that end where it begins."""

    def __init__(self, reading: Reading, most: Optional[int] = None):
        self.reading = reading
        self._left = most if most is not None else _WORD
        self.begun: list[Process] = []
        self.ended: dict[int, Process] = {}
        self.waits_for: list[tuple[int, ...]] = []
        self.levels: tuple[Level, ...] = ()
        self.rounds: list[int] = []     # of each open loop, the outermost first, its round
        self.open_lists: list[Entries] = []
        self.channel, self.place = 0, Place("score", None, 0, 0, 0, None)

    # ---- what a walk of a verb keeps

    def statement(self, happening: Happening) -> None:
        """A statement was played, with all that it holds."""

    def closed(self, place: Place, end: int) -> None:
        """A block was played; it ends there, as written."""

    def emptied(self, entries: Entries, process: int) -> None:
        """A list is left, or begins anew since its process ends: it gave so many entries in this process."""

    def process_ended(self, number: int) -> None:
        """A process came to its end: before a `par`, at the end of a branch, or at the end of the score."""

    # ---- the walk

    def run(self) -> "Walk":
        """Goes over the whole."""
        self._start(0, 0, ())
        for statement in self.reading.statements:
            self._go(statement)
        self._end()
        self.closed(self.place, self.now.written)
        return self

    def _start(self, position: int, written: int, waits_for: tuple[int, ...]) -> None:
        self.now = _Now(len(self.begun), position, written, self.reading.seed)
        self.waits_for.append(waits_for)
        self.begun.append(self._here())
        self.open_lists = [Entries(entries.kind, entries.entries, entries.statement) for entries in self.open_lists]

    def _end(self) -> None:
        self.ended[self.now.number] = self._here()
        for entries in self.open_lists:
            self.emptied(entries, self.now.number)
        self.process_ended(self.now.number)

    def _here(self) -> Process:
        return Process(self.now.written, self.now.position, self.levels, self.place)

    def _go(self, statement: Statement) -> None:
        self._left -= 1
        if self._left < 0:
            raise TooMuch
        now, place, levels, channel = self.now, self.place, self.levels, self.channel
        begin, position = now.written, now.position
        sent: Optional[_Sent] = getattr(self, f"on_{statement.word}")(statement)
        self.statement(Happening(statement, now.number, place, begin, self.now.written, levels, position, channel,
                                 *(sent or ())))

    def _inside(self, kind: str, node: Union[Statement, Phrase], block: Block, number: int = 0) -> None:
        outer = self.place
        self.place = Place(kind, node, number, self.now.written, self.now.number, outer)
        if kind == "branch":
            self.begun[-1] = self._here()
        for statement in block.statements:
            self._go(statement)
        self.closed(self.place, self.now.written)
        self.place = outer

    def _pass(self, ticks: int) -> None:
        self.now.position += ticks
        self.now.written += ticks

    # ---- values

    def _value(self, of: Expression) -> int:
        if of.of == "number":
            return min(of.number, _LIMIT)
        if of.of == "r":
            return self.now.registers[of.number]
        if of.of == "n":
            return self.rounds[-1 - of.number]
        operands = [self._value(operand) for operand in of.operands]
        if of.of == "negative":
            return _within(-operands[0])
        if of.of == "pick":
            return self._draw(operands[0])
        return _within(_OPERATORS[of.of](*operands))

    def _draw(self, below: int) -> int:
        self.now.drawn = (6364136223846793005 * self.now.drawn + 1442695040888963407) % _WORD
        return _within(self.now.drawn // 2 ** 33 % below) if below > 0 else 0

    def _amount(self, amount: Amount, low: int, high: int) -> int:
        return _within(self._value(amount), low, high) if isinstance(amount, Expression) else amount

    def _length(self, length: Optional[Length]) -> int:
        if length is None:
            return self._entry("rhythm", 0)
        return _within(self._value(length.value), 0, length.most) if isinstance(length, Computed) else length

    def _entry(self, kind: str, otherwise: int) -> int:
        return next((entries.next() for entries in reversed(self.open_lists) if entries.kind == kind), otherwise)

    # ---- statements

    def on_note(self, of: Statement) -> _Sent:
        keys = tuple(self._amount(pitch, 0, 127) for pitch in of.pitches)
        length = self._length(of.length)
        sent = keys, self._entry("loud", DEFAULT_VELOCITY), self._entry("artic", DEFAULT_GATE)
        self._pass(length)
        return sent

    on_play = on_note

    def on_rest(self, of: Statement) -> None:
        self._pass(self._length(of.length))

    on_skip = on_rest

    def on_control(self, of: Statement) -> _Sent:
        return ((self._amount(of.amount, 0, 127),),)

    on_program = on_control

    def on_bend(self, of: Statement) -> _Sent:
        return ((self._amount(of.amount, -8192, 8191),),)

    def on_set(self, of: Statement) -> None:
        self.now.registers[of.number] = self._amount(of.amount, -_LIMIT, _LIMIT)

    def on_if(self, of: Statement) -> None:
        holds = self._amount(of.amount, -_LIMIT, _LIMIT) > 0
        for block in of.blocks[:1] if holds else of.blocks[1:]:
            self._inside("block", of, block)

    def on_repeat(self, of: Statement) -> None:
        count = self._length(of.length)
        self.rounds.append(0)
        for number in range(count):
            self.rounds[-1] = number
            self._inside("round", of, of.blocks[0], number)
        self.rounds.pop()

    def on_do(self, of: Statement) -> None:
        phrase = self.reading.phrases[of.name]
        self._inside("phrase", phrase, phrase.block)

    def on_par(self, of: Statement) -> None:
        forked = self.now
        self._end()
        position, written, ends = forked.position, forked.written, list[int]()
        for number, block in enumerate(of.blocks):
            self._start(forked.position, forked.written, (forked.number,))
            self._inside("branch", of, block, number)
            self._end()
            position, written = max(position, self.now.position), max(written, self.now.written)
            ends.append(self.now.number)
        self._start(position, written, tuple(ends))

    def on_warp(self, of: Statement) -> None:
        shape, round_it = self.reading.shapes[of.name], self.levels
        level = Level(self.now.position, self.now.written, shape)
        self.levels, self.now.position = (*round_it, level), 0
        self._inside("block", of, of.blocks[0])
        self.levels, self.now.position = round_it, level.begin + shape.curve.outside(self.now.position, True)

    def on_channel(self, of: Statement) -> None:
        outer, self.channel = self.channel, of.number
        self._inside("block", of, of.blocks[0])
        self.channel = outer

    def _listed(self, of: Statement, kind: str, entries: tuple[int, ...]) -> None:
        self.open_lists.append(Entries(kind, entries, of))
        self._inside("block", of, of.blocks[0])
        self.emptied(self.open_lists.pop(), self.now.number)

    def on_volume(self, of: Statement) -> None:
        self._listed(of, "loud", (of.number,))

    def on_gate(self, of: Statement) -> None:
        self._listed(of, "artic", (of.number,))

    def on_rhythm(self, of: Statement) -> None:
        self._listed(of, of.word, of.entries)

    on_artic = on_loud = on_rhythm


class Played(Walk):
    """Each statement that makes an event, or takes time, in `happenings`, and what is heard of them."""

    def __init__(self, reading: Reading, most: Optional[int] = None):
        super().__init__(reading, most)
        self.happenings: list[Happening] = []

    def statement(self, happening: Happening) -> None:
        if not happening.statement.blocks and happening.statement.word not in ("do", "set"):
            self.happenings.append(happening)

    def events(self) -> list[Event]:
        """All events with their ticks, in the order of the file: what the program is expected to play."""
        events_of: list[list[Made]] = [[] for _ in self.begun]
        for happening in self.happenings:
            events_of[happening.process] += messages_of(happening)
        return sorted(Event(tick, process, number, message) for process, own in enumerate(events_of)
                      for number, (tick, message) in enumerate(come_out(own, self.tick_of_end(process))))

    def tick_of_end(self, process: int) -> int:
        """The tick at which a process is expected to end."""
        end = self.ended[process]
        return tick_of(end.levels, end.position)


def parts_of(levels: tuple[Level, ...]) -> tuple[tuple[int, Curve], ...]:
    """Of each level where it begins, and its curve."""
    return tuple((level.begin, level.shape.curve) for level in levels)


def tick_of(levels: tuple[Level, ...], position: int) -> int:
    """The tick at which what begins at a position of the innermost level is expected."""
    return outside(parts_of(levels), position, True)


def messages_of(happening: Happening) -> list[Made]:
    """The messages of a statement with their ticks, the note-offs of a note behind its note-ons."""
    says, channel, values = happening.statement.word, happening.channel, happening.values
    if says in ("rest", "skip"):
        return []
    levels = parts_of(happening.levels)
    tick = outside(levels, happening.position, True)
    if says in ("note", "play"):
        sounds = (happening.end - happening.begin) * happening.percent // 100
        off = max(tick, outside(levels, happening.position + sounds, False))
        return [(tick, bytes([0x90 | channel, key, happening.velocity])) for key in values] + [
            (off, bytes([0x80 | channel, key, RELEASE_VELOCITY])) for key in values]
    if says == "control":
        return [(tick, bytes([0xB0 | channel, happening.statement.number, *values]))]
    if says == "program":
        return [(tick, bytes([0xC0 | channel, *values]))]
    bend = values[0] + 8192
    return [(tick, bytes([0xE0 | channel, bend % 128, bend // 128]))]
