"""What a score will play: each event with its tick, worked out apart from the command."""

from __future__ import annotations

from operator import itemgetter
from typing import NamedTuple, Optional, Sequence, Union

from .blocks import Block, Phrase, Warp
from .nodes import Message, Music, Note, Par, Repeat, Rest
from .shapes import Curve, Part

DEFAULT_GATE, DEFAULT_VELOCITY, RELEASE_VELOCITY = 90, 64, 64
LAST_TICK, MOST_WAITING = 2 ** 40, 16

#: A tick and a message, a note-off directly behind the note-ons of its note.
Made = tuple[int, bytes]
#: Where a warp begins in the one round it, and its shape.
Level = tuple[int, Union[Curve, Sequence[Part]]]

_by_tick = itemgetter(0)


class Event(NamedTuple):
    """A channel voice message: its `tick`, of which a quarter note has as many as the score's division says, and its
    bytes as `message`; `process` and `number` in it order what falls on one tick."""

    tick: int
    process: int
    number: int
    message: bytes


class _List:
    """An open list, which each process takes from its first entry on."""

    def __init__(self, values: tuple[int, ...]):
        self.values, self.taken = values, 0

    def take(self) -> int:
        self.taken += 1
        return self.values[(self.taken - 1) % len(self.values)]


class _Process:
    """Where a process is, in the innermost warp, and what is in force there."""

    def __init__(self, number: int, position: int, channel: int, lists: tuple[tuple[str, _List], ...],
                 levels: tuple[Level, ...]):
        self.number, self.position, self.channel = number, position, channel
        self.lists = tuple((kind, _List(entries.values)) for kind, entries in lists)
        self.levels = levels

    def outside(self, position: int, onset: bool) -> int:
        return outside(self.levels, position, onset) if self.levels else position

    def entry(self, kind: str, otherwise: int) -> int:
        for named, entries in reversed(self.lists):
            if named == kind:
                return entries.take()
        return otherwise


class _Player:
    def __init__(self) -> None:
        self.events: list[list[Made]] = []
        self.ends: dict[int, int] = {}
        self.messages: dict[tuple[int, ...], bytes] = {}  # each once, however often it is played

    def start(self, position: int, like: Optional[_Process]) -> _Process:
        number = len(self.events)
        self.events.append([])
        if like is None:
            return _Process(0, position, 0, (), ())
        return _Process(number, position, like.channel, like.lists, like.levels)

    def add(self, now: _Process, tick: int, status: int, *data: int) -> None:
        key = (status | now.channel, *data)
        message = self.messages.get(key)
        if message is None:
            message = self.messages[key] = bytes(key)
        self.events[now.number].append((tick, message))

    def end(self, now: _Process) -> int:
        """Ends the process where it is, and gives its position."""
        self.ends[now.number] = now.outside(now.position, True)
        return now.position

    def play(self, items: tuple[Music, ...], now: _Process) -> _Process:
        """Plays them; what follows goes on in the process that is given back."""
        for item in items:
            if isinstance(item, Note):
                self.note(item, now)
            elif isinstance(item, Rest):
                now.position += item.ticks
            elif isinstance(item, Message):
                self.message(item, now)
            else:
                now = self.opened(item, now)
        return now

    def opened(self, item: Music, now: _Process) -> _Process:
        if isinstance(item, Phrase):
            return self.play(item.body, now)
        if isinstance(item, Repeat):
            for _ in range(item.count):
                now = self.play(item.body, now)
        elif isinstance(item, Block):
            return self.block(item, now)
        elif isinstance(item, Warp):
            begun, outer = now.position, now.levels
            now.position, now.levels = 0, (*outer, (begun, item.curve))
            now = self.play(item.body, now)
            now.position, now.levels = begun + item.curve.outside(now.position, True), outer
        elif isinstance(item, Par):
            forked, last = now, self.end(now)
            for branch in item.branches:
                last = max(last, self.end(self.play(branch, self.start(forked.position, forked))))
            return self.start(last, forked)
        return now

    def note(self, item: Note, now: _Process) -> None:
        percent, loud = now.entry("artic", DEFAULT_GATE), now.entry("loud", DEFAULT_VELOCITY)
        length = item.ticks
        begin = now.outside(now.position, True)
        end = max(begin, now.outside(now.position + length * percent // 100, False))
        for pitch in item.pitches:
            self.add(now, begin, 0x90, pitch, loud)
        for pitch in item.pitches:
            self.add(now, end, 0x80, pitch, RELEASE_VELOCITY)
        now.position += length

    def message(self, item: Message, now: _Process) -> None:
        tick = now.outside(now.position, True)
        if item.kind == "control":
            self.add(now, tick, 0xB0, item.controller, item.value)
        elif item.kind == "program":
            self.add(now, tick, 0xC0, item.value)
        else:
            self.add(now, tick, 0xE0, (item.value + 8192) & 127, (item.value + 8192) >> 7)

    def block(self, item: Block, now: _Process) -> _Process:
        channel, lists = now.channel, now.lists
        if item.word == "channel":
            now.channel = item.values[0]
        else:
            kind = "loud" if item.word in ("volume", "loud") else "artic"
            now.lists = (*lists, (kind, _List(item.values)))
        after = self.play(item.body, now)
        after.channel = channel
        # a process that began inside has lists of its own for those round the block
        after.lists = after.lists[:len(lists)]
        return after


def outside(levels: Sequence[Level], position: int, onset: bool) -> int:
    """Where a position of the innermost level lies in the file; `levels` are where each begins, and its shape."""
    for begun, shape in reversed(levels):
        curve = shape if isinstance(shape, Curve) else Curve(shape)
        position = begun + curve.outside(position if onset else min(position, LAST_TICK), onset)
    return position


def come_out(sent: Sequence[Made], end: int) -> list[Made]:
    """What one process plays to its end. Its note-offs wait for their ticks: before each other message comes what is
    due, before the note-ons of a note the longest waiting where there is no room, and the rest at the end."""
    out: list[Made] = []
    waiting: list[Made] = []
    row = 0  # how many note-ons of this note have still to come
    for place, message in enumerate(sent):
        kind = message[1][0] >> 4
        if kind == 8:
            waiting.append(message)
            continue
        if kind == 9 and row == 0:
            row = next((count for count in range(1, MOST_WAITING)
                        if place + count == len(sent) or sent[place + count][1][0] >> 4 != 9), MOST_WAITING)
        waiting = _release(out, waiting, message[0], MOST_WAITING - row)
        row -= kind == 9
        out.append(message)
    _release(out, waiting, end, 0)
    return out


def _release(out: list[Made], waiting: list[Made], tick: int, room: int) -> list[Made]:
    """Plays the note-offs that are due, then those that wait longest, until no more than `room` wait."""
    if waiting:
        due = [message for message in waiting if message[0] <= tick]
        if due:
            out += sorted(due, key=_by_tick)
            waiting = [message for message in waiting if message[0] > tick]
        while len(waiting) > room:
            out.append((tick, waiting.pop(0)[1]))
    return waiting


def events_of(items: tuple[Music, ...]) -> list[Event]:
    """All events of the items, in the order of the file."""
    player = _Player()
    player.end(player.play(items, player.start(0, None)))
    # those of a process stand in the order of their ticks, and what falls on one tick goes by the processes
    return sorted((Event(tick, process, number, message) for process, sent in enumerate(player.events)
                   for number, (tick, message) in enumerate(come_out(sent, player.ends[process]))), key=_by_tick)
