"""Looks at keys: struck while they sound, in one voice or two, and notes that are cut."""

from __future__ import annotations

from collections import Counter
from typing import Iterator, Optional, Sequence

from ..making.expected import MOST_WAITING, outside
from ..reading.tree import Statement
from ..reading.walk import Happening, Place, parts_of, tick_of
from .looking import Finds, Look, Looking

#: Of each channel and key its notes.
Struck = dict[tuple[int, int], list[Happening]]


def _begins(note: Happening) -> int:
    return tick_of(note.levels, note.position)


def _ends(note: Happening) -> int:
    sounds = (note.end - note.begin) * note.percent // 100
    return outside(parts_of(note.levels), note.position + sounds, False)


class Keys(Look):
    """Keys that are struck while they sound, and notes that are cut."""

    def __init__(self, walk: Looking, finds: Finds):
        super().__init__(walk, finds)
        self.struck: dict[int, tuple[Place, Struck]] = {}      # of each branch that is played, by its place
        self.branches: list[Struck] = []                       # of those that were played, up to their `par`
        self.waiting: list[tuple[int, Happening]] = []         # of each pitch its note-off, the oldest first
        self.again: set[int] = set()                           # the blocks in which a key was struck again
        self.told: set[int] = set()                            # the lines with a note that is cut

    def statement(self, happening: Happening) -> None:
        if happening.statement.word in ("note", "play"):
            self.sounds(happening)
        elif happening.statement.word == "par":
            self.voices(happening.statement)

    def closed(self, place: Place, end: int) -> None:
        if place.kind == "branch":
            self.branches.append(self.struck.pop(id(place), (place, {}))[1])

    def voices(self, par: Statement) -> None:
        """Keys that two branches share."""
        played = self.branches[-len(par.blocks):]
        del self.branches[-len(par.blocks):]
        shared = [place for place, count in Counter(place for struck in played for place in struck).items() if count > 1]
        for channel, key in sorted(shared):
            twice = _struck_while_it_sounds(sorted(
                (_begins(note), at, _ends(note)) for at, struck in enumerate(played)
                for note in struck.get((channel, key), ())))
            if twice:
                lines = " and ".join(str(par.blocks[branch].head.line) for branch in twice)
                self.finds.find("key-in-two-branches", par.first, f"branches {twice[0] + 1} and {twice[1] + 1} (lines "
                                f"{lines}) strike key {key} of channel {channel}, one while the other sounds it: many "
                                "players end both at the first note-off")
                return

    def sounds(self, note: Happening) -> None:
        """A note begins."""
        for place in _branches(note.place):
            struck = self.struck.setdefault(id(place), (place, {}))[1]
            for key in note.values:
                struck.setdefault((note.channel, key), []).append(note)
        if note.percent <= 100 and not self.waiting:
            return
        begin = _begins(note)
        self.waiting = [waiting for waiting in self.waiting if waiting[0] > begin]
        for end, earlier in self.waiting:
            if set(earlier.values) & set(note.values) and earlier.channel == note.channel and earlier.percent > 100:
                self._again(note, earlier, end - begin)
        while len(self.waiting) + len(note.values) > MOST_WAITING:
            end, cut = self.waiting.pop(0)
            self.cut(cut, end - begin, f"by the note on line {note.statement.line}, since 16 pitches sound at most")
        self.waiting += [(_ends(note), note) for _ in note.values]

    def _again(self, note: Happening, earlier: Happening, ticks: int) -> None:
        """Told once for its block."""
        block = next((entries.statement for entries in reversed(self.walk.open_lists) if entries.kind == "artic"), None)
        start = block.first.start if block else -1
        if start not in self.again:
            self.again.add(start)
            self.finds.find("key-struck-again", note.statement.first,
                            f"this note strikes a key that the note on line {earlier.statement.line} still sounds, for "
                            f"{ticks} ticks: many players end both at the first note-off")

    def process_ended(self, number: int) -> None:
        last = self.walk.ended[number]
        end = tick_of(last.levels, last.position) if self.waiting else 0
        for off, note in self.waiting:
            if off > end:
                self.cut(note, off - end, "where its voice ends; a rest after it would let it ring out")
        self.waiting = []

    def cut(self, note: Happening, ticks: int, how: str) -> None:
        """A note ends too early; told once for its line."""
        if note.statement.line in self.told:
            return
        self.told.add(note.statement.line)
        self.finds.find("note-cut", note.statement.first,
                        f"this note sounds for {note.percent} percent of its length, and is cut {ticks} ticks too "
                        f"early {how}")


def _branches(place: Optional[Place]) -> Iterator[Place]:
    """The branches round a place."""
    while place:
        if place.kind == "branch":
            yield place
        place = place.outer


def _struck_while_it_sounds(notes: Sequence[tuple[int, int, int]]) -> tuple[int, ...]:
    """The two branches of which one strikes a key that sounds in the other, or ends it behind the new note-on of its
    tick; none where there are none. `notes` have their begin, branch and end, and are in order."""
    last_end, last = -1, -1
    for begin, branch, end in notes:
        if branch != last and (begin < last_end or begin == last_end and branch < last):
            return tuple(sorted((last, branch)))
        if end > last_end:
            last_end, last = end, branch
    return ()
