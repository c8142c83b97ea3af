"""Looks at blocks: lists against their passages, blocks without effect, branches that come apart, drums elsewhere."""

from __future__ import annotations

import re
from typing import Optional

from ..making.midi import DRUM_CHANNEL, INSTRUMENTS
from ..reading.structure import Span
from ..reading.tree import Statement
from ..reading.walk import Entries, Happening, Place
from .bars import apart_of
from .finding import Edit, replaced
from .looking import Finds, Look, Looking

#: A list of so many velocities that only rises or only falls is taken for a crescendo, which does not start again.
CRESCENDO = 5
#: The keys of a drum set, and two groups of it that a melody hardly has together.
_DRUM_SET, _BASS_DRUMS, _SNARES_AND_HATS = range(35, 60), {35, 36}, {38, 40, 42, 44, 46}
_DRUM_KEYS = range(27, 88)
_DRUM_WORDS = re.compile(r"drum|snare|kick\b|hi-?hat|\bhats?\b|cymbal|percussion", re.IGNORECASE)
#: The programs of General MIDI 2 and Roland that are drum sets.
_DRUM_PROGRAMS = {0, 8, 16, 24, 25, 32, 40, 48, 56}
_NOTES = ("note", "play")


class Lists(Look):
    """How many entries each list gave, and each block that nothing sounds by."""

    def __init__(self, walk: Looking, finds: Finds):
        super().__init__(walk, finds)
        self.given: dict[int, int] = {}                   # by the byte of a block what it gave in all
        self.notes: dict[int, tuple[Statement, int]] = {} # by it the notes in it
        self.across: set[int] = set()                     # the lists that a `par` starts anew
        self.uneven: dict[int, tuple[Statement, set[int]]] = {}

    def statement(self, happening: Happening) -> None:
        if happening.statement.word in _NOTES:
            for entries in self.walk.open_lists:
                of, count = self.notes.get(entries.statement.first.start, (entries.statement, 0))
                self.notes[of.first.start] = of, count + 1
        if happening.statement.word in ("note", "rest"):
            self._own_length(happening)

    def _own_length(self, happening: Happening) -> None:
        """A length of its own that is the next one of the rhythm round it."""
        rhythm = next((entries for entries in reversed(self.walk.open_lists) if entries.kind == "rhythm"), None)
        length = happening.end - happening.begin
        if (rhythm is None or not rhythm.given or len(rhythm.entries) < 2
                or not isinstance(happening.statement.length, int)):
            return
        if rhythm.entries[rhythm.given % len(rhythm.entries)] == length and length not in (
                rhythm.entries[(rhythm.given - 1) % len(rhythm.entries)],):
            of, word = happening.statement, "skip" if happening.statement.word == "rest" else "play"
            edits = [Edit(of.first.start, of.last.start, "skip")] if word == "skip" else []
            self.finds.find("length-in-rhythm", of.first,
                            f"this `{of.word}` has a length of its own and takes none of the `rhythm`, whose next "
                            f"length is this one: `{word}` takes it", edits)

    def emptied(self, entries: Entries, process: int) -> None:
        of, given = entries.statement, entries.given
        start = of.first.start
        self.given[start] = self.given.get(start, 0) + given
        self.notes.setdefault(start, (of, 0))
        if self.walk.open_lists and entries in self.walk.open_lists:
            self.across.add(start)
        if given and len(entries.entries) > 1:
            self.uneven.setdefault(start, (of, set()))[1].add(given)

    def finish(self) -> None:
        for start, (of, notes) in self.notes.items():
            if not self.given.get(start):
                self._without_effect(of, notes)
        for of, counts in self.uneven.values():
            if of.word == "loud":
                self._loud(of, counts)
            elif of.word == "rhythm":
                self._rhythm(of, counts)

    def _without_effect(self, of: Statement, notes: int) -> None:
        if not notes:
            why = "no note is in it"
        elif of.word == "rhythm":
            why = ("nothing in it plays by it: `note` and `rest` have lengths of their own, and `play` and `skip` take "
                   "them here")
        else:
            others = "`gate` or `artic`" if of.word in ("gate", "artic") else "`volume` or `loud`"
            why = f"each note in it is in another {others} further in"
        self.finds.find("block-without-effect", of.first, f"this `{of.word}` has no effect: {why}",
                        self.finds.unwrapped(of))

    def _loud(self, of: Statement, counts: set[int]) -> None:
        count, notes = len(of.entries), min(counts, key=lambda given: given % len(of.entries) == 0)
        said = f"this `loud` list has {count} entries, and its passage {notes} note{'' if notes == 1 else 's'}"
        if of.first.start in self.across:
            said += ", since each branch of a `par`, and what follows it, starts the list anew"
        if notes < count:
            self.finds.find("loud-list", of.first, f"{said}: its end is never reached")
        elif notes % count:
            left = notes % count
            again = "the last one starts" if left == 1 else f"the last {left} of them start"
            self.finds.find("loud-list", of.first, f"{said}: {again} the list again")
        elif notes > count >= CRESCENDO and goes(of.entries):
            self.finds.find("loud-list", of.first, f"{said}: it starts again with note {count + 1}")

    def _rhythm(self, of: Statement, counts: set[int]) -> None:
        count = len(of.entries)
        if any(given % count == 0 for given in counts):
            return
        taken = min(counts)
        said = f"this `rhythm` has {count} lengths, and its passage takes {taken}"
        if taken < count:
            self.finds.find("rhythm-left-over", of.first, f"{said}: the last {count - taken} are never taken" if
                            count - taken > 1 else f"{said}: the last one is never taken")
        else:
            over, left = taken % count, count - taken % count
            off = f"{over} more than whole rounds of it" if over <= left else f"{left} too few for whole rounds of it"
            self.finds.find("rhythm-left-over", of.first, f"{said}: {off}")


def goes(entries: tuple[int, ...]) -> int:
    """1 where numbers only rise, -1 where they only fall, else 0."""
    steps = [later - earlier for earlier, later in zip(entries, entries[1:])]
    return 1 if any(steps) and min(steps) >= 0 else -1 if any(steps) and max(steps) <= 0 else 0


class Branches(Look):
    """Branches of a `par` that are equally long as written, and not as played; and one that ends a little early."""

    def finish(self) -> None:
        for par, played in self.walk.pars.values():
            for branches in played:
                self._apart(par, branches)
                self._uneven(par, [span.end - span.begin for span in branches])

    def _uneven(self, par: Statement, lengths: list[int]) -> None:
        early = max(lengths) - min(lengths)
        if 0 < early < self.reading.whole and min(lengths) >= 4 * early:
            self.finds.find("branches-uneven", par.blocks[lengths.index(min(lengths))].head,
                            f"this branch ends {self.finds.part(early)} before the longest one of its `par`")

    def _apart(self, par: Statement, branches: list[Span]) -> None:
        apart = apart_of(branches)
        if apart:
            odd, other = apart
            ticks = abs(branches[odd].last - branches[other].last)
            self.finds.find("branches-apart", par.blocks[odd].head,
                            f"this branch is as long as branch {other + 1} (line {par.blocks[other].head.line}) as "
                            f"written, and as played {ticks} ticks apart at its end: where time is deformed, one "
                            "`warp` round the `par` keeps voices together")


class Drums(Look):
    """Drums that are not on channel 9, and what is on it and no drum."""

    def __init__(self, walk: Looking, finds: Finds):
        super().__init__(walk, finds)
        self.keys: dict[int, set[int]] = {}               # of each channel
        self.programs: set[int] = set()
        self.program_nine: Optional[Statement] = None
        self.blocks: dict[int, set[int]] = {}             # by the byte of each `channel` the keys in it
        self.open: dict[int, Optional[int]] = {}
        self.comments = {}
        for comment in self.reading.comments:
            self.comments[comment.line + comment.alone] = comment.text

    def statement(self, happening: Happening) -> None:
        word, channel = happening.statement.word, happening.channel
        if word == "program":
            self.programs.add(channel)
            if channel == DRUM_CHANNEL:
                self.program_nine = self.program_nine or happening.statement
            if channel == DRUM_CHANNEL and happening.values[0] not in _DRUM_PROGRAMS:
                self.finds.find("melody-on-channel-9", happening.statement.first, "channel 9 plays drums, whatever its "
                                f"program is: {INSTRUMENTS[happening.values[0]]} needs another channel")
        if word not in _NOTES:
            return
        self.keys.setdefault(channel, set()).update(happening.values)
        block = self._block(happening.place)
        if block:
            self.blocks.setdefault(block.first.start, set()).update(happening.values)
        if channel == DRUM_CHANNEL and not all(key in _DRUM_KEYS for key in happening.values):
            self.finds.find("melody-on-channel-9", happening.statement.first,
                            "channel 9 plays drums, and no drum is at key "
                            f"{next(key for key in happening.values if key not in _DRUM_KEYS)}")

    def _block(self, place: Optional[Place]) -> Optional[Statement]:
        while place:
            if isinstance(place.node, Statement) and place.node.word == "channel":
                return place.node
            place = place.outer
        return None

    def finish(self) -> None:
        nine = self.keys.get(DRUM_CHANNEL, set())
        if self.program_nine and nine and not nine & (_BASS_DRUMS | _SNARES_AND_HATS):
            self.finds.find("melody-on-channel-9", self.program_nine.first,
                            "channel 9 plays drums, whatever its program is: these notes need another channel")
        ten = self.keys.get(10, set())
        is_set = ten and all(key in _DRUM_SET for key in ten) and (
            ten & _BASS_DRUMS and ten & _SNARES_AND_HATS or len(ten & (_BASS_DRUMS | _SNARES_AND_HATS)) > 1)
        names = {phrase.block.opened.line: name for name, phrase in self.reading.phrases.items()}
        edits: list[Edit] = []
        first = None
        for statement in self.reading.every_statement():
            if statement.word != "channel" or statement.number in self.programs or statement.number == DRUM_CHANNEL:
                continue
            keys = self.blocks.get(statement.first.start, set())
            near = " ".join(filter(None, (self.comments.get(statement.line), names.get(statement.line),
                                          *self._played(statement))))
            is_named = keys and all(key in _DRUM_KEYS for key in keys) and _DRUM_WORDS.search(near)
            if statement.number == 10 and is_set or is_named:
                first = first or statement
                edits.append(replaced(self.finds.behind(statement.first), str(DRUM_CHANNEL)))
        if first:
            self.finds.find("drums-on-channel-10", first.first,
                            f"these are drums, and channels count from 0: drums are on `channel {DRUM_CHANNEL}`", edits)

    def _played(self, of: Statement) -> list[str]:
        """The phrases that a block plays."""
        return [statement.name for statement in of.blocks[0].statements if statement.word == "do"]
