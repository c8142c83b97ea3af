"""A whole score: its text, what it will play, and the run that writes its file."""

from __future__ import annotations

from fractions import Fraction
from functools import lru_cache
from typing import Iterable, NamedTuple, Optional, SupportsIndex, Union

from ..making.blocks import Block, Phrase, Warp
from ..making.errors import ScoreError
from ..making.expected import Event, events_of
from ..making.lengths import DIVISION, MAX_DIVISION, MIN_DIVISION, written
from ..making.nesting import first_fine
from ..making.origins import Calls, of as calls_of
from ..making.nodes import MAX_OPERATIONS, Held, Message, Music, Note, Par, Repeat, Rest, body_of
from ..making.shapes import Part
from ..making.values import shown, whole
from . import command
from .outs import put

MAX_BYTES = 1_048_576
MAX_END = 2**40
MAX_EVENTS = 4_000_000
#: by the version
MAX_PROCESSES = {1: 4_096, 2: 16_384}
MAX_STEPS = 16_777_216
_WIDTH = 100


class Score:
    """Music that is played from tick 0 on: `Score(note("c4", "1/4")).play("out.mid")`.

    It is judged as it is made, by all that the command judges a text by: a score that is made is played, unless
    a file or memory fails.

    `text` is the text, and `end` the ticks up to the End of Track, of which a quarter note has as many as `division`
    says: 480, and in a score of version 2 what is chosen, 24 to 960. `body` is the music with lengths in these ticks,
    `seed` what the draws of a score depend on, and `version` 1 or 2: 2 writes running status and may have 16,384
    processes in place of 4,096. `event_count`, `process_count` and `step_count` are what docs/LANGUAGE.md limits.
    """

    def __init__(self, *items: Music, seed: SupportsIndex = 0, version: SupportsIndex = 1,
                 division: SupportsIndex = DIVISION):
        #: 0 to 999,999,999
        self.seed = whole("a seed", seed, 0, 999_999_999)
        #: 1 or 2
        self.version = whole("a version", version, 1, 2)
        #: the ticks of a quarter note
        self.division = whole("a division", division, MIN_DIVISION, MAX_DIVISION)
        if self.version == 1 and self.division != DIVISION:
            raise ScoreError(f"a score of version 1 has {DIVISION} ticks a quarter note: write version=2 too")
        #: the music, with lengths in ticks of the division
        self.body = _resolved(body_of(items), self.division)
        #: where the End of Track stands, in ticks
        self.end = sum(item.ticks for item in self.body)
        totals = _Counts().all(self.body)
        #: how many events it plays
        self.event_count = totals.events
        #: how many processes it has
        self.process_count = 1 + totals.processes
        #: how many steps its playing takes, as docs/LANGUAGE.md counts them
        self.step_count = totals.steps + self.process_count
        _judge(totals, self.end, self.version)
        #: the text of the score
        self.text, self._made_by = _written(self.body, self.seed, self.version, self.division)
        if len(self.text) > MAX_BYTES:
            raise ScoreError(f"a score has at most 1,048,576 bytes, and this one {len(self.text):,}: "
                             "name what comes again as a phrase")

    def __str__(self) -> str:
        return self.text

    def __repr__(self) -> str:
        return (f"<Score of {self.end:,} ticks, {self.event_count:,} events in {self.process_count:,} "
                f"process{'es' if self.process_count > 1 else ''}, with a text of {len(self.text):,} bytes>")

    def events(self) -> list[Event]:
        """All events with their ticks, in the order of the file. It takes memory for all of them."""
        return events_of(self.body)

    def save(self, path: command.Path) -> None:
        """Writes the text into a file, which is the old one until it is the whole new one."""
        put(command.file_name(path), self.text.encode("ascii"))

    def play(self, path: command.Path, program: Optional[str] = None, *, workers: Optional[int] = None,
             lead: Optional[int] = None, room: Optional[int] = None, rounds: bool = False, parts: bool = False,
             from_: Optional[int] = None, to: Optional[int] = None, record: bool = False) -> None:
        """Lets the command write the MIDI file.

        `workers`, `lead`, `room` and `rounds` change how it is computed; `parts` gives a track to each channel,
        `from_` and `to` cut an excerpt out between two ticks, and `record` writes the record of the run.
        """
        command.play(self.text, path, program, workers=workers, lead=lead, room=room, rounds=rounds, parts=parts,
                     from_=from_, to=to, record=record)

    def render(self, program: Optional[str] = None, *, workers: Optional[int] = None, lead: Optional[int] = None,
               room: Optional[int] = None, rounds: bool = False, parts: bool = False, from_: Optional[int] = None,
               to: Optional[int] = None, record: bool = False) -> bytes:
        """The bytes of the file that `play` writes, with the same options."""
        return command.render(self.text, program, workers=workers, lead=lead, room=room, rounds=rounds, parts=parts,
                              from_=from_, to=to, record=record)

    def locate(self, tick: int, process: int = 0, program: Optional[str] = None) -> command.Located:
        """Where a tick of the file lies in the deformations that are open where a process starts."""
        return command.locate(self.text, tick, process, program)


def _resolved(items: tuple[Music, ...], division: int) -> tuple[Music, ...]:
    """The items with lengths in ticks of which a quarter note has as many as the division says."""
    if division != DIVISION:
        known: dict[int, Held] = {}
        items = tuple(item.scaled(Fraction(division, DIVISION), known) for item in items)
    fine = first_fine(items)
    if fine is not None:
        place = getattr(fine, "place", "")
        raise ScoreError(f"{place + ': ' if place else ''}the length {Fraction(fine) / (4 * division)} is "
                         f"{Fraction(fine)} ticks, and no whole number of them, where a quarter note has {division}")
    return items


class _Totals(NamedTuple):
    """What the command counts before it plays: docs/LANGUAGE.md, Ranges; and how many warps hold too much."""

    processes: int = 0
    operations: int = 0
    events: int = 0
    steps: int = 0
    overfull: int = 0

    def plus(self, *others: "_Totals") -> "_Totals":
        return _Totals(*map(sum, zip(self, *others)))


class _Counts:
    """Counts; what stands in several places is counted once, and added as often as it stands there."""

    def __init__(self) -> None:
        self._known: dict[int, _Totals] = {}

    def all(self, items: tuple[Music, ...]) -> _Totals:
        return _Totals(*map(sum, zip(_Totals(), *map(self.of_item, items))))

    def of_item(self, item: Music) -> _Totals:
        if isinstance(item, Note):
            return _of_notes(len(item.pitches))
        if isinstance(item, Rest):
            return _REST
        if isinstance(item, Message):
            return _MESSAGE
        if id(item) not in self._known:
            self._known[id(item)] = self._opened(item)
        return self._known[id(item)]

    def _opened(self, item: Music) -> _Totals:
        if isinstance(item, Par):
            return _Totals(1 + len(item.branches)).plus(*map(self.all, item.branches))
        assert isinstance(item, Held)
        inner = self.all(item.body)
        if isinstance(item, Repeat) and inner.processes:  # written out, a round after the other
            whole_of_it = _Totals(*(item.count * total for total in inner))
            return whole_of_it.plus(_Totals(operations=1 + item.count))
        if isinstance(item, Repeat):
            return _Totals(0, 2 + inner.operations, item.count * inner.events, 2 + item.count * (inner.steps + 1),
                           item.count * inner.overfull)
        if isinstance(item, Warp):
            return inner.plus(_Totals(operations=2, steps=2, overfull=int(item.inside > MAX_END)))
        if isinstance(item, Block) and item.word in ("loud", "artic"):
            return inner.plus(_Totals(operations=2, steps=2))
        return inner.plus(_Totals(operations=1))


_REST, _MESSAGE = _Totals(operations=1, steps=1), _Totals(operations=1, events=1, steps=1)


@lru_cache(maxsize=None)
def _of_notes(pitches: int) -> _Totals:
    return _Totals(operations=1, events=2 * pitches, steps=1 + 2 * pitches)


def _judge(inner: _Totals, end: int, version: int) -> None:
    """Refuses what the command would, by its totals."""
    processes = 1 + inner.processes
    for what, number, most in (("processes", processes, MAX_PROCESSES[version]),
                               ("operations", inner.operations + processes, MAX_OPERATIONS),
                               ("ticks", end, MAX_END), ("events", inner.events, MAX_EVENTS),
                               ("steps", inner.steps + processes, MAX_STEPS)):
        if number > most:
            raise ScoreError(f"a score has at most {most:,} {what}, and this one {shown(number)}")
    if inner.overfull:
        raise ScoreError("a warp holds at most 2^40 ticks, and one of these more")


class _Definitions:
    """The shapes and phrases of a text, each written once, and above those that name it."""

    def __init__(self, whole_note: int) -> None:
        self.whole_note = whole_note
        self.shapes: dict[tuple[Part, ...], str] = {}
        self.phrases: dict[str, Phrase] = {}
        self.lines: list[str] = []
        #: what made each statement of the lines, and of the blocks that are open, in the order of the text
        self.origins: list[Calls] = []
        self._open: list[list[Calls]] = [[]]

    def shape(self, parts: tuple[Part, ...]) -> str:
        if parts not in self.shapes:
            name = f"shape_{len(self.shapes) + 1}"
            while name in self.phrases:
                name += "_"
            self.shapes[parts] = name
            self.lines.append(f"shape {name} = {', '.join(part.text(self.whole_note) for part in parts)};")
        return self.shapes[parts]

    def phrase(self, item: Phrase) -> str:
        earlier = self.phrases.get(item.name)
        if earlier is not None and earlier != item:
            raise ScoreError(f"two phrases that are not equal have the name {item.name!r}")
        if item.name in self.shapes.values():
            raise ScoreError(f"{item.name!r} is the name of a shape")
        if earlier is None:
            self.phrases[item.name] = item
            self._open.append([])
            inner = self.block(item.body, 1)  # what it names comes first
            self.origins += self._open.pop()
            self.lines += [f"phrase {item.name} {{", *inner, "}"]
        return item.name

    def block(self, items: tuple[Music, ...], depth: int) -> list[str]:
        """The lines of the items, short statements side by side."""
        indent, lines, is_open = "  " * depth, [], False
        for item in items:
            self._open[-1].append(calls_of(item))
            plain = self.plain(item)
            if plain is None:
                lines += self.opened(item, depth)
                is_open = False
            elif is_open and len(lines[-1]) + 1 + len(plain) <= _WIDTH:
                lines[-1] += " " + plain
            else:
                lines.append(indent + plain)
                is_open = True
        return lines

    def plain(self, item: Music) -> Optional[str]:
        if isinstance(item, Note):
            return f"note {', '.join(map(str, item.pitches))} {written(item.ticks, self.whole_note)};"
        if isinstance(item, Rest):
            return f"rest {written(item.ticks, self.whole_note)};"
        if isinstance(item, Message):
            return f"{item.kind}{f' {item.controller}' if item.kind == 'control' else ''} {item.value};"
        if isinstance(item, Phrase):
            return f"do {self.phrase(item)};"
        return None

    def opened(self, item: Music, depth: int) -> list[str]:
        indent = "  " * depth
        if isinstance(item, Par):
            lines = [indent + "par {"]
            for branch in item.branches:
                lines += [indent + "  branch {", *self.block(branch, depth + 2), indent + "  }"]
            return [*lines, indent + "}"]
        if isinstance(item, Repeat):
            head = f"repeat {item.count}"
        elif isinstance(item, Warp):
            head = f"warp {self.shape(item.parts)}"
        elif isinstance(item, Block) and item.word in ("loud", "artic"):
            head = f"{item.word} [{', '.join(map(str, item.values))}]"
        elif isinstance(item, Block):
            head = f"{item.word} {item.values[0]}"
        else:
            raise ScoreError(f"{item!r} is no music")
        return [f"{indent}{head} {{", *self.block(getattr(item, "body"), depth + 1), indent + "}"]


def text_of(body: tuple[Music, ...], seed: int = 0, version: int = 1, division: int = DIVISION) -> str:
    """The text of a score."""
    return _written(body, seed, version, division)[0]


def origins_of(score: Score) -> list[Calls]:
    """Of each statement of a score's text, in its order, what made it."""
    return score._made_by


def _written(body: tuple[Music, ...], seed: int, version: int, division: int) -> tuple[str, list[Calls]]:
    definitions = _Definitions(4 * division)
    lines = definitions.block(body, 0)
    head = [f"formula {version};"]
    if division != DIVISION:
        head.append(f"division {division};")
    if seed:
        head.append(f"seed {seed};")
    return "\n".join(head + definitions.lines + lines) + "\n", definitions.origins + definitions._open[0]
