"""What a file of a score does not say of its events: their processes, their places in the text, and bars.

The companion's reading says it. It is compared with the listing of the program's file, event by event, before anything
is told. Ticks are the program's: of events those of the file, of processes and bars those that it plays in a small
score with the same shapes.
"""

from __future__ import annotations

import argparse
import os
import tempfile
from array import array
from concurrent.futures import ThreadPoolExecutor
from typing import Any, NamedTuple, Optional, Sequence, TypeVar

from formula_score.checks.bars import process_name, ring
from formula_score.making.expected import come_out
from formula_score.pictures.drawing import bars as rules_of
from formula_score.reading import names
from formula_score.reading.meter import Meter, groups_of, part_of
from formula_score.reading.playing import Failed, located, needs, run
from formula_score.reading.reader import read
from formula_score.reading.ticks import Spot, positions_at, spots_of, ticks_of
from formula_score.reading.tree import Reading
from formula_score.reading.walk import Happening, Level, Played, messages_of, tick_of
from ..editing.places import Places

#: How many bars have a line, and how many beats; of more only each second, fourth and so on.
MOST_BARS = 4000
#: At how many ticks of a process its deformations are asked for.
SAMPLES = 48
#: Of how many nests of deformations in a process a curve is drawn.
MOST_CURVES = 6
#: A text up to so many bytes is itself asked where a tick lies; of a longer one its shapes alone.
_SHORT = 65_536

_Item = TypeVar("_Item")


class _Tagged(bytes):
    """A message that knows which happening it is of."""

    happening: int


class Sent(NamedTuple):
    """An event as it is expected in the file: its process, and the number of its happening."""

    tick: int
    process: int
    number: int
    message: bytes
    happening: int


def sent(walk: Played) -> list[Sent]:
    """All events in the order of the file."""
    events: list[list[tuple[int, bytes]]] = [[] for _ in walk.begun]
    for number, happening in enumerate(walk.happenings):
        for tick, message in messages_of(happening):
            tagged = _Tagged(message)
            tagged.happening = number
            events[happening.process].append((tick, tagged))
    found: list[Sent] = []
    for process, own in enumerate(events):
        for number, (tick, message) in enumerate(come_out(own, walk.tick_of_end(process))):
            assert isinstance(message, _Tagged)
            found.append(Sent(tick, process, number, message, message.happening))
    found.sort(key=lambda event: event[:3])
    return found


class Picture:
    """The reading of a text, which was compared with the file that the program made of it."""

    def __init__(self, text: bytes, file: str):
        self.text = text
        self.reading: Reading = read(text)
        self.walk = Played(self.reading)
        self.walk.run()
        self.events = sent(self.walk)
        self.agree(file)
        self.partners = _partners(self.events)
        self.places = Places(text)

    def agree(self, file: str) -> None:
        """Refuses to go on where the reading is not what the program plays."""
        with tempfile.TemporaryDirectory() as folder:
            target = os.path.join(folder, "out.listing")
            needs(run(file, target, "--list"))
            with open(target, encoding="ascii") as listing:
                lines = listing.read().split("\n")[1:-1]
        heard = [line for line in lines if " FF " not in line]
        expected = [f"0 {event.tick} {event.message.hex(' ').upper()}" for event in self.events]
        end = f"0 {self.walk.tick_of_end(len(self.walk.begun) - 1)} FF 2F 00"
        if heard != expected or lines[-1:] != [end]:
            raise Failed(1, "the companion reads this score otherwise than the program plays it: this is a fault of "
                            "the companion, and processes and lines are not shown")

    def processes(self) -> list[dict[str, Any]]:
        """Each process with the ticks of its beginning and its end, what it waits for, and its name."""
        walk = self.walk
        ends = [walk.ended[number] for number in range(len(walk.begun))]
        spots = [Spot(number, spot.levels, spot.position) for both in (walk.begun, ends)
                 for number, spot in enumerate(both)]
        ticks = ticks_of(self.reading, spots)
        return [{"begin": ticks[number], "end": ticks[len(ends) + number], "waits": walk.waits_for[number],
                 "name": process_name(walk, number), "levels": len(walk.begun[number].levels)}
                for number in range(len(ends))]

    def table(self) -> bytes:
        """32-bit numbers: of each event the process, then the happening, then the event that ends or begins its note;
        of each happening the line, and then the character in it, both from 0."""
        places = self.places
        spots = [places.position(happening.statement.first.start) for happening in self.walk.happenings]
        columns = ([event.process for event in self.events], [event.happening for event in self.events], self.partners,
                   [spot.line for spot in spots], [spot.character for spot in spots])
        return b"".join(array("i", column).tobytes() for column in columns)

    def bars(self, meter: Meter) -> dict[str, Any]:
        """The ticks at which bars and beats begin, of the first process that plays there, and the number of the last
        bar."""
        last = self.walk.ended[len(self.walk.begun) - 1].written
        first = 0 if meter.upbeat else 1
        behind = meter.at(max(0, last - 1)).bar + 1
        numbers = _thinned(list(range(first, behind + 1)))
        beats = [rule.tick for rule in rules_of(meter, last) if not rule.label]
        starts = [meter.start(bar) for bar in numbers]
        spots = spots_of(self.walk, [*starts, *beats])
        known = [at for at, spot in enumerate(spots) if spot is not None]
        ticks = dict(zip(known, ticks_of(self.reading, [spot for spot in spots if spot is not None])))
        return {"bars": [[ticks[at], bar] for at, bar in enumerate(numbers) if at in ticks],
                "beats": [ticks[at] for at in range(len(numbers), len(spots)) if at in ticks],
                "first": first, "last": behind - 1}

    def facts(self, event: int, meter: Meter) -> list[list[str]]:
        """What is known of a note, as names and words."""
        on, off = self.events[event], self.partners[event]
        of = self.walk.happenings[on.happening]
        number = sum(1 for earlier in self.events[:event] if earlier.process == on.process and _is_on(earlier.message)) + 1
        written = of.begin + (of.end - of.begin) * of.percent // 100
        second = 2 * self.reading.division
        rows = [["Note", f"{names.note(of.channel, on.message[1])}, key {on.message[1]}, velocity {on.message[2]}, "
                         f"channel {of.channel}"],
                ["Process", f"{process_name(self.walk, on.process)}, its note {number}"],
                ["Begins", _when(on.tick, meter.tell(of.begin), second)]]
        if off >= 0:
            cut = self.events[off].tick != max(on.tick, _end_of(of))
            rows.append(["Ends", _when(self.events[off].tick, "cut" if cut else meter.tell(written), second)])
        first = of.statement.first
        rows.append(["Text", f"line {first.line}, column {first.column}{ring(of.place, of.begin, meter)}"])
        return rows

    # ---- deformations

    def curves(self, process: int) -> list[dict[str, Any]]:
        """Of each nest of deformations in a process the positions in each level, at some of its ticks."""
        if not 0 <= process < len(self.walk.begun):
            raise Failed(1, f"there is no process {process}")
        found: list[dict[str, Any]] = []
        with ThreadPoolExecutor(4) as pool:
            for levels, begin, end in self._nests(process)[:MOST_CURVES]:
                step = max(1, -(-(end - begin) // SAMPLES))
                ticks = [*range(begin, end, step), end]
                asked = list(pool.map(lambda tick: self._positions(process, levels, tick), ticks))
                points = [[tick, *positions] for tick, positions in zip(ticks, asked) if positions is not None]
                found.append({"levels": [f"{level.shape.name.text} (line {level.shape.name.line})"
                                         for level in levels], "points": points})
        return found

    def _nests(self, process: int) -> list[tuple[tuple[Level, ...], int, int]]:
        """Those that no other is further inside of, each from the tick where it is first played to the last."""
        spans: dict[tuple[tuple[int, str], ...], tuple[tuple[Level, ...], int, int]] = {}
        for happening in self.walk.happenings:
            if happening.process == process and happening.levels:
                key = tuple((level.written, level.shape.name.text) for level in happening.levels)
                begin = tick_of(happening.levels, happening.position)
                end = tick_of(happening.levels, happening.position + happening.end - happening.begin)
                known = spans.get(key, (happening.levels, begin, end))
                spans[key] = (known[0], min(begin, known[1]), max(end, known[2]))
        keys = [key for key in spans if not any(other[:len(key)] == key and other != key for other in spans)]
        return [spans[key] for key in keys]

    def _positions(self, process: int, levels: tuple[Level, ...], tick: int) -> Optional[tuple[int, ...]]:
        if len(self.text) <= _SHORT and levels == self.walk.begun[process].levels:
            return located(self.text, tick, process)
        return positions_at(self.reading, levels, tick)


def _is_on(message: bytes) -> bool:
    return message[0] >> 4 == 9


def _end_of(of: Happening) -> int:
    return max((tick for tick, message in messages_of(of) if message[0] >> 4 == 8), default=0)


def _when(tick: int, bar: str, second: int) -> str:
    return f"tick {tick}, {bar} as written, {tick / second:.3f} s"


def _partners(events: Sequence[Sent]) -> list[int]:
    """Of each note-on the note-off of the same note, and the other way round; of others -1."""
    found = [-1] * len(events)
    sounding: dict[tuple[int, int, int], list[int]] = {}
    for at, event in enumerate(events):
        kind = event.message[0] >> 4
        if kind == 9:
            sounding.setdefault((event.happening, event.process, event.message[1]), []).append(at)
        elif kind == 8:
            begun = sounding[event.happening, event.process, event.message[1]].pop(0)
            found[begun], found[at] = at, begun
    return found


def _thinned(items: list[_Item]) -> list[_Item]:
    step = 1
    while len(items) // step > MOST_BARS:
        step *= 2
    return items[::step]


def meter_of(reading: Reading, word: str, upbeat: str) -> Meter:
    """The meter that the words of the page ask for; `Failed` where they are none."""
    try:
        return Meter(groups_of(word), part_of(upbeat or "0/1"), reading.whole)
    except argparse.ArgumentTypeError as error:
        raise Failed(2, str(error)) from error
