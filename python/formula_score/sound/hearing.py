"""What is heard of a score: faster or slower, one channel, one phrase in a loop, with a click on the beats."""

from __future__ import annotations

from typing import Iterable, Iterator, NamedTuple, Optional

from ..making.midi import DRUM_CHANNEL
from ..reading.meter import Meter
from ..reading.midi_file import Timed, file_of
from ..reading.playing import Failed, Listing
from ..reading.sending import Sent, sent_of
from ..reading.ticks import spots_of, ticks_of
from ..reading.walk import Place, Played, tick_of

_PLAIN = 500_000
#: The keys of a click, a high and a low wood block, and how loud and how many ticks long it is.
_FIRST, _OTHERS, _LOUD, _LENGTH = 76, 77, 110, 40
_MOST_BEATS = 50_000


class Beat(NamedTuple):
    """A beat: its tick in the file, and whether a bar begins there."""

    tick: int
    is_first: bool


class Tune(NamedTuple):
    """Events that are heard, with the ticks of a quarter note and the tick of the end."""

    division: int
    events: list[Timed]
    end: int

    @property
    def seconds(self) -> float:
        """How long it lasts at 120 quarter notes a minute."""
        return self.end * _PLAIN / self.division / 1_000_000

    def only(self, channel: int) -> "Tune":
        """One channel alone."""
        return self._replace(events=[event for event in self.events if event[1][0] & 15 == channel])

    def clicked(self, beats: Iterable[Beat]) -> "Tune":
        """With a click on each beat that is in it."""
        clicks = [event for tick, is_first in beats if 0 <= tick < self.end for event in _click(tick, is_first)]
        return self._replace(events=sorted([*self.events, *clicks], key=lambda event: event[0]))

    def again(self, times: int) -> "Tune":
        """So many times, one after another."""
        events = [(round_ * self.end + tick, message) for round_ in range(times) for tick, message in self.events]
        return self._replace(events=sorted(events, key=lambda event: event[0]), end=times * self.end)

    def file(self, percent: int) -> bytes:
        """A MIDI file, at so many percent of the speed."""
        tempo = b"\xff\x51\x03" + round(_PLAIN * 100 / percent).to_bytes(3, "big")
        return file_of(self.division, [[(0, tempo), *self.events]], self.end)


def _click(tick: int, is_first: bool) -> Iterator[Timed]:
    key = _FIRST if is_first else _OTHERS
    yield tick, bytes([0x90 | DRUM_CHANNEL, key, _LOUD])
    yield tick + _LENGTH, bytes([0x80 | DRUM_CHANNEL, key, 0])


def tune_of(listing: Listing) -> Tune:
    """What the program's file plays."""
    return Tune(listing.division, [(event.tick, event.message) for event in listing.events if event.message[0] < 0xF0],
                listing.end)


def bar_ticks(walk: Played, meter: Meter) -> list[tuple[int, int]]:
    """Each bar with the tick at which it begins, as the program says, through all deformations."""
    return [(meter.at(written).bar, tick) for written, tick in _lines(walk, meter, False)]


def beats(walk: Played, meter: Meter, begin: int = 0) -> list[Beat]:
    """All beats, through all deformations; their ticks count from one of the file."""
    return [Beat(tick - begin, meter.at(written).beat == 1) for written, tick in _lines(walk, meter, True)]


def _lines(walk: Played, meter: Meter, with_beats: bool) -> list[tuple[int, int]]:
    """Where bars begin, or all beats, as written, each with its tick."""
    last, written, bar = walk.ended[len(walk.begun) - 1].written, list[int](), 0 if meter.upbeat else 1
    while meter.start(bar) < last and len(written) < _MOST_BEATS:
        unit = meter.whole // meter.signature(bar).unit
        begin, end = meter.start(bar), min(last, meter.start(bar + 1))
        # the beats of an upbeat are those before the first bar
        first = end - (end - begin) // unit * unit if bar == 0 else begin
        written += range(first, end, unit) if with_beats else [begin]
        bar += 1
    found = [(place, spot) for place, spot in zip(written, spots_of(walk, written)) if spot is not None]
    return list(zip([place for place, _ in found], ticks_of(walk.reading, [spot for _, spot in found])))


def phrase(walk: Played, name: str) -> tuple[Tune, int]:
    """A phrase as it is played first, alone, and the tick at which that begins: with the programs, controllers and
    bends that hold there."""
    wanted = walk.reading.phrases.get(name)
    if wanted is None:
        raise Failed(1, f"there is no phrase {name!r}; there are {', '.join(walk.reading.phrases) or 'none'}")
    places = (found for happening in walk.happenings for found in _places(happening.place))
    place = next((found for found in places if found.node is wanted), None)
    if place is None:
        raise Failed(1, f"phrase {name!r} is never played")
    own = [happening for happening in walk.happenings if place in _places(happening.place)]
    begin = min(tick_of(happening.levels, happening.position) for happening in own)
    end = max(tick_of(happening.levels, happening.position + happening.end - happening.begin) for happening in own)
    inside = {id(happening) for happening in own}
    channels = {happening.channel for happening in own}
    state: dict[tuple[int, int], bytes] = {}
    events: list[Timed] = []
    for event in sent_of(walk).events:
        message = event.message
        sender = message.happening if isinstance(message, Sent) else None
        if sender is not None and id(sender) in inside:
            events.append((event.tick - begin, bytes(message)))
        elif event.tick <= begin and message[0] >> 4 in (0xB, 0xC, 0xE) and message[0] & 15 in channels:
            state[message[0], message[1] if message[0] >> 4 == 0xB else 0] = bytes(message)
    return Tune(walk.reading.division, [*((0, message) for message in state.values()), *events], end - begin), begin


def _places(place: Optional[Place]) -> Iterator[Place]:
    """A place and those round it."""
    while place is not None:
        yield place
        place = place.outer
