"""What a score or a file is in a few lines: its events, its length in bars and seconds, its processes, its keys by
channel."""

from __future__ import annotations

from typing import Any, Iterator, NamedTuple, Optional

from ..making.pitch import Pitch
from ..reading.meter import Meter
from ..reading.notes import is_on
from ..reading.playing import Listing, counted
from ..reading.sending import sent_of
from ..reading.tempos import tempos_of
from ..reading.walk import Played


class Range(NamedTuple):
    """The notes of a channel: how many, the lowest key and the highest one."""

    notes: int
    low: int
    high: int


class Summary(NamedTuple):
    """Of a file `processes` is None; `bars` says how long it is in bars."""

    events: int
    bars: str
    seconds: float
    processes: Optional[int]
    channels: dict[int, Range]

    def lines(self) -> Iterator[str]:
        """The summary for a person."""
        voices = "" if self.processes is None else f", {counted(self.processes, 'process')}"
        yield f"{counted(self.events, 'event')}, {self.bars}, {self.seconds:,.1f} seconds{voices}"
        for channel, (notes, low, high) in sorted(self.channels.items()):
            yield f"channel {channel}: {counted(notes, 'note')}, {Pitch(low)} to {Pitch(high)}"

    def value(self) -> dict[str, Any]:
        """The summary for a program."""
        channels = {str(channel): keys._asdict() for channel, keys in sorted(self.channels.items())}
        return {**self._asdict(), "channels": channels}


def of_score(walk: Played, meter: Meter) -> Summary:
    """Of a score."""
    last = len(walk.begun) - 1
    listing = sent_of(walk)
    return _summary(listing, meter.lasts(0, walk.ended[last].written), len(walk.begun))


def of_file(listing: Listing, meter: Optional[Meter]) -> Summary:
    """Of a file; without a meter nobody counts its bars."""
    return _summary(listing, meter.lasts(0, listing.end) if meter else "no meter", None)


def _summary(listing: Listing, bars: str, processes: Optional[int]) -> Summary:
    keys: dict[int, list[int]] = {}
    events = [event for event in listing.events if event.message[0] < 0xF0]
    for event in events:
        if is_on(event):
            keys.setdefault(event.message[0] & 15, []).append(event.message[1])
    channels = {channel: Range(len(own), min(own), max(own)) for channel, own in keys.items()}
    seconds = tempos_of(listing).seconds(listing.end) if listing.division else 0.0
    return Summary(len(events), bars, seconds, processes, channels)
