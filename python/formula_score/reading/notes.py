"""The notes of a listing: each note-on with the note-off that ends it."""

from __future__ import annotations

from collections import defaultdict, deque
from typing import NamedTuple, Optional

from .playing import Event, Listing


class Sounding(NamedTuple):
    """An event, and of a note-on the tick at which it ends, if it does."""

    event: Event
    end: Optional[int]


def is_on(event: Event) -> bool:
    """Whether it is a note-on; one of velocity 0 is an off."""
    return event.message[0] >> 4 == 9 and event.message[2] > 0


def is_off(event: Event) -> bool:
    """Whether it is a note-off."""
    return event.message[0] >> 4 in (8, 9) and not is_on(event)


def paired(listing: Listing) -> list[Sounding]:
    """All events in their order; a note-off that ends a note, the first of its channel and key that still sounds, is
    left out."""
    sounding: dict[tuple[int, int], deque[int]] = defaultdict(deque)
    ends: dict[int, int] = {}
    used: set[int] = set()
    for at in sorted(range(len(listing.events)), key=lambda at: listing.events[at].tick):
        event = listing.events[at]
        if not (is_on(event) or is_off(event)):
            continue
        begun = sounding[event.message[0] & 15, event.message[1]]
        if is_on(event):
            begun.append(at)
        elif begun:
            ends[begun.popleft()] = event.tick
            used.add(at)
    return [Sounding(event, ends.get(at)) for at, event in enumerate(listing.events) if at not in used]
