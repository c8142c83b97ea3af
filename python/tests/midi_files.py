"""Standard MIDI Files for the tests, made of events; as the standard has them, and apart from the library."""

from __future__ import annotations

from typing import Iterable

from .test_random import quantity

Event = tuple[int, bytes]


def meta(kind: int, data: bytes) -> bytes:
    """A meta event."""
    return bytes([0xFF, kind]) + quantity(len(data)) + data


def track(events: Iterable[Event], end: int) -> bytes:
    """A track of events in their order, with its end."""
    body, last = b"", 0
    for tick, message in events:
        body += quantity(tick - last) + message
        last = tick
    body += quantity(end - last) + meta(0x2F, b"")
    return b"MTrk" + len(body).to_bytes(4, "big") + body


def midi(division: int, tracks: list[bytes]) -> bytes:
    """A file: of format 0 where it has one track."""
    head = [0 if len(tracks) == 1 else 1, len(tracks), division]
    return b"MThd" + (6).to_bytes(4, "big") + b"".join(number.to_bytes(2, "big") for number in head) + b"".join(tracks)


def notes(channel: int, *found: tuple[int, int, int, int]) -> list[Event]:
    """Notes as (begin, end, key, velocity): their note-ons and note-offs, at one tick the note-offs first."""
    events = [(begin, 1, bytes([0x90 | channel, key, velocity])) for begin, _, key, velocity in found]
    events += [(end, 0 if end > begin else 2, bytes([0x80 | channel, key, 64])) for begin, end, key, _ in found]
    return [(tick, message) for tick, _, message in sorted(events, key=lambda event: event[:2])]
