"""Standard MIDI Files that the companion writes. Each says in its first text that the companion made it."""

from __future__ import annotations

from typing import Sequence

from ..running.outs import WRITE, WRITE_LINE, put
from .playing import Failed

#: An event of a track: its tick and its bytes.
Timed = tuple[int, bytes]

MADE_BY = b"made by formula-score, outside the proof of formula"
TEMPO = bytes.fromhex("FF510307A120")
_END = bytes.fromhex("FF2F00")
_FURTHEST = 0x0FFFFFFF


def quantity(number: int) -> bytes:
    """A variable-length quantity."""
    groups = [number % 128]
    while number := number // 128:
        groups.append(number % 128 + 128)
    return bytes(reversed(groups))


def text(kind: int, words: bytes) -> bytes:
    """A text event: 1 is a text, 3 the name of a track."""
    return bytes([0xFF, kind]) + quantity(len(words)) + words


def track(events: Sequence[Timed], end: int) -> bytes:
    """A track chunk of events in their order, with End of Track at a tick."""
    body, last = bytearray(), 0
    for tick, message in [*events, (end, _END)]:
        while tick - last > _FURTHEST:
            body += quantity(_FURTHEST) + text(1, b"")
            last += _FURTHEST
        body += quantity(tick - last) + message
        last = tick
    return b"MTrk" + len(body).to_bytes(4, "big") + bytes(body)


def file_of(division: int, tracks: Sequence[Sequence[Timed]], end: int) -> bytes:
    """A file, of format 0 where it has one track; the first track begins with who made it."""
    first, *others = tracks
    chunks = [track([(0, text(1, MADE_BY)), *first], end), *(track(events, end) for events in others)]
    head = [int(len(tracks) > 1), len(tracks), division]
    return b"MThd" + (6).to_bytes(4, "big") + b"".join(number.to_bytes(2, "big") for number in head) + b"".join(chunks)


def save(path: str, data: bytes) -> None:
    """Writes a file, which is the old one until it is the whole new one."""
    try:
        put(path, data)
    except OSError as error:
        raise Failed(WRITE, f"{path!r} cannot be written: {error.strerror}", WRITE_LINE) from error
