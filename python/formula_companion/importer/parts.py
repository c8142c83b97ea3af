"""The parts of a MIDI file: of each track and channel its notes, each with its end, and its messages."""

from __future__ import annotations

from bisect import bisect_right
from collections import Counter, defaultdict, deque
from dataclasses import dataclass, field
from typing import NamedTuple

from formula_score.making.midi import INSTRUMENTS
from formula_score.reading.playing import Listing

_METAS = {
    0x00: "sequence number", 0x01: "text", 0x02: "copyright", 0x03: "name", 0x04: "name of an instrument",
    0x05: "lyric", 0x06: "marker", 0x07: "cue", 0x08: "name of a program", 0x09: "name of a device",
    0x20: "channel prefix", 0x21: "port", 0x51: "tempo", 0x54: "SMPTE offset", 0x58: "time signature",
    0x59: "key signature", 0x7F: "meta event of a sequencer",
}
_COMPOSER = "composer:"


class Note(NamedTuple):
    """A note with the places of its note-on and its note-off among the events of its track."""

    key: int
    velocity: int
    begin: int
    end: int
    on: int
    off: int


class Message(NamedTuple):
    """A control change, program change or pitch bend, with its place among the events of its track."""

    tick: int
    place: int
    status: int
    data: bytes


class Meter(NamedTuple):
    """A time signature, from its tick on: so many parts of a whole note a bar."""

    tick: int
    over: int
    under: int


@dataclass
class Part:
    """What one track has on one channel."""

    track: int
    channel: int
    name: str
    instrument: str = ""
    notes: list[Note] = field(default_factory=list)
    messages: list[Message] = field(default_factory=list)


@dataclass
class Piece:
    """What a file has, for a score: its parts, meters and tempos, and how many things it has that no score has."""

    division: int
    end: int
    #: how many times as long as in the file each length is written
    longer: int = 1
    #: whether a note that never ends is ended where its key is struck again, and not with the file
    is_cut: bool = False
    title: str = ""
    composer: str = ""
    parts: list[Part] = field(default_factory=list)
    meters: list[Meter] = field(default_factory=list)
    tempos: list[tuple[int, int]] = field(default_factory=list)
    #: the sharps of its key signatures; flats are below 0
    signatures: list[int] = field(default_factory=list)
    left_out: Counter[str] = field(default_factory=Counter)
    #: note-offs that end no note, as (tick, status, key); and channels and keys of notes that never end
    idle: set[tuple[int, int, bytes]] = field(default_factory=set)
    endless: set[tuple[int, int]] = field(default_factory=set)


def piece_of(listing: Listing, longer: int = 1, is_cut: bool = False) -> Piece:
    """The piece of a file, with each length written so many times as long."""
    tracks = defaultdict(list)
    for event in listing.events:
        tracks[event.track].append((event.tick, event.message))
    piece = Piece(listing.division, listing.end, longer, is_cut)
    for number in sorted(tracks):
        name = _add_track(piece, number, tracks[number])
        if listing.format == 0 or number == 0:
            piece.title = piece.title or name
    _name(piece.parts)
    piece.meters.sort()
    piece.tempos.sort()
    return piece


def _name(parts: list[Part]) -> None:
    """Gives parts the instruments of their first programs; a name that several parts have is none."""
    names = Counter(part.name for part in parts if part.notes)
    programs: dict[int, int] = {}
    for part in parts:
        own = next((message.data[0] for message in part.messages if message.status >> 4 == 0xC), None)
        if own is not None:
            programs.setdefault(part.channel, own)
        own = programs.get(part.channel) if own is None else own
        part.instrument = "" if own is None else INSTRUMENTS[own]
        part.name = "" if names[part.name] > 1 else part.name


def _text(data: bytes) -> str:
    """The text of a meta event, on one line and of plain characters."""
    start = 2
    while data[start] & 0x80:
        start += 1
    plain = data[start + 1:].decode("latin-1")
    return " ".join("".join(sign if " " <= sign <= "~" else " " for sign in plain).split())


def _add_track(piece: Piece, number: int, events: list[tuple[int, bytes]]) -> str:
    """Adds what a track has; gives its name."""
    parts: dict[int, Part] = {}
    open_notes: dict[tuple[int, int], deque[tuple[int, int, int]]] = defaultdict(deque)
    name, left = "", piece.left_out
    for place, (tick, data) in enumerate(events):
        kind, channel = data[0] >> 4, data[0] & 15
        if data[0] >= 0xF0:
            name = name or (_text(data) if data[:2] == b"\xff\x03" else "")
            _meta(piece, tick, data)
            continue
        part = parts.setdefault(channel, Part(number, channel, ""))
        if kind == 9 and data[2] > 0:
            open_notes[channel, data[1]].append((tick, data[2], place))
        elif kind in (8, 9):
            waiting = open_notes[channel, data[1]]
            if waiting:
                begin, velocity, on = waiting.popleft()
                part.notes.append(Note(data[1], velocity, begin, tick, on, place))
                left["release velocity other than 64"] += kind == 8 and data[2] != 64
            else:
                left["note-off without a note"] += 1
                piece.idle.add((tick, 0x80 | channel, data[1:2]))
        elif kind in (0xA, 0xD):
            left["key pressure" if kind == 0xA else "channel pressure"] += 1
        else:
            part.messages.append(Message(tick, place, data[0], data[1:]))
    for (channel, key), waiting in open_notes.items():
        _end(piece, parts[channel], key, list(waiting), len(events))
    for part in parts.values():
        part.name = name
        part.notes.sort(key=lambda note: note.on)
    piece.parts += [part for part in parts.values() if part.notes or part.messages]
    return name


def _end(piece: Piece, part: Part, key: int, waiting: list[tuple[int, int, int]], last: int) -> None:
    """Ends the notes of a key that never end."""
    begins = [begin for begin, _, _ in waiting]
    for begin, velocity, on in waiting:
        piece.left_out["note without an end"] += 1
        piece.endless.add((part.channel, key))
        at = bisect_right(begins, begin) if piece.is_cut else len(begins)
        end, _, off = waiting[at] if at < len(begins) else (piece.end, 0, last)
        part.notes.append(Note(key, velocity, begin, end, on, off))


def _meta(piece: Piece, tick: int, data: bytes) -> None:
    """What a meta or sysex event says of the whole; what no score has is counted."""
    if data[0] != 0xFF:
        piece.left_out["system exclusive message"] += 1
    elif data[1] == 0x58 and len(data) >= 5 and data[4] <= 6 and data[3] > 0:
        piece.meters.append(Meter(tick, data[3], 2 ** data[4]))
    elif data[1] == 0x51 and len(data) == 6:
        piece.tempos.append((tick, int.from_bytes(data[3:6], "big")))
    elif data[1] == 0x59 and len(data) == 5 and (data[3] + 7) % 256 <= 14:
        piece.signatures.append((data[3] + 7) % 256 - 7)
    elif data[1] == 0x01 and _text(data).lower().startswith(_COMPOSER):
        piece.composer = _text(data)[len(_COMPOSER):].strip()
    elif data[1] not in (0x2F, 0x03) and data[:3] != b"\xff\x01\x00":
        piece.left_out[_METAS.get(data[1], "other meta event")] += 1
