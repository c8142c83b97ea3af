#!/usr/bin/env python3
"""Reads a Standard MIDI File and says what the options of the command make of it.

    file_model.py list FILE          the listing, or 'byte P fault N'
    file_model.py parts FILE         the file of format 1 of a file that the command wrote, in hexadecimal
    file_model.py excerpt FILE A B   its excerpt from tick A to before tick B ('-' for no B), in hexadecimal

It is a program apart from the command: it goes over the bytes once and judges each where it stands.
"""
import sys
from collections import namedtuple

MOST_BYTES = 33_554_432
MOST_DELTA = 0x0FFFFFFF
LAST_TICK = 1 << 40
FILLER = bytes.fromhex("FF0100")
TEMPO = bytes.fromhex("FF510307A120")
END = bytes.fromhex("FF2F00")

Entry = namedtuple("Entry", "tick bytes")  # the bytes with their status
File = namedtuple("File", "format division tracks")


class Fault(Exception):
    """The first fault of some bytes that are no file."""

    def __init__(self, place, number):
        super().__init__(f"byte {place} fault {number}")
        self.place, self.number = place, number


# ---- reading

def number(data, at, count):
    return int.from_bytes(data[at:at + count], "big")


def read(data):
    if len(data) > MOST_BYTES:
        raise Fault(0, 35)
    if data[:4] != b"MThd":
        raise Fault(0, 21 if data[:4] == b"RIFF" else 22)
    size = len(data)
    if size < 8:
        raise Fault(size, 23)
    length = number(data, 4, 4)
    if length < 6:
        raise Fault(4, 24)
    if size >= 10 and number(data, 8, 2) >= 2:
        raise Fault(8, 25 if number(data, 8, 2) == 2 else 26)
    if size >= 14 and data[12] >= 128:
        raise Fault(12, 27)
    at, tracks = 8 + length, []
    if at > size:
        raise Fault(size, 23)
    while at < size:
        if size - at < 8:
            raise Fault(size, 23)
        end = at + 8 + number(data, at + 4, 4)
        if data[at:at + 4] == b"MTrk":
            tracks.append(track(data, at + 8, min(end, size), end > size))
        if end > size:
            raise Fault(size, 23)
        at = end
    if not tracks:
        raise Fault(size, 34)
    return File(number(data, 8, 2), number(data, 12, 2), tracks)


def track(data, at, end, cut):
    """The entries of a body; of one that is cut only the faults before its end count."""
    entries, tick, running = [], 0, None

    def byte(at):
        if at >= end:
            raise Fault(end, 23)
        return data[at]

    def quantity(at):
        value = 0
        for taken in range(4):
            value = value * 128 + byte(at + taken) % 128
            if data[at + taken] < 128:
                return value, at + taken + 1
        raise Fault(at + 3, 28)

    def text(at):
        length, at = quantity(at)
        if at + length > end:
            raise Fault(end, 23)
        return at + length

    while at < end:
        delta, at = quantity(at)
        tick += delta
        begun, first = at, byte(at)
        if first == 0xFF:
            if byte(at + 1) >= 128:
                raise Fault(at + 1, 30)
            at, running = text(at + 2), None
        elif first in (0xF0, 0xF7):
            at, running = text(at + 1), None
        elif first > 0xF0:
            raise Fault(at, 29)
        else:
            if first >= 128:
                running, at = first, at + 1
            elif running is None:
                raise Fault(at, 31)
            for _ in range(1 if running // 16 in (0xC, 0xD) else 2):
                if byte(at) >= 128:
                    raise Fault(at, 30)
                at += 1
        front = bytes([running]) if first < 128 else b""
        entries.append(Entry(tick, front + data[begun:at]))
        if first == 0xFF and data[begun + 1] == 0x2F:
            if at < end:
                raise Fault(at, 33)
            return entries
    raise Fault(end, 23 if cut else 32)


# ---- what is made

def listing(file):
    lines = [f"format {file.format} tracks {len(file.tracks)} division {file.division}"]
    for place, entries in enumerate(file.tracks):
        lines += [f"{place} {entry.tick} {entry.bytes.hex(' ').upper()}" for entry in entries]
    return "".join(line + "\n" for line in lines).encode()


def events(file):
    """Of a file that the command wrote: its events as (tick, message), and its end."""
    first, *others, last = file.tracks[0]
    assert first == Entry(0, TEMPO) and last.bytes == END and file.format == 0
    return [(entry.tick, entry.bytes) for entry in others if entry.bytes != FILLER], last.tick


def quantity(value):
    out = [value % 128]
    while value := value // 128:
        out.insert(0, 128 + value % 128)
    return bytes(out)


def delta(value):
    """A distance, with the fillers before it."""
    fillers = max(0, -(-value // MOST_DELTA) - 1)
    return fillers * (quantity(MOST_DELTA) + FILLER) + quantity(value - fillers * MOST_DELTA)


def chunk(kind, body):
    return kind + len(body).to_bytes(4, "big") + body


def header(form, tracks, division):
    return chunk(b"MThd", b"".join(number.to_bytes(2, "big") for number in (form, tracks, division)))


def parts(division, found, end):
    """The file of format 1: the tempo alone, then a track for each channel that has an event."""
    tracks = [b"\0" + TEMPO + delta(end) + END]
    for channel in range(16):
        body, last = b"", 0
        for tick, message in found:
            if message[0] % 16 == channel:
                body += delta(tick - last) + message
                last = tick
        if body:
            tracks.append(body + delta(end - last) + END)
    return header(1, len(tracks), division) + b"".join(chunk(b"MTrk", body) for body in tracks)


def written(division, running, found, end):
    """The file of format 0, with running status where it is asked for."""
    body, last, before = b"\0" + TEMPO, 0, None
    for tick, message in found:
        distance = delta(tick - last)
        again = running and message[0] == before and FILLER not in distance
        body += distance + (message[1:] if again else message)
        last, before = tick, message[0]
    return header(0, 1, division) + chunk(b"MTrk", body + delta(end - last) + END)


def excerpt(found, end, begin, until):
    """The events of an excerpt with their new ticks, and its end."""
    limit = None if until is None else max(begin, until)
    first, last = min(begin, end), end if limit is None else min(limit, end)
    state = {}
    for tick, message in found:
        kind = message[0] // 16
        if tick < begin and kind in (0xB, 0xC, 0xE):
            place = {0xC: 0, 0xB: 1, 0xE: 2}[kind], message[1] if kind == 0xB else 0
            state[message[0] % 16, *place] = message
    events = [(0, state[place]) for place in sorted(state)]
    sounding = {}
    for tick, message in found:
        if tick < begin or limit is not None and tick >= limit:
            continue
        kind, note = message[0] // 16, (message[0] % 16, message[1])
        if kind == 8:
            if sounding.get(note, 0) == 0:
                continue
            sounding[note] -= 1
        elif kind == 9:
            sounding[note] = sounding.get(note, 0) + 1
        events.append((tick - first, message))
    for channel, key in sorted(sounding):
        events += sounding[channel, key] * [(last - first, bytes([0x80 + channel, key, 0x40]))]
    return events, last - first


def main(words):
    what, name, *more = words
    with open(name, "rb") as source:
        data = source.read()
    try:
        file = read(data)
    except Fault as fault:
        print(fault)
        return 1
    if what == "list":
        sys.stdout.buffer.write(listing(file))
    elif what == "excerpt":
        begin, until = int(more[0]), None if more[1] == "-" else int(more[1])
        print(written(file.division, False, *excerpt(*events(file), begin, until)).hex())
    else:
        print(parts(file.division, *events(file)).hex())
    return 0


if __name__ == "__main__":
    sys.exit(main(sys.argv[1:]))
