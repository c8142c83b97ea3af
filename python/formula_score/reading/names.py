"""What the events of a MIDI file are called: notes, programs, controllers, texts, tempos and signatures."""

from __future__ import annotations

from ..making.midi import DRUM_CHANNEL, DRUMS, INSTRUMENTS
from ..making.pitch import Pitch

#: The controllers that have a name in MIDI 1.0 and General MIDI, below 120 and from there on.
CONTROLLERS = {
    0: "bank", 1: "modulation", 2: "breath", 4: "foot", 5: "portamento time", 6: "data entry", 7: "volume",
    8: "balance", 10: "panorama", 11: "expression", 12: "effect 1", 13: "effect 2", 32: "bank, fine",
    33: "modulation, fine", 38: "data entry, fine", 39: "volume, fine", 42: "panorama, fine", 43: "expression, fine",
    64: "pedal", 65: "portamento", 66: "sostenuto", 67: "soft pedal", 68: "legato", 69: "hold 2", 70: "sound variation",
    71: "resonance", 72: "release time", 73: "attack time", 74: "brightness", 84: "portamento from", 91: "reverb",
    92: "tremolo", 93: "chorus", 94: "detune", 95: "phaser", 96: "data up", 97: "data down",
    98: "unregistered parameter, fine", 99: "unregistered parameter", 100: "registered parameter, fine",
    101: "registered parameter", 120: "all sound off", 121: "reset controllers", 122: "local control",
    123: "all notes off", 124: "omni off", 125: "omni on", 126: "mono", 127: "poly",
}
#: The controllers that are off below 64 and on from there.
SWITCHES = (64, 65, 66, 67, 68, 69)

_DRUM_NAMES = {int(key): name for name, key in DRUMS.items()}
_TEXTS = {1: "text", 2: "copyright", 3: "name", 4: "instrument", 5: "lyric", 6: "marker", 7: "cue"}
_MAJORS = "c flat, g flat, d flat, a flat, e flat, b flat, f, c, g, d, a, e, b, f sharp, c sharp".split(", ")
_MINORS = "a flat, e flat, b flat, f, c, g, d, a, e, b, f sharp, c sharp, g sharp, d sharp, a sharp".split(", ")
_BYTES_SHOWN = 16


def plain(data: bytes) -> str:
    """A text of a file, with an escape in place of what a terminal might obey."""
    try:
        words = data.decode("utf-8")
    except UnicodeDecodeError:
        words = data.decode("latin-1")
    return "".join(sign if sign.isprintable() else ascii(sign)[1:-1] for sign in words)


def note(channel: int, key: int) -> str:
    """The name of a key as scores write it, and on the channel of drums what it strikes."""
    drum = _DRUM_NAMES.get(key) if channel == DRUM_CHANNEL else None
    return f"{Pitch(key)} ({drum})" if drum else str(Pitch(key))


def _digits(data: bytes) -> str:
    return data[:_BYTES_SHOWN].hex(" ").upper() + (" .." if len(data) > _BYTES_SHOWN else "")


def _content(message: bytes, at: int) -> bytes:
    """What stands behind the length of an event, which begins at a byte of it."""
    while at < len(message) and message[at] >= 128:
        at += 1
    return message[at + 1:]


def meta(message: bytes) -> str:
    """What a meta event says."""
    kind, content = message[1], _content(message, 2)
    if kind in _TEXTS:
        return f"{_TEXTS[kind]}: {plain(content)}"
    if kind == 0x2F:
        return "end of track"
    if kind == 0x51 and len(content) == 3:
        micros = max(1, int.from_bytes(content, "big"))
        return f"tempo {round(60_000_000 / micros, 2):g} quarter notes a minute"
    if kind == 0x58 and len(content) == 4:
        return f"meter {content[0]}/{2 ** content[1]}"
    if kind == 0x59 and len(content) == 2 and content[1] < 2:
        sharps = int.from_bytes(content[:1], "big", signed=True)
        if -7 <= sharps <= 7:
            return f"key {(_MINORS if content[1] else _MAJORS)[sharps + 7]} {'minor' if content[1] else 'major'}"
    if kind == 0x20 and len(content) == 1:
        return f"what follows is for channel {content[0]}"
    if kind == 0x21 and len(content) == 1:
        return f"port {content[0]}"
    return f"meta event {kind:02X}: {_digits(content)}".rstrip(": ")


def control(number: int, value: int) -> str:
    """A control change."""
    name = f"control {number}" + (f" ({CONTROLLERS[number]})" if number in CONTROLLERS else "")
    state = f" ({'on' if value >= 64 else 'off'})" if number in SWITCHES else ""
    return f"{name} {value}{state}"


def message(data: bytes) -> str:
    """What an event says that is no note."""
    status = data[0]
    if status == 0xFF:
        return meta(data)
    if status >= 0xF0:
        return f"system exclusive: {_digits(_content(data, 1))}"
    kind, first = status >> 4, data[1]
    if kind == 0xB:
        return control(first, data[2])
    if kind == 0xC:
        return f"program {first} ({INSTRUMENTS[first]})"
    if kind == 0xE:
        return f"bend {first + 128 * data[2] - 8192}"
    if kind == 0xD:
        return f"pressure {first}"
    return f"pressure {data[2]} on {note(status & 15, first)}"
