"""What may be written at a place of a text: what the grammar takes there, and the names of the text."""

from __future__ import annotations

import re
from typing import Callable, Iterable, Iterator, NamedTuple

from formula_score.language.index import INDEX
from formula_score.language.tokens import PITCH
from formula_score.making.midi import DYNAMICS, INSTRUMENTS
from formula_score.reading.names import CONTROLLERS
from formula_score.repair.spot import Spot
from .names import uses
from .reference import SAYS, form_of
from .short_notes import written

_LENGTHS = ("1/1", "1/2", "1/4", "1/8", "1/16", "1/32", "3/4", "3/8", "3/16", "1/6", "1/12")
_OCTAVE = tuple(f"{name}4" for name in "c cs d eb e f fs g ab a bb b".split())
_WORD = re.compile(rb"[a-z0-9_]*\Z")


class Item(NamedTuple):
    """Something to write: what is shown and looked for, what is written, and what it means."""

    label: str
    text: str
    detail: str


class Completion(NamedTuple):
    """What may be in place of the bytes from `start` to `end`."""

    start: int
    end: int
    items: list[Item]


def completed(data: bytes, byte: int) -> Completion:
    """What may be written at a byte, where a word may have been begun; those first that begin as it does."""
    notes = written(data, data.rfind(b"\n", 0, byte) + 1)
    if notes is not None and notes.new and data.find(b"#", data.rfind(b"\n", 0, byte) + 1, byte) >= 0:
        return Completion(notes.end, notes.end, [Item("write the notes", notes.new, " ".join(notes.new.split()))])
    found = _WORD.search(data, max(0, byte - 60), byte)
    start = found.start() if found else byte
    begun = data[start:byte].decode("ascii")
    spot = Spot(data, start)
    items = _items(spot, begun) if spot.stack else _anything(data)
    seen: dict[str, Item] = {}
    for item in items:
        if item.label.startswith(begun):
            seen.setdefault(item.label, item)
    return Completion(start, byte, list(seen.values()))


def _word(word: str) -> Item:
    return Item(word, word, f"{form_of(word)}  {SAYS[word]}")


def _items(spot: Spot, begun: str) -> Iterator[Item]:
    """What the grammar takes at a place, kind by kind."""
    for kind, place in spot.expected.items():
        if kind in SAYS and (kind != "division" or spot.text(spot.index - 2).strip("0") == "2"):
            yield _word(kind)
        elif kind in _BY_KIND:
            yield from _BY_KIND[kind](spot, place)
    if "note" in spot.expected and len(begun) > 1:
        yield from _musical(spot)


def _anything(data: bytes) -> Iterator[Item]:
    """All words and names, where a fault is before the place and nothing is known of it."""
    yield from map(_word, SAYS)
    for use in uses(data):
        yield Item(use.name, use.name, use.kind)


def _musical(spot: Spot) -> Iterator[Item]:
    for line in INDEX:
        if not spot.around.blocks or not re.search(r"\b(shape|phrase)\b", line.write):
            for word in [*line.words.split(", "), *line.also.split()]:
                yield Item(word, line.write, line.note.replace("*", "") or line.words)


def _names(spot: Spot, place: str) -> Iterator[Item]:
    wanted = "shape" if spot.word == "warp" else "phrase"
    for use in uses(spot.data) if place == "name" else ():
        if use.defines and use.kind == wanted and use.start < spot.place:
            yield Item(use.name, use.name, wanted)


def _pitches(spot: Spot, _: str) -> Iterator[Item]:
    near = [token.text for token in reversed(spot.line.lexemes[:spot.index]) if token.kind == PITCH][:24]
    for name in [*dict.fromkeys(near), *_OCTAVE]:
        yield Item(name, name, "pitch")


def _numbers(spot: Spot, place: str) -> Iterator[Item]:
    """Lengths, and the numbers that have names: instruments, controllers, velocities."""
    if place == "length":
        for length in _LENGTHS:
            yield Item(length, length, "length")
    elif spot.word == "program":
        yield from _named(enumerate(INSTRUMENTS), "program")
    elif place == "controller":
        yield from _named(CONTROLLERS.items(), "control")
    elif spot.word == "volume" and place == "setting":
        yield from _named(((velocity, name) for name, velocity in DYNAMICS.items()), "velocity")
    elif place == "version":
        yield Item("1", "1", "480 ticks a quarter note")
        yield Item("2", "2", "running status, and `division N;`")


def _named(numbers: Iterable[tuple[int, str]], what: str) -> Iterator[Item]:
    for number, name in numbers:
        yield Item(f"{number} {name}", str(number), name)
        yield Item(name, str(number), f"{what} {number}")


def _registers(_: Spot, __: str) -> Iterator[Item]:
    for number in range(8):
        yield Item(f"r{number}", f"r{number}", "register")


def _indices(_: Spot, __: str) -> Iterator[Item]:
    for number in range(3):
        yield Item(f"n{number}", f"n{number}", "round of a loop")


_BY_KIND: dict[str, Callable[[Spot, str], Iterator[Item]]] = {
    "NAME": _names, "PITCH": _pitches, "NUMBER": _numbers, "REGISTER": _registers, "INDEX": _indices,
}
