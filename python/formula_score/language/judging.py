"""Where the first fault of a text, or of a part of it, is, as far as tokens, grammar, numbers and names say.

The program judges texts. This tries what a text becomes when it is changed, and serves where there is no program.
"""

from __future__ import annotations

from typing import NamedTuple, Optional

from .grammar import SCORE, Stack
from .ranges import DEEPEST, ENTRIES, MILLION, PITCHES, TOO_HIGH, range_at, whole_ticks
from .tokens import END, NAME, NUMBER, OTHER, PITCH, tokens

_SPOILT = frozenset("abcdefghijklmnopqrstuvwxyz_")
#: Where the items of a statement are that are counted: the place of each, and how many there may be.
_COUNTED = {"note": (("pitch",), PITCHES), "play": (("pitch",), PITCHES), "artic": (("entry",), ENTRIES),
            "loud": (("entry",), ENTRIES), "rhythm": (("length", "ticks"), ENTRIES),
            "shape": (("length", "ticks"), ENTRIES)}


class Fault(NamedTuple):
    """The number of a fault, and its byte."""

    number: int
    place: int


class Judge:
    """Reads tokens by the grammar, and notes the faults of numbers and names on its way."""

    def __init__(self, source: str, stack: Stack = SCORE, whole: int = 1920, names: Optional[dict[str, str]] = None):
        self.source, self.stack, self.whole = source, stack, whole
        self.names = names                  # `phrase` or `shape` by each name above; None where names are not judged
        self.noted: list[Fault] = []
        self.depth = self.count = self.begun = 0
        self.head = self.part = self.phrase = ""
        self.minus = self.over = -1         # where a `-` of an amount is, and where the first number of a length
        self.version = 1

    def first(self, start: int = 0, stop: Optional[int] = None) -> Optional[Fault]:
        """The first fault from a place on and before another; without that to the end of the text."""
        stack: Optional[Stack] = self.stack
        source, last = self.source, len(self.source) + 1 if stop is None else stop
        for kind, text, place in tokens(source, start):
            if place >= last or stack is None:
                break
            if kind == OTHER:
                return Fault(1, place)
            if kind == NUMBER and (len(text) > 9 or source[place + len(text):place + len(text) + 1] in _SPOILT):
                return Fault(2, place)
            if kind == NAME and text == "division" and self.version == 2 and stack.taken("division"):
                kind = "division"
            found = stack.taken(kind)
            if found is None:
                return Fault(3, place)
            where, stack = found
            if where == "statement":
                if kind not in ("}", END):
                    self.head, self.count, self.begun = text, 0, place
            elif kind == "{":
                self.depth += 1
                if self.depth > DEEPEST:
                    return Fault(4, self.begun)
            else:
                self._look(kind, text, place, where)
            if kind == "}":
                self._closed()
        return min(self.noted, key=lambda fault: fault.place) if self.noted else None

    def _look(self, kind: str, text: str, place: int, where: str) -> None:
        """Notes what a number, name or pitch is, and its fault."""
        if kind == NUMBER:
            self._number(int(text), place, where)
        elif kind == NAME:
            self._name(text, place, where)
        elif kind == "-" and where in ("key", "amount"):
            self.minus = place
        elif where == "part":
            self.part = text
        elif where == "pitch":
            self._counts(place, where)
            if kind == PITCH and text in TOO_HIGH:
                self.noted.append(Fault(7, place))

    def _counts(self, place: int, where: str) -> None:
        places, most = _COUNTED.get(self.head, ((), 0))
        if where in places:
            self.count += 1
            if self.count > most:
                self.noted.append(Fault(7, place))

    def _number(self, value: int, place: int, where: str) -> None:
        if where != "pitch":
            self._counts(place, where)
        if where == "length":
            self.over = place
        elif where == "under":
            self._length(value)
        else:
            found, at = range_at(where, self.head), place
            if self.minus >= 0 and where in ("key", "amount"):
                value, at = -value, self.minus
            self.minus = -1
            is_empty = value == 0 and where == "ticks" and self.head == "shape" and self.part in ("flat", "slope")
            if found and not found.low <= value <= found.high or is_empty:
                self.noted.append(Fault(7, at))
            if where == "version":
                self.version = value
            elif where == "division":
                self.whole = 4 * value

    def _length(self, under: int) -> None:
        over = int(next(tokens(self.source, self.over)).text)
        ticks = whole_ticks(over, under, self.whole)
        if ticks is None:
            self.noted.append(Fault(8 if under else 7, self.over))
        elif ticks > MILLION or ticks == 0 and self.head == "shape" and self.part in ("flat", "slope"):
            self.noted.append(Fault(7, self.over))

    def _name(self, name: str, place: int, where: str) -> None:
        if self.names is None:
            return
        if where == "new":
            if name in self.names:
                self.noted.append(Fault(5, place))
            elif self.head == "shape":
                self.names[name] = "shape"
            else:
                self.phrase = name
        elif self.names.get(name) != ("phrase" if self.head == "do" else "shape"):
            self.noted.append(Fault(6, place))

    def _closed(self) -> None:
        """A phrase is known behind its block."""
        self.depth -= 1
        if self.depth == 0 and self.phrase and self.names is not None:
            self.names.setdefault(self.phrase, "phrase")
            self.phrase = ""


def first_fault(source: str) -> Optional[Fault]:
    """The first fault of a whole text, a character a byte; None where it has none of the first eight."""
    return Judge(source, names={}).first()
