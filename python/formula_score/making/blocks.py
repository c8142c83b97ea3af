"""Music that changes what it holds: blocks with numbers, warps and phrases."""

from __future__ import annotations

import re
from dataclasses import dataclass, replace
from fractions import Fraction
from typing import SupportsIndex

from ..language.grammar import KEYWORDS
from . import origins
from .errors import ScoreError
from .midi import DRUM_CHANNEL
from .nesting import Nesting
from .nodes import MAX_ENTRIES, Held, Music, first_of_all, index_of, several
from .shapes import Curve, Part, Shape
from .values import known, listed, shown, text, whole

#: Of each word of a block how many numbers it has at most, and their range.
BLOCKS = {"channel": (1, 0, 15), "volume": (1, 1, 127), "gate": (1, 0, 400), "loud": (MAX_ENTRIES, 1, 127),
          "artic": (MAX_ENTRIES, 0, 400)}


@dataclass(frozen=True)
class Block(Held):
    """`channel`, `volume` or `gate` with a number, `loud` or `artic` with a list of up to 256, for its `body`.

    `word` says which, `values` are the numbers: a channel is 0 to 15, a velocity (`volume`, `loud`) 1 to 127, and
    `gate` and `artic` are percent of a note's length, 0 to 400.
    """

    word: str
    values: tuple[int, ...]
    body: tuple[Music, ...]

    def __post_init__(self) -> None:
        word = known("block", self.word, BLOCKS)
        most, low, high = BLOCKS[word]
        what = {"channel": "a channel", "volume": "a velocity", "loud": "a velocity"}.get(word, "a gate, in percent,")
        values = tuple(whole(what, first_of_all(what, value), low, high)
                       for value in listed(f"a {word}", self.values, 1, most))
        self._keep(values=values, _adds=Nesting(0, int(most > 1), 1, 1))
        self._hold(self.body)

    def transpose(self, semitones: SupportsIndex) -> "Block":
        if self.word == "channel" and self.values == (DRUM_CHANNEL,):
            return self
        return self._with(item.transpose(semitones) for item in self.body)

    def __repr__(self) -> str:
        names = {"volume": "dynamics", "loud": "accents", "artic": "articulations"}
        value = str(list(self.values)) if self.word in ("loud", "artic") else str(self.values[0])
        return f"{names.get(self.word, self.word)}({value}, {several(self.body)})"


class Curved(Held):
    """What a warp keeps, where no length in it is `fine`."""

    #: where positions inside lie outside
    curve: Curve
    #: the ticks of the body
    inside: int
    _parts: tuple[Part, ...]


@dataclass(frozen=True)
class Warp(Curved):
    """A `body` that is played through a `shape`, as `warp`, `tempo` and `swing` make it.

    `parts` are the parts of the shape over this body, one after another.
    """

    shape: Shape
    body: tuple[Music, ...]
    _adds = Nesting(1, 0, 1, 1)

    def __post_init__(self) -> None:
        if not isinstance(self.shape, Shape):
            raise ScoreError(f"{shown(self.shape)} is no shape")
        self._hold(self.body)
        fine, inside = (self.shape.fine() if self.fine is None else self.fine), self.exact
        if fine is not None or not isinstance(inside, int):
            self._keep(fine=fine, exact=None)
            return
        parts = self.shape.parts(inside)
        curve = Curve(parts)
        self._keep(_parts=parts, curve=curve, inside=inside, exact=curve.outside(inside, True))

    @property
    def parts(self) -> tuple[Part, ...]:
        """The parts of the shape, with ticks of which a quarter note has 480."""
        assert self.ticks >= 0  # or it says why there are none
        return self._parts

    def scaled(self, by: Fraction, known_phrases: dict[int, Held]) -> "Warp":
        return origins.kept(self, Warp(self.shape.scaled(by), tuple(item.scaled(by, known_phrases) for item in self.body)))

    def __repr__(self) -> str:
        return f"warp({self.shape!r}, {several(self.body)})"


@dataclass(frozen=True)
class Phrase(Held):
    """A `body` with a `name`, as `phrase` makes it: the text writes it once, however often it is played."""

    name: str
    body: tuple[Music, ...]

    def __post_init__(self) -> None:
        name = text("the name of a phrase", self.name)
        if not re.fullmatch(r"[a-z][a-z0-9_]*", name) or name in KEYWORDS or re.fullmatch(
                r"[a-g][sb]?[0-9]|r[0-7]|n([0-9]|1[0-5])", name):
            raise ScoreError(f"{shown(name)} is no name: small letters, digits and '_', but no keyword, pitch, "
                             "register or index")
        self._hold(self.body)
        # its text stands elsewhere, where braces begin anew
        self._keep(nesting=self.nesting._replace(braces=0))

    def transpose(self, semitones: SupportsIndex) -> "Phrase":
        by = index_of(semitones)
        if by == 0:
            return self
        moved: dict[int, Phrase] = self.__dict__.setdefault("_moved", {})
        if by not in moved:
            name = f"{self.name}_{'up' if by > 0 else 'down'}_{abs(by)}"
            moved[by] = origins.kept(self, Phrase(name, tuple(item.transpose(by) for item in self.body)))
        return moved[by]

    def scaled(self, by: Fraction, known_phrases: dict[int, Held]) -> Held:
        if id(self) not in known_phrases:
            known_phrases[id(self)] = self._with(item.scaled(by, known_phrases) for item in self.body)
        return known_phrases[id(self)]

    def __repr__(self) -> str:
        return f"phrase({self.name!r}, {several(self.body)})"
