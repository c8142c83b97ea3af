"""Music as values: notes, rests and messages, and what holds them together.

Each value knows the ticks that it takes, can be joined with `+`, repeated with `*` and transposed. Nothing is
ever changed: what looks like a change gives a new value. What the command would refuse is a `ScoreError` here, told
by the value in which a limit is passed.
"""

from __future__ import annotations

from dataclasses import dataclass, replace
from fractions import Fraction
from typing import TYPE_CHECKING, Iterable, Iterator, NoReturn, Optional, SupportsIndex, TypeVar, cast

from . import origins
from .errors import ScoreError
from .lengths import MAX_LENGTH, WHOLE_NOTE, Exact, scaled
from .nesting import FLAT, Nesting, added, deeper, facts, first_fine
from .pitch import Pitch
from .shapes import Part
from .values import index, known, listed, shown, truth, whole

MAX_PITCHES, MAX_COUNT, MAX_ENTRIES, MAX_OPERATIONS = 16, 1_000_000, 256, 262_144


class Music:
    """Anything that may stand in a score: `a + b` is one after the other, `4 * a` four times.

    `ticks` is the length, of which a quarter note has 480; `bar_ticks` is the length as it is written, without what
    a tempo makes of it.
    """

    # numpy leaves `number * music` to the music
    __array_ufunc__ = None

    #: how deeply is nested what it holds
    nesting = FLAT
    #: the ticks that it takes at 480 a quarter note, exactly; None where a warp holds what `fine` is
    exact: Optional[Exact] = 0
    #: the same as it is written, with no tempo of its own: what bars are counted by
    bar_ticks: Exact = 0
    #: the first length in it that is no whole number of ticks at 480 a quarter note
    fine: Optional[Exact] = None
    #: at least so many operations a seq is: each of its items is one, but a tied note
    fewest = 0

    @property
    def ticks(self) -> int:
        """The ticks that it takes, of which a quarter note has 480."""
        if not isinstance(self.exact, int):
            raise ScoreError(f"the length {Fraction(self.fine or 0) / WHOLE_NOTE} in it is no whole number of ticks at "
                             "480 a quarter note: the `end` of a score with a division that holds it is its length")
        return self.exact

    def transpose(self, semitones: SupportsIndex) -> "Music":
        """The same with each pitch so many semitones higher; drums stay as they are."""
        index_of(semitones)
        return self

    def scaled(self, by: Fraction, known_phrases: dict[int, "Held"]) -> "Music":
        """The same with each length so many times as long."""
        return self

    def _keep(self, **facts: object) -> None:
        """Keeps what follows from the fields, while the value is made."""
        self.__dict__.update(facts)
        if origins.wanted is not None and "origin" not in self.__dict__:
            self.__dict__["origin"] = origins.here()

    def __add__(self, other: "Music") -> "Seq":
        return joined(as_seq(self), as_seq(music(other)))

    def __radd__(self, other: object) -> "Seq":
        refuse(other)

    def __mul__(self, count: SupportsIndex) -> "Repeat":
        return Repeat(as_int(count), (self,))

    __rmul__ = __mul__


def as_int(number: SupportsIndex) -> int:
    """The number as it is, for a field that reads it."""
    return cast(int, number)


def refuse(value: object) -> NoReturn:
    """Says that this is no music, and what to write."""
    if value is None:
        cure = "does a function of yours end without `return`?"
    elif isinstance(value, str):
        cure = "a note is written `note('c4', '1/4')`, several are `melody('c4 d4', '1/4')`"
    elif index(value) is not None:
        cure = "a note is written `note(60, '1/4')`, and `seq(*items)` joins what `sum` would"
    elif isinstance(value, Part):
        cure = "parts of a shape stand in a list at the begin of a warp, as `warp([flat('1/1', 2000)], ..)`"
    elif hasattr(value, "__iter__") or hasattr(value, "__next__"):
        cure = "put a star before what holds several, as in `seq(*items)`"
    elif callable(value):
        cure = "call it"
    else:
        cure = "notes, rests, and what `seq`, `par` and the like give are"
    raise ScoreError(f"{shown(value)} is no music: {cure}")


def music(value: object) -> Music:
    """The value, which has to be music."""
    if not isinstance(value, (Note, Rest, Message, Held, Par)):
        refuse(value)
    return value


def index_of(semitones: SupportsIndex) -> int:
    """How far something is transposed."""
    return whole("a number of semitones", semitones, -127, 127)


def length_in_range(what: str, length: object) -> Exact:
    """Ticks at 480 a quarter note, exactly."""
    if isinstance(length, Fraction) and 0 <= length <= MAX_LENGTH and length.denominator > 1:
        return length
    return whole(f"the length of {what}, in ticks,", length, 0, MAX_LENGTH)


class Timed(Music):
    """What has a `length` of its own."""

    length: Exact

    @property
    def ticks(self) -> int:
        return self.length if isinstance(self.length, int) else super().ticks

    @property
    def exact(self) -> Exact:  # type: ignore[override]
        return self.length

    @property
    def bar_ticks(self) -> Exact:  # type: ignore[override]
        return self.length

    @property
    def fine(self) -> Optional[Exact]:  # type: ignore[override]
        return None if isinstance(self.length, int) else self.length


@dataclass(frozen=True)
class Note(Timed):
    """Pitches that begin together, as `note` makes it.

    `pitches` are 1 to 16 `Pitch`es, `length` is the ticks to the next statement, of which a quarter note has 480, and
    `tied` says that it goes on in the note behind it.
    """

    pitches: tuple[Pitch, ...]
    length: Exact
    tied: bool = False

    def __post_init__(self) -> None:
        pitches = self.pitches
        if not isinstance(pitches, tuple) or not all(isinstance(pitch, Pitch) for pitch in pitches):
            pitches = tuple(map(Pitch, listed("a chord", pitches, 0, 10 * MAX_PITCHES)))  # type: ignore[arg-type]
        if not 1 <= len(pitches) <= MAX_PITCHES:
            raise ScoreError(f"a note has 1 to 16 pitches, and this one {len(pitches)}")
        self._keep(pitches=pitches, length=length_in_range("a note", self.length),
                   tied=truth("whether a note is tied", self.tied))

    def transpose(self, semitones: SupportsIndex) -> "Note":
        by = index_of(semitones)
        return origins.kept(self, replace(self, pitches=tuple(pitch + by for pitch in self.pitches)))

    def scaled(self, by: Fraction, known_phrases: dict[int, "Held"]) -> "Note":
        return origins.kept(self, replace(self, length=scaled(self.length, by)))

    def __repr__(self) -> str:
        names = ", ".join(repr(str(pitch)) if pitch >= 12 else str(int(pitch)) for pitch in self.pitches)
        tied = ", tied=True" if self.tied else ""
        return f"note({names if len(self.pitches) == 1 else f'[{names}]'}, {_length(self.length)}{tied})"


@dataclass(frozen=True)
class Rest(Timed):
    """Silence, as `rest` makes it. `length` is its ticks, of which a quarter note has 480."""

    length: Exact

    def __post_init__(self) -> None:
        self._keep(length=length_in_range("a rest", self.length))

    def scaled(self, by: Fraction, known_phrases: dict[int, "Held"]) -> "Rest":
        return origins.kept(self, Rest(scaled(self.length, by)))

    def __repr__(self) -> str:
        return f"rest({_length(self.length)})"


@dataclass(frozen=True)
class Message(Music):
    """A `control` change (with its `controller`), a `program` change or a pitch `bend`, as `kind` says.

    `value` is 0 to 127, of a bend -8192 to 8191; `controller` is 0 to 127.
    """

    kind: str
    value: int
    controller: int = 0

    def __post_init__(self) -> None:
        kind = known("kind of message", self.kind, ("control", "program", "bend"))
        low, high = (-8192, 8191) if kind == "bend" else (0, 127)
        self._keep(value=whole(f"the value of a {kind}", self.value, low, high),
                   controller=whole("a controller", self.controller, 0, 127))

    def __repr__(self) -> str:
        if self.kind == "control":
            return f"control({self.controller}, {self.value})"
        return f"{'instrument' if self.kind == 'program' else 'bend'}({self.value})"


_Held = TypeVar("_Held", bound="Held")


class Held(Music):
    """What holds a `body` of music, one after another."""

    body: tuple[Music, ...]
    #: what it adds to the nesting of its body
    _adds = Nesting(0, 0, 1, 1)

    def _hold(self, items: object) -> tuple[Music, ...]:
        """Keeps the items as the body, and what follows from them."""
        body = body_of(listed(f"what a {type(self).__name__.lower()} holds", items, 0))
        self._keep(body=body, **facts(self._adds, body))
        return body

    def _with(self: _Held, items: Iterable[Music]) -> _Held:
        return origins.kept(self, replace(self, body=tuple(items)))

    def transpose(self, semitones: SupportsIndex) -> "Held":
        return self._with(item.transpose(semitones) for item in self.body)

    def scaled(self, by: Fraction, known_phrases: dict[int, "Held"]) -> "Held":
        return self._with(item.scaled(by, known_phrases) for item in self.body)


@dataclass(frozen=True)
class Seq(Held):
    """One after another, as `seq` and `+` make it; `body` is what follows. It is no block of a score's text."""

    body: tuple[Music, ...]

    def __post_init__(self) -> None:
        body = tuple(flattened(listed("a seq", self.body, 0)))
        self._keep(body=body, fewest=_few(sum(not getattr(item, "tied", False) for item in body)), **facts(FLAT, body))

    if not TYPE_CHECKING:
        def __getattr__(self, name: str) -> object:
            """The body of two that were joined, which is put together when it is asked for."""
            if name != "body" or "_pair" not in self.__dict__:
                raise AttributeError(name)
            left = [*self.__dict__["_pair"]]
            body: list[Music] = []
            while left:
                item = left.pop()
                if "body" in item.__dict__:
                    body += reversed(item.body)
                else:
                    left += item.__dict__["_pair"]
            self._keep(body=tuple(reversed(body)))
            del self.__dict__["_pair"]
            return self.__dict__["body"]

    def __reduce__(self) -> tuple[type["Seq"], tuple[tuple[Music, ...]]]:
        return Seq, (self.body,)

    def __repr__(self) -> str:
        return f"seq({several(self.body)})"


@dataclass(frozen=True)
class Repeat(Held):
    """The `body` so many times, `count`, 0 to 1,000,000, as `repeat` and `*` make it."""

    count: int
    body: tuple[Music, ...]
    _adds = Nesting(0, 1, 1, 1)

    def __post_init__(self) -> None:
        count = whole("a count", first_of_all("a count", self.count), 0, MAX_COUNT)
        self._hold(self.body)
        self._keep(count=count, bar_ticks=count * self.bar_ticks,
                   exact=None if self.exact is None else count * self.exact)

    def __repr__(self) -> str:
        return f"repeat({self.count}, {several(self.body)})"


@dataclass(frozen=True)
class Par(Music):
    """Voices that begin together, as `par` makes it: `branches` has the body of each."""

    branches: tuple[tuple[Music, ...], ...]

    def __post_init__(self) -> None:
        branches = tuple(body_of(listed("a branch", branch, 0)) for branch in listed("a par", self.branches, 1))
        every = [item for branch in branches for item in branch]
        exact = [added(item.exact for item in branch) for branch in branches]
        self._keep(branches=branches, nesting=deeper(Nesting(0, 0, 2, 2), every),
                   exact=None if None in exact else max(length for length in exact if length is not None),
                   bar_ticks=max(added(item.bar_ticks for item in branch) or 0 for branch in branches),
                   fine=first_fine(every))

    def transpose(self, semitones: SupportsIndex) -> "Par":
        return self._with(tuple(item.transpose(semitones) for item in branch) for branch in self.branches)

    def scaled(self, by: Fraction, known_phrases: dict[int, "Held"]) -> "Par":
        return self._with(tuple(item.scaled(by, known_phrases) for item in branch) for branch in self.branches)

    def _with(self, branches: Iterable[tuple[Music, ...]]) -> "Par":
        return origins.kept(self, Par(tuple(branches)))

    def __repr__(self) -> str:
        return f"par({several(branch[0] if len(branch) == 1 else Seq(branch) for branch in self.branches)})"


def first_of_all(what: str, value: object) -> object:
    """The value, which comes before the music in a call."""
    if isinstance(value, Music):
        raise ScoreError(f"{what} comes before the music, and here stands {shown(value)}")
    return value


def as_seq(item: Music) -> Seq:
    """The item as a seq."""
    return item if isinstance(item, Seq) else Seq((item,))


def joined(left: Seq, right: Seq) -> Seq:
    """Both as one, without a look at all they hold, so that a loop which adds to a seq is linear."""
    whole_seq = object.__new__(Seq)
    whole_seq._keep(_pair=(left, right), fewest=_few(left.fewest + right.fewest),
                    nesting=Nesting(*(max(depths) for depths in zip(left.nesting, right.nesting))),
                    exact=added((left.exact, right.exact)), bar_ticks=added((left.bar_ticks, right.bar_ticks)),
                    fine=right.fine if left.fine is None else left.fine)
    return whole_seq


def _few(operations: int) -> int:
    """So many operations, where a score may have them."""
    if operations > MAX_OPERATIONS:
        raise ScoreError(f"a score has at most {MAX_OPERATIONS:,} operations, and this seq alone {operations:,}: "
                         "`repeat` and `phrase` write once what comes again")
    return operations


def flattened(items: Iterable[object]) -> Iterator[Music]:
    """The items, and in place of a seq what it holds."""
    for item in items:
        if isinstance(item, Seq):
            yield from item.body
        else:
            yield music(item)


def body_of(items: Iterable[object]) -> tuple[Music, ...]:
    """What a block holds: one after another, each tied note made one with the note behind it."""
    body: list[Music] = []
    for item in flattened(items):
        before = body[-1] if body else None
        if isinstance(before, Note) and before.tied:
            if not (isinstance(item, Note) and item.pitches == before.pitches):
                raise ScoreError(f"no note of the same pitches follows the tied note {before!r}")
            both = before.length + item.length
            if both > MAX_LENGTH:
                raise ScoreError(f"a tied note of {both} ticks is longer than 1,000,000")
            body[-1] = origins.kept(before, Note(item.pitches, both, item.tied))
        else:
            body.append(item)
    if body and isinstance(body[-1], Note) and body[-1].tied:
        raise ScoreError(f"the tied note {body[-1]!r} is the last one of its block")
    return tuple(body)


def _length(length: Exact) -> str:
    part = Fraction(length) / WHOLE_NOTE
    return f"'{part.numerator}/{part.denominator}'" if part.denominator <= 96 or not isinstance(length, int) else (
        f"ticks({length})")


def several(items: Iterable[object]) -> str:
    """Some of the items, and how many more there are; a long one as `repeat(..)`."""
    every = list(items)
    texts = [text if len(text) <= 60 else f"{text.partition('(')[0]}(..)" for text in map(repr, every[:4])]
    return ", ".join(texts) + (f", .. {len(every) - 4} more" if len(every) > 4 else "")
