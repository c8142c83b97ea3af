"""A walk over what a score plays, with looks that go along: each keeps what it needs, and says what it found."""

from __future__ import annotations

from bisect import bisect_left
from typing import Callable, Optional, Sequence, Union

from ..reading.structure import Structure
from ..reading.tree import Amount, Block, Expression, Length, Phrase, Reading, Statement, Token
from ..reading.walk import Entries, Happening, Place
from .finding import Edit, Found
from .rules import SEVERITIES


class Finds:
    """What was found in a text, each once for its rule and place."""

    def __init__(self, reading: Reading):
        self.reading = reading
        self.starts = [token.start for token in reading.tokens]
        self.found: dict[tuple[int, int, str], Found] = {}
        #: the bytes of each `set` whose value was read, or is meant to be read
        self.read: set[int] = set()

    def find(self, rule: str, at: Token, what: str, edits: Sequence[Edit] = ()) -> None:
        """Keeps a finding; the first one of a rule at a place counts."""
        self.found.setdefault((at.line, at.column, rule),
                              Found(at.line, at.column, rule, SEVERITIES[rule], what, tuple(sorted(edits))))

    def at(self, token: Token) -> int:
        """The number of a token."""
        return bisect_left(self.starts, token.start)

    def behind(self, token: Token, steps: int = 1) -> Token:
        """The token so many behind one, or before it."""
        return self.reading.tokens[self.at(token) + steps]

    def source(self, first: Token, last: Token) -> str:
        """The text from a token to another."""
        return self.reading.text[first.start:last.start + len(last.text)].decode("utf-8", "replace")

    def unwrapped(self, statement: Statement) -> tuple[Edit, ...]:
        """A block without its word: what is in it stays."""
        block = statement.blocks[0]
        return (Edit(statement.first.start, block.opened.start + 1, ""),
                Edit(block.closed.start, block.closed.start + 1, ""))

    def part(self, ticks: int) -> str:
        """So many ticks as a part of a whole note, or as ticks."""
        part = self.reading.fraction(ticks)
        return f"{part.numerator}/{part.denominator}" if part.denominator <= 96 else f"{ticks} ticks"

    def length(self, ticks: int) -> str:
        """So many ticks as a score writes them."""
        part = self.part(ticks)
        return part if "/" in part else f"ticks {ticks}"


class Look:
    """What one look wants to hear while a score is played."""

    def __init__(self, walk: "Looking", finds: Finds):
        self.walk, self.finds, self.reading = walk, finds, finds.reading

    def statement(self, happening: Happening) -> None:
        """A statement was played, with all that it holds."""

    def closed(self, place: Place, end: int) -> None:
        """A block was played."""

    def emptied(self, entries: Entries, process: int) -> None:
        """A list is left, or its process ends."""

    def process_ended(self, number: int) -> None:
        """A process ends."""

    def value(self, of: Expression, value: int) -> None:
        """A register was read, or a comparison made."""

    def amount(self, of: Expression, value: int, low: int, high: int) -> None:
        """A value was computed, which is brought into a range."""

    def finish(self) -> None:
        """All was played."""


class Looking(Structure):
    """The walk. `current` is the statement whose values are computed, `counts` how often each open loop is played."""

    def __init__(self, reading: Reading, wanted: Sequence[Statement] = (), most: Optional[int] = None):
        super().__init__(reading, wanted, most)
        self.looks: list[Look] = []
        self.listening: dict[str, list[Callable[..., None]]] = {}
        self.current: Optional[Statement] = None
        self.counts: list[int] = []
        self.count = 0

    def take(self, looks: list[Look]) -> None:
        """The looks that go along, each told what it listens to."""
        self.looks = looks
        for name in ("statement", "closed", "emptied", "value", "amount"):
            self.listening[name] = [getattr(look, name) for look in looks
                                    if getattr(type(look), name) is not getattr(Look, name)]

    def statement(self, happening: Happening) -> None:
        super().statement(happening)
        for tell in self.listening["statement"]:
            tell(happening)

    def closed(self, place: Place, end: int) -> None:
        super().closed(place, end)
        for tell in self.listening["closed"]:
            tell(place, end)

    def emptied(self, entries: Entries, process: int) -> None:
        for tell in self.listening["emptied"]:
            tell(entries, process)

    def process_ended(self, number: int) -> None:
        for look in self.looks:
            look.process_ended(number)

    def _go(self, statement: Statement) -> None:
        outer, self.current = self.current, statement
        super()._go(statement)
        self.current = outer

    def _inside(self, kind: str, node: Union[Statement, Phrase], block: Block, number: int = 0) -> None:
        if kind == "round" and number == 0:
            self.counts[len(self.rounds) - 1:] = [self.count]
        super()._inside(kind, node, block, number)

    def _length(self, length: Optional[Length]) -> int:
        self.count = super()._length(length)
        return self.count

    def _value(self, of: Expression) -> int:
        value = super()._value(of)
        if of.of in ("r", "less", "same"):
            for tell in self.listening["value"]:
                tell(of, value)
        return value

    def _amount(self, amount: Amount, low: int, high: int) -> int:
        if not isinstance(amount, Expression):
            return amount
        value = self._value(amount)
        for tell in self.listening["amount"]:
            tell(amount, value, low, high)
        return low if value < low else high if value > high else value
