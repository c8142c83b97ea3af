"""A score's text as a tree: its statements with their places, its comments, and the lengths known without playing.

Lengths are ticks, counted as they are written.
"""

from __future__ import annotations

from bisect import bisect_left, bisect_right
from dataclasses import dataclass
from fractions import Fraction
from functools import cached_property
from typing import Iterator, NamedTuple, Optional, Union

from ..making.shapes import Curve, Part


class Token(NamedTuple):
    """A word, number or symbol, with its place: line and column from 1, a column a byte; and its byte, from 0."""

    text: str
    line: int
    column: int
    start: int


class Comment(NamedTuple):
    """What stands behind a `#`, with its place; `alone` where its line has nothing else."""

    text: str
    line: int
    column: int
    alone: bool


@dataclass(frozen=True)
class Expression:
    """A number, a register or index with its number, an operator or a function with its operands.

    `of` is `number`, `r`, `n`, `negative`, `+ - * / %`, `pick`, `min`, `max`, `less` or `same`.
    """

    of: str
    number: int = 0
    operands: tuple["Expression", ...] = ()


Amount = Union[int, Expression]


@dataclass(frozen=True)
class Computed:
    """A length or a count that is computed while it is played, and at most so much."""

    value: Expression
    most: int


Length = Union[int, Computed]


@dataclass(frozen=True)
class Block:
    """Statements between braces; `head` is the word `branch` or `phrase` before them, else the first brace."""

    head: Token
    opened: Token
    closed: Token
    statements: tuple["Statement", ...]


@dataclass(frozen=True)
class Statement:
    """A statement: its first word, its first and last token, and what it says. What it has not is empty or None."""

    word: str
    first: Token
    last: Token
    #: the pitches of `note` and `play`
    pitches: tuple[Amount, ...] = ()
    #: each pitch as it is written, `key` where it is none by name
    names: tuple[str, ...] = ()
    #: the length of `note` and `rest`, the count of `repeat`; ticks, or computed
    length: Optional[Length] = None
    #: the controller, the channel, the velocity of `volume`, the percent of `gate`, the register of `set`
    number: int = 0
    #: the value of `control`, `program`, `bend` and `set`, the condition of `if`
    amount: Amount = 0
    #: the entries of `rhythm`, `artic` and `loud`
    entries: tuple[int, ...] = ()
    #: the phrase of `do`, the shape of `warp`
    name: str = ""
    #: its blocks: of a `par` its branches, of an `if` one or two
    blocks: tuple[Block, ...] = ()

    @property
    def line(self) -> int:
        """The line on which it begins."""
        return self.first.line


@dataclass(frozen=True)
class Shape:
    """A shape with the place of its name."""

    name: Token
    parts: tuple[Part, ...]

    @cached_property
    def curve(self) -> Curve:
        """Where positions of a block lie outside."""
        return Curve(self.parts)

    @property
    def length(self) -> int:
        """The ticks of a block that its parts speak of."""
        return sum(part.ticks for part in self.parts if part.kind in ("flat", "slope"))


@dataclass(frozen=True)
class Phrase:
    """A phrase with the place of its name."""

    name: Token
    block: Block


@dataclass(frozen=True)
class Reading:
    """A whole score."""

    text: bytes
    version: int
    division: int
    seed: int
    shapes: dict[str, Shape]
    phrases: dict[str, Phrase]
    #: what stands outside all blocks, but for shapes and phrases
    statements: tuple[Statement, ...]
    comments: tuple[Comment, ...]
    tokens: tuple[Token, ...]

    @property
    def whole(self) -> int:
        """The ticks of a whole note."""
        return 4 * self.division

    def fraction(self, ticks: int) -> Fraction:
        """So many ticks as a part of a whole note."""
        return Fraction(ticks, self.whole)

    def every_statement(self) -> Iterator[Statement]:
        """All statements of the text in their order, those inside others too."""
        blocks = [phrase.block.statements for phrase in self.phrases.values()] + [self.statements]
        found = [statement for statements in blocks for statement in _with_inner(statements)]
        return iter(sorted(found, key=lambda statement: statement.first.start))

    def tokens_between(self, first: Token, last: Token) -> tuple[Token, ...]:
        """The tokens from one to another, with both."""
        return self.tokens[bisect_left(self._starts, first.start):bisect_right(self._starts, last.start)]

    @cached_property
    def _starts(self) -> list[int]:
        return [token.start for token in self.tokens]

    def comments_above(self) -> dict[int, list[Comment]]:
        """The comments on lines of their own between a token and the one before it, by the byte of the token."""
        found: dict[int, list[Comment]] = {}
        lines = [token.line for token in self.tokens]
        for comment in self.comments:
            if comment.alone:
                token = self.tokens[min(bisect_right(lines, comment.line), len(lines) - 1)]
                found.setdefault(token.start, []).append(comment)
        return found

    def length(self, statements: tuple[Statement, ...]) -> Optional[int]:
        """The ticks of these statements as they are written, where they are known without playing."""
        return _Lengths(self).of(statements)


def _with_inner(statements: tuple[Statement, ...]) -> Iterator[Statement]:
    for statement in statements:
        yield statement
        for block in statement.blocks:
            yield from _with_inner(block.statements)


class _Lengths:
    """The lengths of statements that are known without playing; None for others."""

    def __init__(self, reading: Reading):
        self.reading = reading
        self.rhythms: list[tuple[tuple[int, ...], list[int]]] = []  # those that are open, and how many each has given

    def of(self, statements: tuple[Statement, ...]) -> Optional[int]:
        total = 0
        for statement in statements:
            ticks = self.of_statement(statement)
            if ticks is None:
                return None
            total += ticks
        return total

    def of_statement(self, statement: Statement) -> Optional[int]:
        says, inner = statement.word, [block.statements for block in statement.blocks]
        if says in ("note", "rest"):
            return statement.length if isinstance(statement.length, int) else None
        if says in ("play", "skip"):
            return self.entry()
        if says == "do":
            return self.of(self.reading.phrases[statement.name].block.statements)
        if says == "par":
            return self.longest(inner)
        if says == "if":
            return self.either(inner if len(inner) == 2 else [*inner, ()])
        if says == "repeat":
            return self.rounds(statement, inner[0])
        if says == "rhythm":
            self.rhythms.append((statement.entries, [0]))
            ticks = self.of(inner[0])
            self.rhythms.pop()
            return ticks
        return self.of(inner[0]) if inner else 0

    def entry(self) -> Optional[int]:
        if not self.rhythms:
            return None
        entries, given = self.rhythms[-1]
        given[0] += 1
        return entries[(given[0] - 1) % len(entries)]

    def longest(self, branches: list[tuple[Statement, ...]]) -> Optional[int]:
        """Each branch takes the lists round it from their first entry, and so does what follows."""
        lengths = []
        for branch in branches:
            self.start_anew()
            lengths.append(self.of(branch))
        self.start_anew()
        return None if None in lengths else max(length for length in lengths if length is not None)

    def start_anew(self) -> None:
        for _, given in self.rhythms:
            given[0] = 0

    def either(self, ways: list[tuple[Statement, ...]]) -> Optional[int]:
        before = [given[0] for _, given in self.rhythms]
        found = []
        for way in ways:
            for (_, given), number in zip(self.rhythms, before):
                given[0] = number
            found.append((self.of(way), [given[0] for _, given in self.rhythms]))
        return found[0][0] if found[0] == found[1] else None

    def rounds(self, statement: Statement, body: tuple[Statement, ...]) -> Optional[int]:
        if not isinstance(statement.length, int):
            return None
        if not _takes_entries(self.reading, body):
            ticks = self.of(body) if statement.length else 0
            return None if ticks is None else ticks * statement.length
        total = done = 0
        seen: dict[tuple[int, ...], tuple[int, int]] = {}  # where the rhythms stood, and after which round
        while done < statement.length:
            stands = tuple(given[0] % len(entries) for entries, given in self.rhythms)
            if stands in seen:  # from here on the same rounds come again
                earlier, length = seen.pop(stands)
                again = (statement.length - done) // (done - earlier)
                total, done = total + again * (total - length), done + again * (done - earlier)
                seen.clear()
                continue
            seen[stands] = done, total
            ticks = self.of(body)
            if ticks is None:
                return None
            total, done = total + ticks, done + 1
        return total


def _takes_entries(reading: Reading, statements: tuple[Statement, ...]) -> bool:
    """Whether they take entries of a rhythm that stands round them."""
    for statement in statements:
        inner = [block.statements for block in statement.blocks]
        if statement.word == "do":
            inner = [reading.phrases[statement.name].block.statements]
        if statement.word in ("play", "skip"):
            return True
        if statement.word != "rhythm" and any(_takes_entries(reading, statement) for statement in inner):
            return True
    return False
