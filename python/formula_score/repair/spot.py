"""A place in a text, with the statement round it: its tokens, the open blocks, and what the grammar expects."""

from __future__ import annotations

import re
from functools import cached_property
from typing import NamedTuple, Optional

from ..language.grammar import SCORE, Stack, inside
from .lexing import Lexeme, Line

#: How many bytes behind the place are looked at.
BEHIND = 1500
#: How many bytes a statement may have that is looked at, without blanks and comments.
LONGEST = 64_000
_COMMENT = re.compile(rb"#[^\n]*")
_MARKS = re.compile(rb"#[^\n]*|[;{}]")
BRACES = re.compile(rb"#[^\n]*|[{}]")
_NAMED = re.compile(rb"(?:^|(?<=[\s;{}]))(phrase|shape)\s+([a-z][a-z0-9_]*)")
_DIVISION = re.compile(rb"(?:\s|#[^\n]*\n)*formula\s*2\s*;\s*division\s*([0-9]{1,4})")


class Open(NamedTuple):
    """An open brace: the first word of its statement, where that begins, and where the brace is."""

    word: str
    begun: int
    brace: int


class Around(NamedTuple):
    """Where the present statement begins, the blocks that are open there, and the word of one that was just closed."""

    begun: int
    blocks: tuple[Open, ...]
    closed: str


def around(data: bytes, place: int) -> Around:
    """What is round a place before which all is a score: found by `;`, `{`, `}` alone."""
    blocks: list[Open] = []
    begun, closed = 0, ""
    for found in _MARKS.finditer(data, 0, place):
        mark = data[found.start()]
        if mark == 35:
            continue
        closed = ""
        if mark == 123:
            head = _COMMENT.sub(b"", data[begun:found.start()]).split()
            blocks.append(Open(re.sub(r"[^a-z].*", "", head[0].decode("latin-1")) if head else "", begun,
                               found.start()))
        elif mark == 125 and blocks:
            closed = blocks.pop().word
        begun = found.end()
    return Around(begun, tuple(blocks), closed)


def depth(data: bytes) -> int:
    """How many more braces are opened than closed."""
    return sum({123: 1, 125: -1}.get(data[found.start()], 0) for found in BRACES.finditer(data))


def names_of(data: bytes) -> dict[str, str]:
    """The shapes and phrases of a text."""
    return {found[2].decode(): found[1].decode() for found in _NAMED.finditer(data)}


def line_of(data: bytes, place: int) -> int:
    """The line of a byte, from 1."""
    return data.count(b"\n", 0, place) + 1


class Spot:
    """A refused place with the tokens of its statement and of what follows."""

    def __init__(self, data: bytes, place: int):
        self.data, self.place = data, place
        self.around = around(data, place)
        is_head = not self.around.blocks and data.count(b";", 0, place) < 4
        self.begun = 0 if is_head else self.around.begun
        window = data[self.begun:place + BEHIND]
        self.head, self.tail = data[:self.begun], data[self.begun + len(window):]
        self.source = window.decode("utf-8", "surrogateescape")

    @cached_property
    def line(self) -> Line:
        """The tokens from where what is looked at begins."""
        return Line(self.source)

    @cached_property
    def index(self) -> int:
        """The token at the place."""
        return self.line.at(len(self.data[self.begun:self.place].decode("utf-8", "surrogateescape")))

    @cached_property
    def first(self) -> int:
        """The first token of the present statement."""
        return next((at for at in range(self.index, 0, -1) if self.text(at - 1) in (";", "{", "}")), 0)

    @property
    def is_long(self) -> bool:
        """Whether the present statement is too long to be read here."""
        return sum(map(len, _COMMENT.sub(b"", self.data[self.around.begun:self.place]).split())) > LONGEST

    @cached_property
    def names(self) -> dict[str, str]:
        """The shapes and phrases above the place."""
        return names_of(self.data[:self.byte(self.first)])

    @cached_property
    def whole(self) -> int:
        """The ticks of a whole note."""
        division = _DIVISION.match(self.data, 0, 4000)
        return 4 * int(division[1]) if division else 1920

    @cached_property
    def tail_depth(self) -> int:
        """How many more braces are opened than closed behind what is looked at."""
        return depth(self.tail)

    @cached_property
    def start(self) -> Stack:
        """The stack where what is looked at begins."""
        if self.begun == 0:
            return SCORE
        last = self.around.blocks[-1] if self.around.blocks else None
        is_first = last is not None and last.word == "par" and last.brace + 1 == self.begun
        return inside([block.word for block in self.around.blocks], self.around.closed, is_first)

    @cached_property
    def stack(self) -> Optional[Stack]:
        """The stack at the place; None where what is before it is no score."""
        stack: Optional[Stack] = self.start
        for each in self.line.lexemes[:self.index]:
            stack = stack.after(each.kind) if stack else None
        return stack

    @property
    def expected(self) -> dict[str, str]:
        """The kinds of tokens that may be at the place, each with its place in the grammar."""
        return self.stack.expected if self.stack else {}

    @property
    def here(self) -> Lexeme:
        """The token at the place."""
        return self.line.lexemes[self.index]

    @property
    def word(self) -> str:
        """The first word of the present statement; "" where one begins at the place."""
        return self.text(self.first) if self.first < self.index else ""

    def text(self, index: int) -> str:
        """The text of a token; "" where there is none."""
        return self.line.lexemes[index].text if 0 <= index < len(self.line.lexemes) else ""

    def byte(self, index: int) -> int:
        """Where a token begins in the text."""
        start = self.line.lexemes[index].start
        return self.begun + len(self.source[:start].encode("utf-8", "surrogateescape"))

    def written(self, first: int, last: int, new: str) -> bytes:
        """The whole text with some tokens written anew."""
        lexemes = self.line.lexemes
        text = self.source[:lexemes[first].start] + new + self.source[lexemes[last - 1].end:]
        return self.head + text.encode("utf-8", "surrogateescape") + self.tail
