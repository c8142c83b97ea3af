"""Places of a text as editors count them, and as bytes."""

from __future__ import annotations

from bisect import bisect_right
from typing import NamedTuple


class Position(NamedTuple):
    """A line and a character of it, both from 0; a character is one of UTF-16."""

    line: int
    character: int


class Range(NamedTuple):
    """From a position to the one behind the last character."""

    start: Position
    end: Position


def _units(data: bytes) -> int:
    """How many characters of UTF-16 these bytes are."""
    return len(data.decode("utf-8", "replace").encode("utf-16-le")) // 2


class Places:
    """The lines of a text."""

    def __init__(self, data: bytes):
        self.data = data
        self.starts = [0]
        at = data.find(b"\n")
        while at >= 0:
            self.starts.append(at + 1)
            at = data.find(b"\n", at + 1)

    def position(self, byte: int) -> Position:
        """The position of a byte, counted from 0."""
        byte = max(0, min(byte, len(self.data)))
        line = bisect_right(self.starts, byte) - 1
        return Position(line, _units(self.data[self.starts[line]:byte]))

    def byte(self, position: Position) -> int:
        """The byte at a position; behind the end of its line the end."""
        if position.line >= len(self.starts):
            return len(self.data)
        start = self.starts[position.line]
        end = self.starts[position.line + 1] - 1 if position.line + 1 < len(self.starts) else len(self.data)
        text = self.data[start:end].decode("utf-8", "replace").encode("utf-16-le")
        before = text[:2 * max(0, position.character)].decode("utf-16-le", "ignore")
        return min(end, start + len(before.encode("utf-8")))

    def byte_of(self, line: int, column: int) -> int:
        """The byte of a line and a column as the program tells them, both from 1, a column a byte."""
        return min(len(self.data), self.starts[min(line, len(self.starts)) - 1] + column - 1)

    def range(self, start: int, end: int) -> Range:
        """From a byte to one behind it."""
        return Range(self.position(start), self.position(end))
