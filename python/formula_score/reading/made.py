"""Where the score of a Python file comes from: of a place in its text the lines of Python that made the statement."""

from __future__ import annotations

import bisect
import re
from functools import lru_cache
from typing import Any, NamedTuple, Optional, Sequence

from ..making.origins import Place
from ..running import pieces
from .reader import read
from .structure import sequences


class Origin(NamedTuple):
    """The calls that made a statement, the innermost first, and the lines of them as they are shown."""

    calls: Sequence[Place]
    lines: Sequence[str]


@lru_cache(maxsize=8)
def starts(text: bytes) -> list[tuple[int, int]]:
    """Where the statements of a text begin, in its order: lines and columns from 1."""
    return sorted((each.first.line, each.first.column) for sequence in sequences(read(text))
                  for each in sequence.statements)


def calls_at(piece: pieces.Piece, line: int, column: int) -> Sequence[Place]:
    """The calls that made the statement at a place of a piece's text."""
    at = bisect.bisect_right(starts(piece.text), (line, column)) - 1
    if piece.text.split(b"\n")[line - 1][column - 1:].startswith((b"branch ", b"phrase ")):
        at += 1  # none itself, and made with what it holds
    return piece.places[piece.made_by[at]] if 0 <= at < len(piece.made_by) else [Place(1, 1)]


def line_at(piece: pieces.Piece, line: int) -> int:
    """The line of Python that made the first statement from a line of a piece's text on."""
    at = bisect.bisect_left(starts(piece.text), (line, 0))
    return piece.places[piece.made_by[at]][0].line if at < len(piece.made_by) else 1


def in_python(piece: Optional[pieces.Piece], words: str) -> str:
    """Words that name lines of a text; those of a piece with lines of Python in their place."""
    def of_python(found: "re.Match[str]") -> str:
        assert piece is not None
        line, column = int(found[1]), found[2]
        return f"line {line_at(piece, line) if column is None else calls_at(piece, line, int(column))[0].line}"

    return re.sub(r"\bline ([0-9]+)(?:, column ([0-9]+))?", of_python, words) if piece else words


def piece_of(path: str) -> Optional[pieces.Piece]:
    """The piece that a file made last; None where it is a score itself."""
    known = pieces.known(path)
    return known[1] if known else None


def origin(path: str, line: int, column: int) -> Optional[Origin]:
    """Where a place in the text of a file's score comes from; None where the file is a score itself."""
    known = pieces.known(path)
    if known is None:
        return None
    calls = calls_at(known[1], line, column)
    return Origin(calls, pieces.shown(known[0], calls))


def placed(path: str, value: dict[str, Any]) -> dict[str, Any]:
    """A value with a line and a column; of a piece those of Python, with the calls, and the text's as `text`."""
    found = origin(path, value["line"], value["column"]) if "line" in value else None
    if found is None:
        return value
    line, column = found.calls[0]
    return {**value, "line": line, "column": max(1, column), "calls": [call._asdict() for call in found.calls],
            "text": {"line": value["line"], "column": value["column"]}}
