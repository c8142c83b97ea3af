"""Which line of a Python file made each value of a score, where that is asked for; else it costs a look at one name.

A value keeps it beside its fields, so that equal values stay equal, wherever they were made.
"""

from __future__ import annotations

import sys
from bisect import bisect_right
from dis import findlinestarts
from functools import lru_cache
from types import CodeType
from typing import NamedTuple, Optional, TypeVar

_Made = TypeVar("_Made")

#: The file whose lines are kept; None where nobody asks.
wanted: Optional[str] = None
#: So many calls of the file are kept that led to a value, the innermost first.
MOST_CALLS = 4

#: Calls as they are kept: what was run, and how far it was.
Calls = tuple[tuple[CodeType, int], ...]


class Place(NamedTuple):
    """A place in a Python file: the line from 1, and the column from 1 in characters; 0 where it is not known."""

    line: int
    column: int


def here() -> Calls:
    """The calls of the file that are under way, the innermost first."""
    found: list[tuple[CodeType, int]] = []
    frame = sys._getframe(2)
    while frame is not None:
        code = frame.f_code
        if code.co_filename == wanted:
            found.append((code, frame.f_lasti))
            if len(found) == MOST_CALLS:
                break
        frame = frame.f_back  # type: ignore[assignment]
    return tuple(found)


def kept(old: object, new: _Made) -> _Made:
    """What was made of another value, and comes from where that does."""
    if wanted is not None and "origin" in old.__dict__:
        new.__dict__["origin"] = old.__dict__["origin"]
    return new


def of(value: object) -> Calls:
    """The calls that made a value; none where nobody asked for them."""
    calls: Calls = getattr(value, "origin", ())
    return calls


@lru_cache(maxsize=100_000)
def place(code: CodeType, at: int) -> Place:
    """Where what is run stands in its file. Columns come from Python 3.11 on."""
    positions = getattr(code, "co_positions", None)
    if positions is not None:
        line, _, column, _ = _positions(code)[at // 2]
        return Place(line or 1, 0 if column is None else column + 1)
    begins, lines = zip(*findlinestarts(code))
    return Place(lines[max(0, bisect_right(begins, at) - 1)] or 1, 0)


@lru_cache(maxsize=1000)
def _positions(code: CodeType) -> list[tuple[Optional[int], ...]]:
    return list(code.co_positions())
