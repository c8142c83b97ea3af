"""What is told of a refused text: what is at the place, one thing to do, and the texts that this leads to.

One engine serves all: the grammar as text, a search for the cheapest repair by it, and rows of slips and facts as data.
"""

from __future__ import annotations

from typing import NamedTuple, Optional

__all__ = ["Told", "told"]


class Told(NamedTuple):
    """What is at the place, what to do ("" for no more than the fault says), the byte that is shown, how sure the cure
    is (`write`, `if`, `fact` or `form`), and the texts that it leads to."""

    heading: str
    cure: str
    place: int
    strength: str
    texts: tuple[bytes, ...]


def told(data: bytes, line: int, column: int, number: int) -> Optional[Told]:
    """What is told of a text that is refused at a place with a fault of this number; None for what the fault says."""
    from .headings import heading, is_over_line  # rows and grammar come with the first text that is refused
    from .spot import Spot
    from .telling import told_of
    place = _byte_of(data, line, column)
    if place is None:
        return None
    spot = Spot(data, place)
    found = told_of(spot, number)
    if found is None:
        return None
    if number > 3 or spot.is_long:
        return Told(found.what, found.cure, place, found.strength, found.texts)
    shown = place
    if is_over_line(spot):
        last = spot.line.lexemes[spot.index - 1].end
        shown = spot.begun + len(spot.source[:last].encode("utf-8", "surrogateescape"))
    return Told(heading(spot, number), found.cure, shown, found.strength, found.texts)


def _byte_of(data: bytes, line: int, column: int) -> Optional[int]:
    """The byte at a line and a column; None where there is no such line."""
    begun = 0
    for _ in range(line - 1):
        begun = data.find(b"\n", begun) + 1
        if not begun:
            return None
    return begun + column - 1 if begun + column - 1 <= len(data) else None
