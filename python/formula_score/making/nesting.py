"""What follows from the items that music holds: how deeply they are nested, and how long they are together."""

from __future__ import annotations

from typing import Iterable, NamedTuple, Optional, Protocol, Sequence

from .errors import ScoreError
from .lengths import Exact


class Nesting(NamedTuple):
    """How many of each kind stand in one another."""

    warps: int
    loops_and_lists: int
    blocks: int
    braces: int


class Item(Protocol):
    """Music, by what follows from it."""

    @property
    def nesting(self) -> Nesting:
        """How deeply is nested what it holds."""

    @property
    def exact(self) -> Optional[Exact]:
        """The ticks that it takes."""

    @property
    def bar_ticks(self) -> Exact:
        """The same as it is written."""

    @property
    def fine(self) -> Optional[Exact]:
        """The first length in it that is no whole number of ticks."""


FLAT = Nesting(0, 0, 0, 0)
MOST = Nesting(8, 16, 64, 64)


def deeper(adds: Nesting, items: Iterable[Item]) -> Nesting:
    """The nesting of what holds these items, which has to be within the limits."""
    nestings = {item.nesting for item in items} or {FLAT}
    found = Nesting(*(more + max(depths) for more, *depths in zip(adds, *nestings)))
    for field, depth, most in zip(Nesting._fields, found, MOST):
        if depth > most:
            raise ScoreError(f"at most {most} {field.replace('_', ' ')} stand in one another, and here {depth} do")
    return found


def added(lengths: Iterable[Optional[Exact]]) -> Optional[Exact]:
    """The sum; None where one is not known."""
    total: Exact = 0
    for length in lengths:
        if length is None:
            return None
        total += length
    return int(total) if total.denominator == 1 else total


def facts(adds: Nesting, items: Sequence[Item]) -> dict[str, object]:
    """What follows from the items that something holds one after another."""
    return {"nesting": deeper(adds, items), "exact": added(item.exact for item in items),
            "bar_ticks": added(item.bar_ticks for item in items), "fine": first_fine(items)}


def first_fine(items: Iterable[Item]) -> Optional[Exact]:
    """The first length that is no whole number of ticks."""
    return next((item.fine for item in items if item.fine is not None), None)
