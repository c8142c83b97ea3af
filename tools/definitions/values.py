"""The values on which translated definitions run.

Natural and whole numbers are integers, Bool is bool, tuples are tuples. A list is NIL or a Pair, so that a part of a list
is no copy. A record has its fields; any other value has the name of its constructor and its parts."""
from __future__ import annotations

from collections.abc import Callable, Iterable, Iterator
from functools import partial
from typing import Any


class NoClause(Exception):
    """A definition has no clause for its arguments."""


class Made:
    """A value of a constructor."""

    __slots__ = ("tag", "args")

    def __init__(self, tag: str, args: tuple[Any, ...] = ()):
        self.tag, self.args = tag, args

    def __eq__(self, other: object) -> bool:
        return self is other or isinstance(other, Made) and self.tag == other.tag and self.args == other.args

    def __hash__(self) -> int:
        return hash((self.tag, self.args))

    def __repr__(self) -> str:
        return self.tag if not self.args else f"({' '.join([self.tag, *map(repr, self.args)])})"


class Record:
    """A value with named fields."""

    def __init__(self, **fields: Any):
        self.__dict__.update(fields)

    def __eq__(self, other: object) -> bool:
        return self is other or isinstance(other, Record) and self.__dict__ == other.__dict__

    def __hash__(self) -> int:
        return hash(tuple(sorted(self.__dict__.items())))

    def __repr__(self) -> str:
        return "{" + "; ".join(f"{name} = {value!r}" for name, value in self.__dict__.items()) + "}"


def updated(record: Record, **fields: Any) -> Record:
    return Record(**{**record.__dict__, **fields})


class Nil:
    """The empty list."""

    def __iter__(self) -> Iterator[Any]:
        return iter(())

    def __repr__(self) -> str:
        return "[]"


NIL = Nil()


class Pair:
    """A list that is not empty. How many elements it has is kept once somebody has counted."""

    __slots__ = ("head", "tail", "size")
    size: int

    def __init__(self, head: Any, tail: Any):
        self.head, self.tail = head, tail

    def __iter__(self) -> Iterator[Any]:
        at: Any = self
        while at is not NIL:
            yield at.head
            at = at.tail

    def __eq__(self, other: object) -> bool:
        if not isinstance(other, Pair):
            return False
        left: Any = self
        right: Any = other
        # what is shared is equal
        while left is not right:
            if left is NIL or right is NIL or not left.head == right.head:
                return False
            left, right = left.tail, right.tail
        return True

    def __hash__(self) -> int:
        return hash(tuple(self))

    def __repr__(self) -> str:
        return "[" + ", ".join(map(repr, self)) + "]"


def listed(items: Iterable[Any], tail: Any = NIL) -> Any:
    """The list of some items, in front of another list."""
    for item in reversed(items if isinstance(items, (list, bytes)) else list(items)):
        tail = Pair(item, tail)
    return tail


class Joined(Pair):
    """Two lists one behind the other. They are gone through once somebody looks, so that `xs ++ ys` costs nothing."""

    __slots__ = ("parts", "whole")

    def __init__(self, left: Any, right: Any):
        self.parts: tuple[Any, ...] = (left, right)
        self.whole: Any = None

    def force(self) -> Any:
        if self.whole is None:
            # the lists that it is made of, in turn; the last one is shared, and not copied
            leaves: list[Any] = []
            waiting: list[Any] = [self]
            while waiting:
                at = waiting.pop()
                if isinstance(at, Joined):
                    if at.whole is None:
                        waiting += (at.parts[1], at.parts[0])
                        continue
                    at = at.whole
                leaves.append(at)
            whole = leaves.pop()
            while leaves:
                whole = listed(leaves.pop(), whole)
            self.whole, self.parts = whole, ()
        return self.whole

    head = property(lambda self: self.force().head)
    tail = property(lambda self: self.force().tail)


def joined(left: Any, right: Any) -> Any:
    if left is NIL:
        return right
    return left if right is NIL else Joined(left, right)


# What was computed once: of each definition without arguments its value, and of one with one argument what it gave, by
# the argument itself.
KEPT: list[dict[int, Any]] = []
MOST_KEPT = 100_000


def forget() -> None:
    for table in KEPT:
        table.clear()


def kept0(function: Callable[[], Any]) -> Callable[[], Any]:
    table: dict[int, Any] = {}
    KEPT.append(table)

    def look() -> Any:
        if 0 not in table:
            table[0] = function()
        return table[0]
    return look


def kept1(function: Callable[[Any], Any]) -> Callable[[Any], Any]:
    table: dict[int, Any] = {}
    KEPT.append(table)

    def look(argument: Any) -> Any:
        found = table.get(id(argument))
        if found is not None and found[0] is argument:
            return found[1]
        value = function(argument)
        if len(table) > MOST_KEPT:
            table.clear()
        # the argument is kept too, so that no other takes its place
        table[id(argument)] = (argument, value)
        return value
    return look


def curried(function: Callable[..., Any], count: int, *given: Any) -> Any:
    """A function of so many arguments, some of them given, as one that takes the others one at a time."""
    left = count - len(given)
    if left == 0:
        return function(*given)
    if left == 1 and not given:
        return function
    if left == 1:
        return partial(function, *given)
    if left == 2:
        return lambda first: lambda last: function(*given, first, last)
    return lambda argument: curried(function, count, *given, argument)


NONE = Made("None")
# What stands for a value of which a row says that it is any.
ANYTHING = Made("anything")


def some(value: Any) -> Made:
    return Made("Some", (value,))
