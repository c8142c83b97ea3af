"""Looks at what is computed: values that are clamped, registers that are 0 again, comparisons that never hold."""

from __future__ import annotations

from typing import Callable, Iterator, Optional

from ..reading.tree import Amount, Computed, Expression, Statement, Token
from ..reading.walk import Happening, Place
from .finding import Edit
from .looking import Finds, Look, Looking

_LIMIT = 1_000_000
_ALL = (-_LIMIT, _LIMIT)
#: From which value to which an expression may go.
Range = tuple[int, int]

_WORDS = {"note": "key", "play": "key", "control": "controller value", "program": "program", "bend": "bend"}


def expressions(statement: Statement) -> Iterator[Expression]:
    """The expressions of a statement itself, each with no other round it."""
    for amount in (*statement.pitches, statement.amount, statement.length):
        if isinstance(amount, Computed):
            yield amount.value
        elif isinstance(amount, Expression):
            yield amount


def parts_of_expression(of: Expression) -> Iterator[Expression]:
    """An expression, and all that it is made of."""
    yield of
    for operand in of.operands:
        yield from parts_of_expression(operand)


def written(of: Expression) -> str:
    """An expression as a score has it."""
    inner = [written(operand) for operand in of.operands]
    if of.of in ("number", "r", "n"):
        return f"{'' if of.of == 'number' else of.of}{of.number}"
    if of.of == "negative":
        return f"-{inner[0]}"
    if of.of in ("pick", "min", "max", "less", "same"):
        return f"{of.of}({', '.join(inner)})"
    nested = [f"({text})" if operand.of in ("+", "-") and of.of not in ("+", "-") else text
              for operand, text in zip(of.operands, inner)]
    return f" {of.of} ".join(nested)


# ---- where a value may lie

def _quotient(left: Range, right: Range) -> Range:
    if right[0] == right[1] != 0:
        return tuple(sorted(end // right[0] for end in left))  # type: ignore[return-value]
    return (0, 0) if right == (0, 0) else _ALL


def _rest(left: Range, right: Range) -> Range:
    if right[0] <= 0:
        return (0, 0) if right == (0, 0) else _ALL
    if left[0] == left[1] and right[0] == right[1]:
        return (left[0] % right[0],) * 2
    return left if 0 <= left[0] and left[1] < right[0] else (0, right[1] - 1)


def _product(left: Range, right: Range) -> Range:
    all_ends = [one * other for one in left for other in right]
    return min(all_ends), max(all_ends)


_RANGES: dict[str, Callable[[Range, Range], Range]] = {
    "+": lambda left, right: (left[0] + right[0], left[1] + right[1]),
    "-": lambda left, right: (left[0] - right[1], left[1] - right[0]),
    "*": _product, "/": _quotient, "%": _rest,
    "min": lambda left, right: (min(left[0], right[0]), min(left[1], right[1])),
    "max": lambda left, right: (max(left[0], right[0]), max(left[1], right[1])),
    "less": lambda left, right: (int(left[1] < right[0]), int(left[0] < right[1])),
    "same": lambda left, right: (int(left[0] == left[1] == right[0] == right[1]),
                                 int(left[0] <= right[1] and right[0] <= left[1])),
}


def reach(of: Expression, leaf: Callable[[Expression], Range]) -> Range:
    """From which value to which an expression may go, where its registers and indices go so far; each draw is free."""
    if of.of == "number":
        return (of.number,) * 2
    if of.of in ("r", "n"):
        return leaf(of)
    inner = [reach(operand, leaf) for operand in of.operands]
    if of.of == "negative":
        return -inner[0][1], -inner[0][0]
    if of.of == "pick":
        return 0, max(0, inner[0][1] - 1)
    low, high = _RANGES[of.of](*inner)
    return max(-_LIMIT, low), min(_LIMIT, high)


def _drawn_registers(statements: list[Statement]) -> set[int]:
    """The registers whose values draws decide: by what is set, or whether it is."""
    drawn: set[int] = set()

    def depends(amount: Amount) -> bool:
        return isinstance(amount, Expression) and any(
            part.of == "pick" or part.of == "r" and part.number in drawn for part in parts_of_expression(amount))

    def visit(statement: Statement, is_drawn: bool) -> None:
        is_drawn = is_drawn or any(map(depends, expressions(statement)))
        if statement.word == "set" and is_drawn:
            drawn.add(statement.number)
        for block in statement.blocks:
            for inner in block.statements:
                visit(inner, is_drawn)

    size = -1
    while size != len(drawn):
        size = len(drawn)
        for statement in statements:
            visit(statement, False)
    return drawn


class Comparisons(Look):
    """Comparisons, and conditions of `if`, that are never above 0; and what is computed and can be one value alone."""

    def __init__(self, walk: Looking, finds: Finds):
        super().__init__(walk, finds)
        blocks = [phrase.block.statements for phrase in self.reading.phrases.values()]
        self.drawn = _drawn_registers([statement for block in [*blocks, self.reading.statements]
                                       for statement in block])
        self.made: dict[int, tuple[Statement, Expression, Optional[list[Range]]]] = {}  # None once it holds
        self.seen: set[int] = set()

    def _now(self, of: Expression) -> Range:
        if of.of == "n":
            return (self.walk.rounds[-1 - of.number],) * 2
        return _ALL if of.number in self.drawn else (self.walk.now.registers[of.number],) * 2

    def value(self, of: Expression, value: int) -> None:
        if of.of != "r":
            self._made(of, of.operands)

    def _made(self, of: Expression, sides: tuple[Expression, ...]) -> None:
        known = self.made.get(id(of))
        if known and known[2] is None:
            return
        current = self.walk.current
        assert current is not None
        if reach(of, self._now)[1] > 0:
            self.made[id(of)] = current, of, None
            return
        ranges = [reach(side, self._now) for side in sides]
        for at, (low, high) in enumerate(known[2] if known and known[2] else ()):
            ranges[at] = min(low, ranges[at][0]), max(high, ranges[at][1])
        self.made[id(of)] = current, of, ranges

    def amount(self, of: Expression, value: int, low: int, high: int) -> None:
        current = self.walk.current
        assert current is not None
        if current.word == "if" and of.of not in ("less", "same"):
            self._made(of, (of,))
        if current.word == "if" and of.of == "-" and value < 0:
            self.finds.find("if-below-0", current.first,
                            f"`if {written(of)}` does not hold where this is below 0, as it is here: it is no test of "
                            "whether two values differ")
        if id(of) not in self.seen:
            self.seen.add(id(of))
            self._constant(current, of)

    def _constant(self, current: Statement, of: Expression) -> None:
        leaves = [part for part in parts_of_expression(of) if part.of in ("r", "n", "pick")]
        if not leaves or current.word in ("if", "repeat") or of.of in ("r", "n"):
            return

        def leaf(part: Expression) -> Range:
            if part.of == "r" or self.walk.counts[len(self.walk.rounds) - 1 - part.number] < 2:
                return _ALL
            return 0, self.walk.counts[len(self.walk.rounds) - 1 - part.number] - 1

        low, high = reach(of, leaf)
        if low == high:
            self.finds.find("always-the-same", current.first, f"`{written(of)}` is always {low}")

    def finish(self) -> None:
        for current, of, ranges in self.made.values():
            if ranges is None:
                continue
            if len(ranges) == 1:
                said = f"`{written(of)}` never holds: it is never above 0"
            else:
                left, right = (f"{low}" if low == high else f"{low} to {high}" for low, high in ranges)
                said = f"`{written(of)}` never holds: its first value is {left}, its second {right}"
            self.finds.find("never-holds", current.first, said)


class Clamped(Look):
    """Keys, values and bends out of their ranges."""

    def amount(self, of: Expression, value: int, low: int, high: int) -> None:
        current = self.walk.current
        if low <= value <= high or current is None or current.word not in _WORDS:
            return
        at = self.finds.part(self.walk.now.written)
        self.finds.find("clamped", current.first,
                        f"the {_WORDS[current.word]} `{written(of)}` is {value} here, first {at} after the beginning, "
                        f"and is played as {low if value < low else high}")


class Registers(Look):
    """Registers that were set before a `par`, and are read as 0 in a branch or behind it."""

    def __init__(self, walk: Looking, finds: Finds):
        super().__init__(walk, finds)
        self.own: dict[int, dict[int, Statement]] = {}      # by each process what it set
        self.told: set[tuple[int, int]] = set()

    def statement(self, happening: Happening) -> None:
        if happening.statement.word == "set":
            self.own.setdefault(happening.process, {})[happening.statement.number] = happening.statement

    def value(self, of: Expression, value: int) -> None:
        process, current = self.walk.now.number, self.walk.current
        if of.of != "r" or of.number in self.own.get(process, {}) or (process, of.number) in self.told or not current:
            return
        self.told.add((process, of.number))
        earlier = self._set_before(process, of.number)
        if earlier is None:
            return
        self.finds.read.add(earlier.first.start)
        where = "in each branch" if self.walk.begun[process].place.kind == "branch" else "after a `par`"
        self.finds.find("register-before-par", current.first, f"`r{of.number}` is 0 here: it is set on line "
                        f"{earlier.line}, and is 0 again {where}", self._setting(process, earlier))

    def _set_before(self, process: int, register: int) -> Optional[Statement]:
        waiting, seen = list(self.walk.waits_for[process]), set[int]()
        while waiting:
            earlier = waiting.pop(0)
            if register in self.own.get(earlier, {}):
                return self.own[earlier][register]
            waiting += [each for each in self.walk.waits_for[earlier] if each not in seen]
            seen.update(waiting)
        return None

    def _setting(self, process: int, earlier: Statement) -> tuple[Edit, ...]:
        """The same `set` at the beginning of the branch; where it computes nothing."""
        place: Optional[Place] = self.walk.begun[process].place
        while place and place.kind != "branch":
            place = place.outer
        amount = earlier.amount
        if not place or not isinstance(place.node, Statement) or isinstance(amount, Expression) and list(
                part for part in parts_of_expression(amount) if part.of in ("n", "r", "pick")):
            return ()
        opened: Token = place.node.blocks[place.number].opened
        return (Edit(opened.start + 1, opened.start + 1, f" {self.finds.source(earlier.first, earlier.last)}"),)
