"""The cheapest change by which the statement at a refused place becomes one of the grammar."""

from __future__ import annotations

import difflib
import heapq
import re
from functools import lru_cache
from typing import Iterator, NamedTuple, Optional, Sequence

from ..language.grammar import Stack
from .lexing import Line
from .row import Row
from ..language.tokens import END, tokens

#: The dearest repair, how many edits it may have, how many states are tried, and how many repairs are given.
DEAREST, MOST_EDITS, MOST_TRIED, MOST_FOUND = 7.0, 12, 6000, 6
#: How much dearer another way to the same state may be, to be followed too, and how many are.
BESIDE, OFTEN = 0.35, 2
#: What each further edit of one row costs of the first, and a sure edit beside another one.
AGAIN, BESIDES = 0.2, 0.7
#: What it costs that the token behind the repair may not follow, and where that is a word behind a `;`, which may have
#: a slip of its own.
NOT_ON, ANOTHER = 1.5, 0.9
#: How many tokens behind the place the search adds and takes away.
REACH = 24
#: How alike words are of which one is meant by the other, surely or perhaps.
ALIKE, PERHAPS_ALIKE = 0.75, 0.6


class Edit(NamedTuple):
    """Tokens of the line from one to another, written anew, by a row."""

    first: int
    last: int
    new: str
    row: Row


class Repair(NamedTuple):
    """A way to a statement: its cost, its edits, and the token behind it."""

    cost: float
    edits: tuple[Edit, ...]
    end: int


_NEVER = re.compile(r"(?!)")
#: What it costs to add a token that the grammar expects.
ADD = {";": 0.9, ",": 1.6, "/": 2.2, "by": 1.2, "to": 1.2, "=": 1.2, "(": 1.5, ")": 1.2, "[": 1.3, "]": 1.2,
       "{": 1.3, "}": 1.7, "key": 1.3, "note": 1.4, "do": 2.0, "set": 1.6, "ticks": 2.0, "branch": 1.8, "phrase": 2.4,
       "NUMBER": 3.2}
#: What it costs to take one away.
AWAY = {";": 1.2, ",": 1.2, "{": 2.6, "}": 1.8, "(": 1.7, ")": 1.1, "[": 1.9, "]": 1.5, "=": 1.3, "+": 1.7, "-": 1.8,
        "*": 2.0, "/": 2.0, "%": 1.5, "OTHER": 1.6, "NAME": 2.3, "NUMBER": 2.9, "PITCH": 3.0}
_UNSURE_ADDED = ("NUMBER", "set", "do", "phrase", ",", "/")
_WHY = {";": "each statement ends with `;`", "NUMBER": "a number is missing", "by": "a part has `by` and a stretch",
        "note": "a note begins with `note`", "key": "a key by its number has `key` before it"}
_ADDED = {kind: Row(f"add {kind}", _NEVER, "1" if kind == "NUMBER" else kind, cost, kind not in _UNSURE_ADDED,
                    _WHY.get(kind, f"`{kind}` is missing")) for kind, cost in ADD.items()}
_TAKEN = {kind: Row(f"without {kind}", _NEVER, "", cost, kind in (";", ")", "=", ","), "")
          for kind, cost in AWAY.items()}
_WORD = Row("without a word", _NEVER, "", 2.6, False, "")
NEAR = Row("near word", _NEVER, "", 0.9, True, "")
_PERHAPS_NEAR = Row("word alike", _NEVER, "", 1.3, False, "")
_NAMED = Row("name of the text", _NEVER, "", 0.7, True, "a phrase is played by `do`, and a shape by `warp`")


@lru_cache(maxsize=20_000)
def _kinds(text: str) -> tuple[str, ...]:
    """The kinds of the tokens of what is written anew."""
    return tuple("division" if each.text == "division" else each.kind for each in tokens(text) if each.kind != END)


class _State(NamedTuple):
    """So far: the cost, then an order, the token that comes, the stack, the edits, and the last text that was read."""

    cost: float
    left: int
    order: int
    at: int
    stack: Optional[Stack]
    edits: tuple[Edit, ...]
    last: str
    checked: bool = False


def is_guess(repair: Repair) -> bool:
    """Whether a repair takes tokens away by no row, or writes a word that is only a little alike."""
    return all(edit.row.look is _NEVER and not edit.new or edit.row is _PERHAPS_NEAR for edit in repair.edits)


class Search:
    """Dijkstra's way from the beginning of a statement to the end of the one at the place."""

    def __init__(self, line: Line, rows: Sequence[Row], place: int, names: dict[str, str], blocks: Sequence[str]):
        self.line, self.rows, self.place, self.names, self.blocks = line, rows, place, names, blocks
        self._places: dict[Stack, frozenset[str]] = {}
        self._by_rows_at: dict[int, list[Edit]] = {}
        self.count = 0

    def found(self, start: int, stack: Stack) -> Iterator[Repair]:
        """The repairs from a token on, the cheapest first."""
        heap = [_State(0.0, -start, 0, start, stack, (), ";")]
        seen: dict[tuple[int, Optional[Stack]], tuple[float, int]] = {}
        given = 0
        while heap and self.count < MOST_TRIED and given < MOST_FOUND:
            state = heapq.heappop(heap)
            if state.cost > DEAREST:
                return
            is_done = state.at > self.place and state.last in (";", "{", "}") or state.last == END
            if is_done and state.edits:
                doubt = 0.0 if state.checked else self._doubt(state)
                if not doubt:
                    given += 1
                    yield Repair(state.cost, state.edits, state.at)
                    continue
                heapq.heappush(heap, state._replace(cost=state.cost + doubt, checked=True))
            key = (state.at, state.stack)
            best, times = seen.get(key, (state.cost, 0))
            if times == OFTEN or state.cost > best + BESIDE:
                continue
            seen[key] = best, times + 1
            for each in self._next(state):
                heapq.heappush(heap, each)

    def _doubt(self, state: _State) -> float:
        """What it costs that the token behind may not follow."""
        here = self.line.lexemes[state.at]
        if here.kind == END or state.stack and state.stack.taken(here.kind):
            return 0.0
        return ANOTHER if state.last == ";" and here.text[:1].isalpha() else NOT_ON

    def _made(self, state: _State, cost: float, at: int, stack: Optional[Stack], edit: Optional[Edit],
              last: str) -> _State:
        self.count += 1
        if edit and any(each.row is edit.row for each in state.edits):
            cost *= AGAIN
        elif edit and edit.row.sure and state.edits:
            cost *= BESIDES
        return _State(state.cost + cost, -at, self.count, at, stack, state.edits + ((edit,) if edit else ()), last)

    def _next(self, state: _State) -> Iterator[_State]:
        here, stack = self.line.lexemes[state.at], state.stack
        if stack is None:
            return
        if stack.taken(here.kind):
            yield self._made(state, 0.0, min(state.at + 1, len(self.line.lexemes) - 1), stack.after(here.kind), None,
                             END if here.kind == END else here.text)
        if len(state.edits) >= MOST_EDITS:
            return
        yield from self._by_rows(state, stack)
        if here.text[:1].isalpha():
            yield from self._by_words(state, stack)
        if state.at <= self.place + REACH:
            if here.kind != END:
                row = _TAKEN.get(here.kind, _WORD)
                edit = Edit(state.at, state.at + 1, "", row)
                yield self._made(state, row.cost, state.at + 1, stack, edit, state.last)
            yield from self._added(state, stack)

    def row_edits(self, at: int) -> list[Edit]:
        """What the rows write anew from a token on."""
        if at not in self._by_rows_at:
            self._by_rows_at[at] = list(self._row_edits(at))
        return self._by_rows_at[at]

    def _row_edits(self, at: int) -> Iterator[Edit]:
        text, offset = self.line.text, self.line.offsets[at]
        for row in self.rows:
            match = row.look.match(text, offset)
            if not match:
                continue
            if row.to_end:
                if at >= self.place:
                    last, is_line = self.line.end_of_text(at)
                    yield Edit(at, last, f"# {self.line.part(at, last)}" if is_line else "", row)
                continue
            end = self.line.ends.get(offset + len(match[0].rstrip(" "))) if match.end() > offset else at
            new = row.written(match)
            if end is not None and new is not None and new != self.line.part(at, end):
                yield Edit(at, end, new, row)

    def _by_rows(self, state: _State, stack: Stack) -> Iterator[_State]:
        where = self._where(stack)
        for edit in self.row_edits(state.at):
            if edit.row.places and not where & edit.row.places or edit.last == edit.first and not edit.new:
                continue
            behind: Optional[Stack] = stack
            last = state.last
            for last in _kinds(edit.new):
                behind = behind.after(last) if behind else None
            if behind:
                yield self._made(state, edit.row.cost, edit.last, behind, edit, last)

    def _where(self, stack: Stack) -> frozenset[str]:
        """The places of what may come, each also with the words of the blocks round it, as `statement/rhythm`."""
        if stack not in self._places:
            places = set(stack.expected.values())
            self._places[stack] = frozenset(places.union(f"{place}/{word}" for place in places for word in self.blocks))
        return self._places[stack]

    def _by_words(self, state: _State, stack: Stack) -> Iterator[_State]:
        """A word that is nearly one that the grammar expects, or the name of a phrase or shape."""
        text = self.line.lexemes[state.at].text
        head = {"phrase": "do", "shape": "warp"}.get(self.names.get(text, ""))
        behind = stack.after(head) if head else None
        if head and behind:
            edit = Edit(state.at, state.at + 1, f"{head} {text}", _NAMED)
            yield self._made(state, _NAMED.cost, state.at + 1, behind.after("NAME"), edit, head)
        meant = [kind for kind in stack.expected if kind[0].islower() and kind != text]
        word = text.lower()
        for each in difflib.get_close_matches(word, meant, 3, PERHAPS_ALIKE) if len(word) > 1 else ():
            row = NEAR if difflib.SequenceMatcher(None, each, word).ratio() >= ALIKE else _PERHAPS_NEAR
            yield self._made(state, row.cost, state.at + 1, stack.after(each), Edit(state.at, state.at + 1, each, row),
                             each)

    def _added(self, state: _State, stack: Stack) -> Iterator[_State]:
        here = self.line.lexemes[state.at]
        for kind in stack.expected:
            row = _ADDED.get(kind)
            if row is None or state.at == 0 and kind == ";":
                continue
            behind = stack.after(kind)
            if (here.kind == END or kind in ("}", ")", "]", ";", "{") or behind and behind.taken(here.kind)
                    or self.row_edits(state.at)):
                new = row.write if isinstance(row.write, str) else kind
                yield self._made(state, row.cost, state.at, behind, Edit(state.at, state.at, new, row), kind)
