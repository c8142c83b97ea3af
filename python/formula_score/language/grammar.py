"""The grammar of the language as text, LL(1); what may come next at each point of a reading, and at which place."""

from __future__ import annotations

import re
from functools import lru_cache
from typing import Iterator, Optional, Sequence

#: A rule a line, `|` between its ways, `-` for nothing. `KIND@place` is a token and the name of its place.
_RULES = """
score      : formula@formula NUMBER@version ;@end options entries END@statement
options    : division@statement NUMBER@division ;@end seed | seed
seed       : seed@statement NUMBER@seed ;@end | -
entries    : entry entries | -
entry      : shape@statement NAME@new =@equals part parts ;@end | phrase@statement NAME@new block | statement
parts      : ,@parts part parts | -
part       : flat@part length by@by NUMBER@stretch | slope@part length by@by NUMBER@stretch to@to NUMBER@stretch
           | pause@part length | breath@part length
length     : NUMBER@length /@slash NUMBER@under | ticks@length NUMBER@ticks
block      : {@block statements }@statement
statements : statement statements | -
statement  : note@statement pitches duration ;@end | play@statement pitches ;@end | rest@statement duration ;@end
           | skip@statement ;@end | control@statement NUMBER@controller amount ;@end | program@statement amount ;@end
           | bend@statement amount ;@end | set@statement REGISTER@register =@equals expr ;@end
           | if@statement expr block else | repeat@statement count block | do@statement NAME@name ;@end
           | warp@statement NAME@name block | par@statement {@block branch branches }@branch
           | channel@statement NUMBER@setting block | volume@statement NUMBER@setting block
           | gate@statement NUMBER@setting block | rhythm@statement [@list length lengths ]@entries block
           | artic@statement [@list NUMBER@entry numbers ]@entries block
           | loud@statement [@list NUMBER@entry numbers ]@entries block
else       : else@statement block | -
branches   : branch branches | -
branch     : branch@branch block
lengths    : ,@entries length lengths | -
numbers    : ,@entries NUMBER@entry numbers | -
pitches    : pitch more
more       : ,@pitches pitch more | -
pitch      : PITCH@pitch | key@pitch keyed
keyed      : -@key NUMBER@key | NUMBER@key | (@key expr )@operator
amount     : -@amount NUMBER@amount | NUMBER@amount | (@amount expr )@operator
duration   : NUMBER@length /@slash NUMBER@under | ticks@length ticked
ticked     : NUMBER@ticks | (@ticks expr )@operator max@max NUMBER@most
count      : NUMBER@count | (@count expr )@operator max@max NUMBER@most
expr       : factor operators
operators  : +@operator factor operators | -@operator factor operators | *@operator factor operators
           | /@operator factor operators | %@operator factor operators | -
factor     : NUMBER@value | REGISTER@value | INDEX@value | -@value factor | (@value expr )@operator
           | pick@value (@function expr )@operator | min@value two | max@value two | less@value two | same@value two
two        : (@function expr ,@operator expr )@operator
"""


def _table() -> dict[str, list[tuple[str, ...]]]:
    """By the name of a rule its ways, each the symbols of it."""
    lines = re.sub(r"\n +\|", " |", _RULES).strip().split("\n")
    named = (line.split(" : ", 1) for line in lines)
    return {name.strip(): [tuple(way.split()) if way.strip() != "-" else () for way in ways.split(" | ")]
            for name, ways in named}


RULES = _table()
#: Of each token of a rule its kind and its place.
TOKENS: dict[str, tuple[str, str]] = {symbol: (symbol.split("@")[0], symbol.split("@")[1])
                                      for ways in RULES.values() for way in ways for symbol in way if "@" in symbol}
#: The words of the language; `division` is a word of the head alone, and else a name.
KEYWORDS = frozenset(kind for kind, _ in TOKENS.values() if kind[0].islower()) - {"division"}


@lru_cache(maxsize=None)
def firsts(symbol: str) -> dict[str, tuple[str, ...]]:
    """By each kind of token that a symbol may begin with the symbols of its way from there on; "" where it may be
    nothing."""
    if symbol in TOKENS:
        return {TOKENS[symbol][0]: (symbol,)}
    found: dict[str, tuple[str, ...]] = {}
    for way in RULES[symbol]:
        for at, each in enumerate(way):
            inner = firsts(each)
            found.update({kind: way[at:] for kind in inner if kind and kind not in found})
            if "" not in inner:
                break
        else:
            found.setdefault("", ())
    return found


#: The words that begin a statement, and those that only begin what is outside all blocks.
STATEMENTS, OUTSIDE = tuple(firsts("statement")), ("shape", "phrase")


class Stack:
    """What is still to come: a symbol, and the stack below it. Each is made once, so equal ones are the same."""

    __slots__ = ("symbol", "below", "_steps", "_expected")

    def __init__(self, symbol: str, below: Optional["Stack"]):
        self.symbol, self.below = symbol, below
        self._steps: dict[str, Optional[tuple[str, Optional[Stack]]]] = {}
        self._expected: Optional[dict[str, str]] = None

    def taken(self, kind: str) -> Optional[tuple[str, Optional["Stack"]]]:
        """The place of a token of this kind, and the stack behind it; None where it may not be there."""
        if kind not in self._steps:
            self._steps[kind] = self._found(kind)
        return self._steps[kind]

    def _found(self, kind: str) -> Optional[tuple[str, Optional["Stack"]]]:
        stack: Optional[Stack] = self
        while stack is not None:
            if stack.symbol in TOKENS:
                own, place = TOKENS[stack.symbol]
                return (place, stack.below) if own == kind else None
            way = firsts(stack.symbol)
            if kind in way:
                stack = push(way[kind], stack.below)
            elif "" in way:
                stack = stack.below
            else:
                return None
        return None

    def after(self, kind: str) -> Optional["Stack"]:
        """The stack behind a token of this kind; None where it may not be there."""
        found = self.taken(kind)
        return found[1] if found else None

    @property
    def expected(self) -> dict[str, str]:
        """The kinds of tokens that may come next, each with its place."""
        if self._expected is None:
            found: dict[str, str] = {}
            for stack in self._open():
                for kind in firsts(stack.symbol):
                    if kind and kind not in found:
                        taken = stack.taken(kind)
                        found[kind] = taken[0] if taken else ""
            self._expected = found
        return self._expected

    def _open(self) -> Iterator["Stack"]:
        stack: Optional[Stack] = self
        while stack is not None:
            yield stack
            stack = stack.below if "" in firsts(stack.symbol) else None

    @property
    def place(self) -> str:
        """The last place of what may come next, as `end` behind a list of pitches."""
        return list(self.expected.values())[-1] if self.expected else "statement"


_MADE: dict[tuple[str, int], Stack] = {}


def push(symbols: Sequence[str], below: Optional[Stack]) -> Optional[Stack]:
    """The stack with these symbols on it, the first one to come first."""
    for symbol in reversed(symbols):
        key = (symbol, id(below))
        if key not in _MADE:
            _MADE[key] = Stack(symbol, below)
        below = _MADE[key]
    return below


def made(symbols: Sequence[str], below: Optional[Stack] = None) -> Stack:
    """The same, of one symbol at least."""
    stack = push(symbols, below)
    assert stack is not None
    return stack


SCORE = made(["score"])


def inside(blocks: Sequence[str], closed: str, is_first: bool) -> Stack:
    """The stack where a statement begins in blocks of these words, the outermost first, behind a block that was closed.

    A `par` has had a branch, unless what comes is the first one.
    """
    stack = made(["entries", "END@statement"])
    for word in blocks:
        stack = (made(["branches", "}@branch"], stack) if word == "par" else
                 made(["statements", "}@statement", *(["else"] if word == "if" else [])], stack))
    if is_first:
        return made(["branch"], stack)
    return made(["else"], stack) if closed == "if" else stack
