"""A row: a slip by what it looks like, with what to write for it; or a fact of the language, which changes nothing."""

from __future__ import annotations

import re
from typing import Callable, NamedTuple, Optional, Union

#: What is written for what is found: a template of `re`, or what a function makes of it, None for nothing.
Write = Union[str, Callable[["re.Match[str]"], Optional[str]]]

_CHANGED = re.compile("‹([^→]*)→([^›]*)›")


class Row(NamedTuple):
    """A slip, or a fact of the language (what to write is its sentence then).

    `look` is matched with the line of tokens from a token on, and has to end at the end of one. `cost` says how far
    the change is from what was written, `sure` whether it keeps what was meant. `places` are those of the grammar where
    the row holds, all where there are none. `opens` says that it opens a block, `to_end` that it goes to the end of its
    line, which becomes a comment.
    """

    name: str
    look: "re.Pattern[str]"
    write: Write
    cost: float
    sure: bool
    why: str
    wrote: str = ""
    right: str = ""
    places: frozenset[str] = frozenset()
    opens: bool = False
    to_end: bool = False

    def written(self, found: "re.Match[str]") -> Optional[str]:
        """What is written for what was found."""
        return found.expand(self.write) if isinstance(self.write, str) else self.write(found)


def row(name: str, look: str, write: Write, cost: float, places: str, why: str, example: str, opens: bool = False,
        to_end: bool = False) -> Row:
    """A row, sure with `!` behind its name. Its example has what was written and what is right as `‹wrote→right›`."""
    wrote, right = (_CHANGED.sub(rf"\{group}", example) for group in (1, 2))
    return Row(name.rstrip("!"), re.compile(look), write, cost, name.endswith("!"), why, wrote, right,
               frozenset(places.split()), opens, to_end)


def fact(name: str, look: str, sentence: Write, places: str, wrote: str, first: bool = False) -> Row:
    """A fact, told at these places; `here` is any place, `near` also a token before or behind it.

    Where `first` is said, it is told before any change.
    """
    return Row(name, re.compile(look), sentence, 0.0, False, "", wrote, "", frozenset(places.split()), first)
