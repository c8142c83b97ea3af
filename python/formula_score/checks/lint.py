"""What a score says that is accepted, and hardly meant: the rules of a table, and who looks for them."""

from __future__ import annotations

import re
from typing import Iterable, Iterator, Optional

from ..reading.ticks import agree
from ..reading.tree import Comment, Reading, Token
from ..reading.walk import TooMuch
from .bars import RULES_OF_BARS, Heard
from .blocks import Branches, Drums, Lists
from .finding import Found
from .keys import Keys
from .looking import Finds, Looking
from .plain import Plain
from .rules import SEVERITIES
from .shapes import Levels, Shapes
from .sounding import Channels
from .stores import Draws, Stores
from .tempo import SaidTempos, Tempos
from .values import Clamped, Comparisons, Registers

_IGNORED = re.compile(r"lint:\s*ignore\s+([a-z0-9-]+(?:\s*,\s*[a-z0-9-]+)*)")


def findings(reading: Reading, heard: Optional[Heard] = None, most: Optional[int] = None) -> list[Found]:
    """All that is found and not ignored, in the order of the text; what the text alone shows, where more than `most`
    statements are played. What is played is compared with what is `heard`, where that is given."""
    return looked(Looking(reading, (), most), heard)[0]


def looked(walk: Looking, heard: Optional[Heard]) -> tuple[list[Found], bool]:
    """What is found, and whether all was played."""
    reading, is_whole = walk.reading, True
    finds = Finds(reading)
    Plain(finds).look()
    Shapes(finds).look()
    SaidTempos(finds).look()
    walk.take([look(walk, finds) for look in (Lists, Branches, Drums, Levels, Tempos, Channels, Keys, Comparisons,
                                              Clamped, Registers, Stores, Draws)])
    alone = dict(finds.found)
    try:
        walk.run()
        if heard is not None:
            agree(walk, heard())
        for look in walk.looks:
            look.finish()
    except TooMuch:
        finds.found, is_whole = alone, False
    for comment, name in _ignored(reading):
        if name not in SEVERITIES and name not in RULES_OF_BARS:
            place = Token("", comment.line, comment.column, 0)
            finds.find("ignore-unknown", place, f"there is no rule {name} to ignore")
    return not_ignored(reading, finds.found.values()), is_whole


def not_ignored(reading: Reading, found: Iterable[Found]) -> list[Found]:
    """What no comment says to ignore: of its line, or of line 0, which is the whole text, above its first word."""
    silent = {(name, line) for comment, name in _ignored(reading) for line in _lines(reading, comment)}
    return sorted(each for each in found if not {(each.rule, each.line), (each.rule, 0)} & silent)


def _ignored(reading: Reading) -> Iterator[tuple[Comment, str]]:
    for comment in reading.comments:
        for words in _IGNORED.findall(comment.text):
            yield from ((comment, name) for name in re.split(r"\s*,\s*", words))


def _lines(reading: Reading, comment: Comment) -> list[int]:
    """Its own line; of a comment on a line of its own the next one with a token, and above the first word all."""
    if not comment.alone:
        return [comment.line]
    if comment.line < reading.tokens[0].line:
        return [0]
    return [next(token.line for token in reading.tokens if token.line > comment.line or not token.text)]
