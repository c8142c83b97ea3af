"""What a score calls its branches and itself: comments, and the phrases that are played first."""

from __future__ import annotations

import re
from typing import Iterator, NamedTuple, Optional

from .marks import bars_of
from .tree import Block, Reading, Statement
from .walk import Place, Played

#: A comment that speaks of the whole piece names no branch.
_OF_WHOLE = re.compile(r"(title|composer)\s*:", re.IGNORECASE)


class Titles(NamedTuple):
    """What a file says of the whole: its title and its composer, each empty where nothing is known."""

    title: str = ""
    composer: str = ""


def branches(place: Optional[Place]) -> Iterator[Place]:
    """The branches in which a place lies, from the innermost outwards."""
    while place:
        if place.kind == "branch":
            yield place
        place = place.outer


def said_of(reading: Reading, block: Block) -> str:
    """A comment above a branch, or behind its head."""
    for comment in reading.comments_above().get(block.head.start, ()):
        if bars_of(comment) is None and comment.text and not _OF_WHOLE.match(comment.text):
            return comment.text
    for comment in reading.comments:
        if not comment.alone and comment.line == block.head.line and bars_of(comment) is None:
            return comment.text
    return ""


def called(walk: Played, process: int) -> tuple[Optional[int], str, str]:
    """Of the outermost branch that a process is in its number, the comment that names it, and its first phrase; of what
    is in none the first phrase of all."""
    for place in list(branches(walk.begun[process].place))[-1:]:
        assert isinstance(place.node, Statement)
        block = place.node.blocks[place.number]
        return place.number, said_of(walk.reading, block), phrase_of(block.statements)
    return None, "", phrase_of(walk.reading.statements)


def titles_of(reading: Reading, title: Optional[str] = None, composer: Optional[str] = None) -> Titles:
    """The title and the composer: what is given, else what comments `# title: ..` and `# composer: ..` say."""
    found = Titles(title or "", composer or "")
    for comment in reversed(reading.comments):
        word, _, text = map(str.strip, comment.text.partition(":"))
        if text and (word.lower(), None) in (("title", title), ("composer", composer)):
            found = found._replace(**{word.lower(): text})
    return found


def phrase_of(statements: tuple[Statement, ...]) -> str:
    """The first phrase that is played, without its number: `soprano` of `soprano_1`."""
    for statement in statements:
        if statement.word == "do":
            return re.sub(r"_[0-9]+$", "", statement.name)
        for block in statement.blocks:
            if name := phrase_of(block.statements):
                return name
    return ""
