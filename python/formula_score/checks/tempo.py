"""Looks at tempos: stretches against the numbers that are said, tempos in tempos, what is outside one, and breaths."""

from __future__ import annotations

import re
from typing import Optional

from ..making.shapes import Part
from ..reading.tree import Phrase, Shape, Statement
from ..reading.walk import Happening, Level, Place
from .finding import replaced
from .looking import Finds, Look, Looking
from .shapes import Shapes

#: A shape of one `flat` that is so many times as long as its block is taken for a tempo.
_LONGER = 2
#: And it has at least so many whole notes.
_LONG = 4
_TENS = {name: 10 * number for number, name in enumerate("forty fifty sixty seventy eighty ninety".split(), 4)}
_BEATS = re.compile(r"(?<![0-9/.])([3-9][0-9]|[12][0-9][0-9])(?![0-9/.])")


def flat_of(shape: Shape) -> Optional[Part]:
    """The one `flat` of a shape that has no other part."""
    return shape.parts[0] if len(shape.parts) == 1 and shape.parts[0].kind == "flat" else None


class SaidTempos:
    """Stretches of one `flat` against the quarter notes a minute that a name or a comment says."""

    def __init__(self, finds: Finds):
        self.finds, self.reading = finds, finds.reading

    def look(self) -> None:
        """Looks at each shape."""
        head = [comment.text for comment in self.reading.comments if comment.line < self.reading.tokens[0].line]
        for name, shape in self.reading.shapes.items():
            near = [comment.text for comment in self.reading.comments
                    if comment.line == shape.name.line or comment.alone and comment.line == shape.name.line - 1]
            said = [int(number) for text in [name.replace("_", " "), name.lstrip("tempobpm_"), *near, *head]
                    for number in _BEATS.findall(text)] + [_TENS[word] for word in (name,) if word in _TENS]
            part = flat_of(shape)
            if not part or any(abs(part.first * beats - 120_000) <= beats for beats in said):
                continue
            beats = next((beats for beats in said if abs(120 * part.first - 1000 * beats) <= 120 and beats != 120),
                         None)
            if beats:
                token = Shapes(self.finds).stretches(shape, 0)[0]
                self.finds.find("tempo-inverse", shape.name,
                                f"by {part.first} is {round(120_000 / part.first)} quarter notes a minute: {beats} are "
                                f"by {round(120_000 / beats)}",
                                [replaced(token, str(round(120_000 / beats)))])


class Tempos(Look):
    """Tempos in tempos, and notes outside a tempo that is as long as a piece; breaths inside notes."""

    def __init__(self, walk: Looking, finds: Finds):
        super().__init__(walk, finds)
        self.is_tempo: dict[int, bool] = {}               # by the byte of each `warp` that stands outside all others
        self.outside: Optional[Statement] = None
        self.breaths: dict[int, tuple[Level, dict[int, bool]]] = {}  # by each level the breaths of its shape

    def statement(self, happening: Happening) -> None:
        if happening.statement.word not in ("note", "play"):
            return
        if not happening.levels and self.outside is None:
            self.outside = happening.statement
        if happening.levels:
            self._breaths(happening, happening.levels[-1])

    def _breaths(self, note: Happening, level: Level) -> None:
        if not any(part.kind == "breath" for part in level.shape.parts):
            return
        _, breaths = self.breaths.setdefault(id(level), (level, {}))
        first, last = note.position, note.position + note.end - note.begin
        at = 0
        for part in level.shape.parts:
            if part.kind == "breath" and first <= at <= last:
                breaths[at] = breaths.get(at, False) or at in (first, last)
            at += part.ticks if part.kind in ("flat", "slope") else 0

    def closed(self, place: Place, end: int) -> None:
        warp = place.node
        if not isinstance(warp, Statement) or warp.word != "warp":
            return
        level = self.walk.levels[-1]
        known = self.breaths.pop(id(level), None)
        for at, between in known[1].items() if known else ():
            if not between:
                self.finds.find("breath-in-note", level.shape.name,
                                f"the `breath` of shape {warp.name} is inside a note, {self.finds.part(at)} after the "
                                "beginning of its block, and makes this note longer: a breath is between two notes")
        tempos = [each for each in self.walk.levels if self._is_tempo(each, end)]
        if len(self.walk.levels) == 1:
            self.is_tempo[warp.first.start] = bool(tempos)
        elif level in tempos and len(tempos) > 1:
            by = tempos[-2].shape.parts[0].first * level.shape.parts[0].first // 1000
            self.finds.find("tempo-in-tempo", warp.first,
                            f"this tempo is inside another one, and both act: by {by} in all, "
                            f"{round(120_000 / max(1, by))} quarter notes a minute")

    def _is_tempo(self, level: Level, end: int) -> bool:
        part = flat_of(level.shape)
        return bool(part and part.first != 1000 and part.ticks >= max(_LONGER * (end - level.written),
                                                                      _LONG * self.reading.whole))

    def finish(self) -> None:
        if self.outside and any(self.is_tempo.values()):
            self.finds.find("outside-the-tempo", self._outermost(self.outside).first,
                            "this is outside the `warp` of the tempo, and plays at 120 quarter notes a minute")

    def _outermost(self, of: Statement) -> Statement:
        """The first statement outside all blocks that plays it: a `do`, where it is in a phrase."""
        for phrase in self.reading.phrases.values():
            if _has(phrase, of):
                for each in self.reading.every_statement():
                    if each.word == "do" and each.name == phrase.name.text and not self._is_in_warp(each):
                        return each
        return of

    def _is_in_warp(self, of: Statement) -> bool:
        return any(each.word == "warp" and each.first.start < of.first.start < each.last.start
                   for each in self.reading.every_statement())


def _has(phrase: Phrase, of: Statement) -> bool:
    return phrase.block.opened.start < of.first.start < phrase.block.closed.start
