"""Looks at shapes: against their blocks, against their names, and whether their parts make whole beats."""

from __future__ import annotations

import re
from fractions import Fraction
from typing import Iterator, Optional

from ..making.shapes import Part
from ..reading.tree import Shape, Token
from ..reading.walk import Place
from .finding import Edit, replaced
from .looking import Finds, Look, Looking

#: Stretches that read like beats a minute; the least of them is still three times as fast as written.
BEATS = range(30, 301)
_SLOWER = re.compile(r"^(molto_|poco_)?(rit|rall|slow|lento|largo|calando|allarg|morendo|broaden|drag)")
_FASTER = re.compile(r"^(molto_|poco_)?(acc|fast|quick|string|hurr|rush|presto|speed|push|animando)")
#: Parts of at most so many whole notes may be meant as beats.
_SHORT = 2


def _tempo(shape: Shape) -> list[Part]:
    return [part for part in shape.parts if part.kind in ("flat", "slope")]


def _made(part: Part) -> int:
    """The ticks that a part makes of its own."""
    return part.ticks * (part.first + part.last) // 2000


# ---- what a shape shows by itself

class Shapes:
    """What shows of the shapes of a text alone."""

    def __init__(self, finds: Finds):
        self.finds, self.reading = finds, finds.reading

    def look(self) -> None:
        """Looks at each shape."""
        for shape in self.reading.shapes.values():
            self._beats(shape)
            self._thousandths(shape)
            self._direction(shape)
            self._whole_beats(shape)
            if all(part.first == part.last == 1000 and part.kind == "flat" or part.kind in ("pause", "breath") and
                   not part.ticks for part in shape.parts):
                self.finds.find("shape-without-effect", shape.name,
                                f"shape {shape.name.text} changes nothing: 1000 is as written")

    def tokens(self, shape: Shape) -> list[list[Token]]:
        """The tokens of each part."""
        found: list[list[Token]] = [[]]
        at = self.finds.at(shape.name) + 2
        while self.reading.tokens[at].text != ";":
            if self.reading.tokens[at].text == ",":
                found.append([])
            else:
                found[-1].append(self.reading.tokens[at])
            at += 1
        return found

    def stretches(self, shape: Shape, part: int) -> list[Token]:
        """The numbers behind the `by` of a part."""
        tokens = self.tokens(shape)[part]
        by = next(at for at, token in enumerate(tokens) if token.text == "by")
        return [token for token in tokens[by:] if token.text.isdigit()]

    def _beats(self, shape: Shape) -> None:
        for at, part in enumerate(shape.parts):
            if part.kind in ("flat", "slope") and part.first in BEATS and part.last in BEATS:
                by = f"{part.first}" if part.kind == "flat" else f"{part.first} to {part.last}"
                fast = f"{1000 / part.first:.1f} times as fast as written"
                self.finds.find("beats-a-minute", shape.name,
                                f"`{part.kind} .. by {by}` of shape {shape.name.text} is in thousandths, {fast}; for "
                                f"{part.first} quarter notes a minute write by {round(120_000 / part.first)}",
                                [replaced(token, str(round(120_000 / int(token.text)))) for token in
                                 self.stretches(shape, at)])

    def _thousandths(self, shape: Shape) -> None:
        if _tempo(shape) and all(part.first <= 10 and part.last <= 10 for part in _tempo(shape)):
            first = _tempo(shape)[0].first
            self.finds.find("stretch-below-10", shape.name,
                            f"stretches are in thousandths: by {first} is {1000 // first} times as fast as written, "
                            f"and {first} times as slow is by {1000 * first}",
                            [replaced(token, str(1000 * int(token.text))) for at, part in enumerate(shape.parts)
                             if part.kind in ("flat", "slope") for token in self.stretches(shape, at)])

    def _direction(self, shape: Shape) -> None:
        name = shape.name.text
        says = 1 if _SLOWER.search(name) else -1 if _FASTER.search(name) else 0
        parts = _tempo(shape)
        ends = [stretch for part in parts for stretch in (part.first, part.last)]
        goes = (ends[-1] > ends[0]) - (ends[-1] < ends[0]) if ends else 0
        is_flat = len(set(ends)) == 1
        if is_flat:
            goes = (ends[0] > 1000) - (ends[0] < 1000)
        if not says or goes != -says or any(part.first < BEATS.stop for part in parts):
            return
        edits = list(self._turned(shape)) if not is_flat else [
            replaced(token, str(round(1_000_000 / int(token.text)))) for at, part in enumerate(shape.parts)
            if part.kind == "flat" for token in self.stretches(shape, at)]
        way, other = ("slower", "faster") if says > 0 else ("faster", "slower")
        self.finds.find("shape-other-way", shape.name, f"shape {name} is named for getting {way}, and gets {other}: a "
                        "stretch above 1000 is slower, and a slope upwards slows down", edits)

    def _turned(self, shape: Shape) -> Iterator[Edit]:
        for at, part in enumerate(shape.parts):
            if part.kind == "slope":
                first, last = self.stretches(shape, at)
                yield replaced(first, last.text)
                yield replaced(last, first.text)

    def _whole_beats(self, shape: Shape) -> None:
        """Flat parts of which each makes a tick less than a part of a beat that its stretch is nearly."""
        edits, said = list[Edit](), list[str]()
        parts = _tempo(shape)
        if not parts or any(part.kind != "flat" for part in parts):
            return
        total = sum(map(_made, parts))
        is_short = all(part.ticks <= _SHORT * self.reading.whole for part in parts)
        if not is_short or len(parts) > 1 and total == sum(part.ticks for part in parts):
            return
        for at, part in enumerate(shape.parts):
            meant = _meant(part) if part.kind == "flat" else None
            if meant is not None and meant != _made(part):
                by = -(-meant * 1000 // part.ticks)
                said.append(f"`{part.kind} {self.finds.length(part.ticks)} by {part.first}` makes {_made(part)} ticks, "
                            f"and by {by} {meant}")
                edits.append(replaced(self.stretches(shape, at)[0], str(by)))
        if edits:
            self.finds.find("no-whole-beat", shape.name, f"shape {shape.name.text} makes {total} ticks of "
                            f"{sum(part.ticks for part in parts)}: {'; '.join(said)}", edits)


def _meant(part: Part) -> Optional[int]:
    """The ticks that a stretch means that is nearly a third, sixth, seventh or ninth."""
    for below in (3, 6, 7, 9, 12):
        meant = Fraction(round(Fraction(part.first * below, 1000)), below)
        if meant.denominator > 2 and abs(Fraction(part.first, 1000) - meant) < Fraction(1, 1000):
            ticks = meant * part.ticks
            if ticks.denominator == 1:
                return int(ticks)
    return None


# ---- against the blocks

class Levels(Look):
    """Shapes that end before their blocks, and parts that none of their blocks reaches."""

    def __init__(self, walk: Looking, finds: Finds):
        super().__init__(walk, finds)
        self.longest: dict[str, int] = {}                 # by each shape its longest block

    def closed(self, place: Place, end: int) -> None:
        if not self.walk.levels or getattr(place.node, "word", "") != "warp":
            return
        shape, length = self.walk.levels[-1].shape, self.walk.now.position
        name = shape.name.text
        self.longest[name] = max(length, self.longest.get(name, 0))
        last = next((part for part in reversed(shape.parts) if part.kind in ("flat", "slope")), None)
        if last is None or last.last == 1000 or length <= shape.length:
            return
        if last.kind == "slope" and length >= 2 * shape.length:
            return
        behind = length - shape.length
        warp = getattr(place.node, "first")
        self.finds.find("shape-short", warp,
                        f"shape {name} ends {self.finds.part(behind)} before its block, which goes on as it is "
                        f"written: its last stretch is {last.last}, and after it 1000",
                        self._longer(shape, behind) if last.kind == "flat" else ())

    def _longer(self, shape: Shape, ticks: int) -> list[Edit]:
        """The last `flat` as long as the block needs."""
        tokens = Shapes(self.finds).tokens(shape)
        at = max(number for number, part in enumerate(shape.parts) if part.kind == "flat")
        by = next(number for number, token in enumerate(tokens[at]) if token.text == "by")
        length = shape.parts[at].ticks + ticks
        if length > 1_000_000:
            return []
        first, last = tokens[at][1], tokens[at][by - 1]
        return [Edit(first.start, last.start + len(last.text), self.finds.length(length))]

    def finish(self) -> None:
        for name, length in self.longest.items():
            shape, at = self.reading.shapes[name], 0
            for part in shape.parts:
                if part.kind in ("pause", "breath") and part.ticks and at > length:
                    self.finds.find("part-not-reached", shape.name, f"the `{part.kind}` of shape {name} is "
                                    f"{self.finds.part(at - length)} after the end of its block, and never reached")
                if part.kind == "slope" and at + part.ticks > length and part.first != part.last:
                    self.finds.find("part-not-reached", shape.name,
                                    f"the `slope` of shape {name} ends {self.finds.part(at + part.ticks - length)} "
                                    f"after the end of its block, and never gets to {part.last}")
                at += part.ticks if part.kind in ("flat", "slope") else 0
