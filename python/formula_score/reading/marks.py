"""The comments that count bars, as `# bar 12` and `# bars 9 to 12`, against where they stand.

One behind statements speaks of the statements of its line: they lie within these bars, and where what is next has such
a comment, too, they fill them. One on a line of its own speaks of what follows, up to the next one: it begins with its
first bar. In a phrase, a loop or a branch the numbers may count from its beginning, or be those of the piece.
"""

from __future__ import annotations

import re
from bisect import bisect_right
from typing import Iterable, NamedTuple, Optional

from .meter import Meter
from .structure import Sequence, Span, Structure, sequences
from .tree import Comment, Phrase, Reading, Statement
from .walk import Place

_BARS = re.compile(r"bars?\s+([0-9]{1,6})(?:\s*(to|-|–|and|,)\s*([0-9]{1,6}))?(?![0-9/])", re.IGNORECASE)


class Finding(NamedTuple):
    """Something that is off, with its place."""

    line: int
    column: int
    what: str


class Mark(NamedTuple):
    """A comment that counts bars, the statements of which it speaks, and whether they have to fill these bars."""

    comment: Comment
    first_bar: int
    last_bar: int
    first: Statement
    last: Statement
    fills: bool
    phrase: Optional[Phrase]


class Verdict(NamedTuple):
    """How far a mark is off: where it begins and ends against what it says, and whether each is wrong."""

    late: int
    over: int
    begins_wrong: bool
    ends_wrong: bool
    begin: int

    @property
    def holds(self) -> bool:
        """Whether the mark is right."""
        return not (self.begins_wrong or self.ends_wrong)


class _Sought(NamedTuple):
    comment: Comment
    bars: tuple[int, int]
    sequence: Sequence
    first: int
    last: int


def bars_of(comment: Comment) -> Optional[tuple[int, int]]:
    """The bars that a comment counts, if it does: a range, no list of bars such as 5 and 13."""
    found = _BARS.match(comment.text)
    if not found:
        return None
    first = int(found.group(1))
    last = int(found.group(3) or first)
    is_list = found.group(2) in ("and", ",") and last != first + 1
    return None if last < first or is_list else (first, last)


class _Lines:
    """Of which statements a comment speaks, by its line: a sequence, and the first and the last of them in it."""

    def __init__(self, every: list[Sequence], above: dict[int, list[Comment]]):
        #: those that begin on a line: of several sequences the last one; what stands in a statement of the line is its
        self.begun: dict[int, tuple[Sequence, int, int]] = {}
        #: blocks that open or close on a line, and statements that end on it
        self.others: dict[int, tuple[Sequence, int, int]] = {}
        #: those that comments on lines of their own stand above
        self.below: dict[int, tuple[Sequence, int, int]] = {}
        for sequence in every:
            self._index(sequence)
            last = len(sequence.statements) - 1
            for at, statement in enumerate(sequence.statements):
                for comment in above.get(statement.first.start, ()):
                    self.below[comment.line] = sequence, at, last
            for comment in above.get(sequence.block.head.start, ()) if sequence.block and last >= 0 else ():
                self.below.setdefault(comment.line, (sequence, 0, last))

    def _index(self, sequence: Sequence) -> None:
        begun: dict[int, tuple[Sequence, int, int]] = {}
        for at, statement in enumerate(sequence.statements):
            first = begun[statement.line][1] if statement.line in begun else at
            begun[statement.line] = sequence, first, at
            self.others.setdefault(statement.last.line, (sequence, at, at))
        for line, found in begun.items():
            is_inside = isinstance(sequence.owner, Statement) and sequence.owner.line == line
            if not is_inside and (line not in self.begun or _place(self.begun[line]) < _place(found)):
                self.begun[line] = found
        if sequence.block and sequence.statements:
            whole = sequence, 0, len(sequence.statements) - 1
            self.others.setdefault(sequence.block.closed.line, whole)
            if sequence.block.head is not sequence.block.opened:
                self.others[sequence.block.opened.line] = whole

    def of(self, comment: Comment) -> Optional[tuple[Sequence, int, int]]:
        """Those of which the comment speaks."""
        if comment.alone:
            return self.below.get(comment.line)
        return self.begun.get(comment.line) or self.others.get(comment.line)


def _place(found: tuple[Sequence, int, int]) -> int:
    return found[0].statements[found[1]].first.start


def marks(reading: Reading) -> list[Mark]:
    """All comments of the score that count bars, and that stand at statements."""
    if not any(map(bars_of, reading.comments)):
        return []
    every = sequences(reading)
    lines, phrases = _Lines(every, reading.comments_above()), _phrases(every)
    sought = []
    for comment in reading.comments:
        bars, found = bars_of(comment), lines.of(comment)
        if bars and found:
            sought.append(_Sought(comment, bars, *found))
    behind = sorted((_begin(node), node.bars[0]) for node in sought)
    return [_mark(node, behind, phrases) for node in sought]


def _begin(of: _Sought) -> int:
    return of.sequence.statements[of.first].first.start


def _phrases(every: Iterable[Sequence]) -> dict[int, Phrase]:
    """The phrase in which a statement stands, by the byte where it begins."""
    found: dict[int, Phrase] = {}
    for sequence in every:
        owner = sequence.owner
        phrase = owner if isinstance(owner, Phrase) else found.get(owner.first.start) if owner else None
        if phrase:
            found.update({statement.first.start: phrase for statement in sequence.statements})
    return found


def _mark(of: _Sought, every: list[tuple[int, int]], phrases: dict[int, Phrase]) -> Mark:
    """The mark, with the statements that it speaks of; `every` has the first byte and the first bar of all marks."""
    statements, last = of.sequence.statements, of.last
    if of.comment.alone:
        fills = of.bars[0] != of.bars[1]
        bound = statements[last].last.start
        later = next((byte for byte, bar in every[bisect_right(every, (_begin(of), of.bars[1])):]
                      if byte > bound or bar > of.bars[1]), bound + 1)
        last = max(at for at in range(of.first, last + 1) if at == of.first or statements[at].first.start < later
                   and statements[at].last.start < later)
    else:
        behind = statements[last + 1].first.start if last + 1 < len(statements) else -1
        at = bisect_right(every, (behind, -1))
        fills = at < len(every) and every[at][0] == behind
    return Mark(of.comment, *of.bars, statements[of.first], statements[last], fills,
                phrases.get(statements[of.first].first.start))


# ---- judging

def _verdict(mark: Mark, begin: int, end: int, meter: Meter) -> Verdict:
    starts, ends = meter.start(mark.first_bar), meter.start(mark.last_bar + 1)
    late, over = begin - starts, end - ends
    if mark.comment.alone:
        return Verdict(late, over, late != 0, mark.fills and over != 0, begin)
    is_outside = late < 0 or begin >= meter.start(mark.first_bar + 1)
    ends_early = end <= meter.start(mark.last_bar) and end > begin
    return Verdict(late, over, is_outside, over > 0 or ends_early or (mark.fills and late == 0 and over != 0), begin)


def _rings(place: Optional[Place]) -> Iterable[Place]:
    """The phrases, rounds and branches in which a place lies, from the innermost outwards."""
    while place:
        if place.kind in ("phrase", "round", "branch"):
            yield place
        place = place.outer


_Key = tuple[str, int]


def _verdicts(mark: Mark, structure: Structure, meter: Meter) -> dict[_Key, Verdict]:
    """How the mark fares, if its numbers are those of the piece at some playing, or count from the beginning of what
    is round it."""
    ends = {id(span.place): span for span in structure.spans[mark.last.first.start]}
    found: dict[_Key, Verdict] = {}

    def keep(key: _Key, span: Span, end: int, ticks: int, bars: int) -> None:
        moved = mark._replace(first_bar=mark.first_bar + bars, last_bar=mark.last_bar + bars)
        verdict = _verdict(moved, span.begin + ticks, end + ticks, meter)
        if key not in found or verdict.holds and not found[key].holds:
            found[key] = verdict

    for span in structure.spans[mark.first.first.start]:
        if id(span.place) not in ends:
            continue
        end = ends[id(span.place)].end
        rings = list(_rings(span.place))
        playing = next((id(span) for span in rings if span.kind == "phrase" and span.node is mark.phrase), 0)
        keep(("piece", playing), span, end, 0, 0)
        for ring in rings:
            kind = "phrase" if ring.kind == "phrase" and ring.node is mark.phrase else "ring"
            if meter.only:
                keep((kind, 0), span, end, meter.upbeat - ring.begin, 0)
            else:
                keep((kind, 0), span, end, 0, meter.at(ring.begin).bar - 1)
    return found


def findings(reading: Reading, structure: Structure, meter: Meter) -> list[Finding]:
    """What is wrong with the comments that count bars."""
    groups: dict[Optional[str], list[tuple[Mark, dict[_Key, Verdict]]]] = {}
    for mark in marks(reading):
        verdicts = _verdicts(mark, structure, meter)
        if verdicts:
            groups.setdefault(mark.phrase.name.text if mark.phrase else None, []).append((mark, verdicts))
    found: list[Finding] = []
    for group in groups.values():
        keys = {key: None for _, verdicts in group for key in verdicts if key[0] != "ring"}
        best = min(keys, key=lambda key: (sum(not _fares(verdicts, key).holds for _, verdicts in group),
                                          key[0] != "phrase"))
        found += _told([(mark, _fares(verdicts, best)) for mark, verdicts in group], meter)
    return found


def _fares(verdicts: dict[_Key, Verdict], key: _Key) -> Verdict:
    """The verdict if the numbers count so; inside loops and branches they may count from there."""
    verdict = verdicts.get(key) or next(iter(verdicts.values()))
    ring = verdicts.get(("ring", 0))
    return ring if not verdict.holds and ring and ring.holds else verdict


def _told(group: list[tuple[Mark, Verdict]], meter: Meter) -> list[Finding]:
    """A finding for each mark that is off; what is off only as the one before it is told no more."""
    found: list[Finding] = []
    carried = 0
    for mark, verdict in group:
        name = "bar" if mark.first_bar == mark.last_bar else "bars"
        said = f"`{name} {mark.first_bar}{f' to {mark.last_bar}' if name == 'bars' else ''}`"
        if (verdict.begins_wrong or verdict.late == verdict.over != 0) and verdict.late != carried:
            what = f"{said} begins {_off(verdict.late, meter)}: it is in {meter.tell(max(0, verdict.begin))}"
            found.append(Finding(mark.comment.line, mark.comment.column, what))
            carried = verdict.late
        elif verdict.ends_wrong and verdict.over != carried:
            difference = meter.length(abs(verdict.over - verdict.late))
            what = (f"{said} {'are' if name == 'bars' else 'is'} {difference} too "
                    f"{'long' if verdict.over > verdict.late else 'short'}")
            found.append(Finding(mark.comment.line, mark.comment.column, what))
            carried = verdict.over
        elif verdict.holds:
            carried = 0
    return found


def _off(ticks: int, meter: Meter) -> str:
    return f"{meter.length(abs(ticks))} too {'late' if ticks > 0 else 'early'}"
