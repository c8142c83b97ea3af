"""How long the phrases, branches and sections of a score are, and where they are played."""

from __future__ import annotations

from typing import Callable, Iterable, NamedTuple, Optional, Union

from .tree import Block, Comment, Phrase, Reading, Statement
from .walk import Happening, Place, Played, tick_of


class Sequence(NamedTuple):
    """Statements one after another: of the score, for which the others are None, or of a block and who has it."""

    owner: Union[Statement, Phrase, None]
    block: Optional[Block]
    statements: tuple[Statement, ...]


def sequences(reading: Reading) -> list[Sequence]:
    """All of them, an outer one before those in it."""
    found = [Sequence(None, None, reading.statements)]
    found += [Sequence(phrase, phrase.block, phrase.block.statements) for phrase in reading.phrases.values()]
    for sequence in found:  # it grows meanwhile
        found += [Sequence(statement, block, block.statements)
                  for statement in sequence.statements for block in statement.blocks]
    return found


class Span(NamedTuple):
    """From where to where something is played, as written, in which place, and from which tick to which."""

    begin: int
    end: int
    place: Place
    first: int = 0
    last: int = 0


class Section(NamedTuple):
    """What stands between two comments on lines of their own, or behind the last one of a block."""

    name: str
    line: int
    first: Statement
    last: Statement


def sections(reading: Reading, may_name: Callable[[Comment], bool]) -> list[Section]:
    """The sections of the score, but for those inside phrases; not each comment names one."""
    above = {byte: named for byte, comments in reading.comments_above().items()
             for named in [list(filter(may_name, comments))] if named}
    found = []
    for sequence in sequences(reading):
        if isinstance(sequence.owner, Phrase):
            continue
        heads = [(at, above[statement.first.start][0]) for at, statement in enumerate(sequence.statements)
                 if statement.first.start in above]
        for (at, comment), behind in zip(heads, [*(at for at, _ in heads[1:]), len(sequence.statements)]):
            found.append(Section(comment.text, comment.line, sequence.statements[at], sequence.statements[behind - 1]))
    return found


class Structure(Played):
    """Keeps where phrases, branches and some statements are played, too."""

    def __init__(self, reading: Reading, wanted: Iterable[Statement], most: Optional[int] = None):
        super().__init__(reading, most)
        self.phrases: dict[str, list[Span]] = {}
        self.pars: dict[int, tuple[Statement, list[list[Span]]]] = {}  # by the byte where a `par` begins
        self.spans: dict[int, list[Span]] = {statement.first.start: [] for statement in wanted}
        self._open: list[Span] = []
        self._opened: list[int] = []                    # of each phrase and branch that is open its first tick

    def _inside(self, kind: str, node: Union[Statement, Phrase], block: Block, number: int = 0) -> None:
        if kind in ("phrase", "branch"):
            self._opened.append(tick_of(self.levels, self.now.position))
        super()._inside(kind, node, block, number)

    def statement(self, happening: Happening) -> None:
        super().statement(happening)
        spans = self.spans.get(happening.statement.first.start)
        if spans is not None:
            spans.append(Span(happening.begin, happening.end, happening.place,
                              tick_of(happening.levels, happening.position), tick_of(self.levels, self.now.position)))
        if happening.statement.word == "par":
            count = len(happening.statement.blocks)
            _, played = self.pars.setdefault(happening.statement.first.start, (happening.statement, []))
            played.append(self._open[-count:])
            del self._open[-count:]

    def closed(self, place: Place, end: int) -> None:
        if place.kind != "branch" and not isinstance(place.node, Phrase):
            return
        span = Span(place.begin, end, place, self._opened.pop(), tick_of(self.levels, self.now.position))
        if place.kind == "branch":
            self._open.append(span)
        elif isinstance(place.node, Phrase):
            self.phrases.setdefault(place.node.name.text, []).append(span)

    def begins(self, process: int) -> dict[int, int]:
        """The ticks at which what a process plays begins, by its position as written."""
        return {each.begin: tick_of(each.levels, each.position) for each in self.happenings if each.process == process}

    @property
    def end(self) -> int:
        """Where the score ends, as written."""
        return self.ended[len(self.begun) - 1].written

    @property
    def last(self) -> int:
        """The tick at which it ends."""
        last = self.ended[len(self.begun) - 1]
        return tick_of(last.levels, last.position)
