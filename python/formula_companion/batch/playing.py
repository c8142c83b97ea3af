"""The pieces of a batch, played by an executor, and what becomes of them on this machine."""

from __future__ import annotations

import collections
import contextlib
import os
from typing import Iterable, Iterator, NamedTuple, Optional, Sequence, Union

from formula_score.running.many import Played, Unplayed, play_all
from formula_score.running.pieces import Unmade
from .engines import Engine
from .folder import FULL, Batch, Failed, remove, write
from .results import AUDITED, BELIEVED, PLAYED

#: The bytes of a record before its text, and those of the longest file.
HEAD, MOST_FILE = 14, 40 << 20
PLAIN, RECORD, AUDIT = ("--workers", "0"), ("--record", "--workers", "1"), ("--audit",)
#: What stands in place of a status: it could not be tried; its score cannot be read, or its file cannot be written.
NONE, ERROR = "none", "error"

Answer = Union[Played, Unplayed]


class Became(NamedTuple):
    """What became of a piece: its status, its line, and how that is known."""

    status: str
    said: str
    how: str


class Playing:
    """A batch that is played."""

    def __init__(self, batch: Batch, engine: Engine, home: Engine, seconds: float):
        self.batch, self.engine, self.home, self.seconds = batch, engine, home, seconds
        with open(batch.program, "rb") as file:
            self.program = file.read()
        #: when the scores that are under way were changed, and what could not be read
        self.times: dict[int, int] = {}
        self.wrong: dict[int, Became] = {}
        #: the texts of which records are asked, who made those that are being audited, how often each machine sent one
        #: that was refused, and what is played once more, here
        self.sent: dict[int, bytes] = {}
        self.makers: dict[int, str] = {}
        self.refused: "collections.Counter[str]" = collections.Counter()
        self.again: list[int] = []

    def played(self, numbers: Iterable[int]) -> Iterator[tuple[int, Became]]:
        """What became of each piece, in whatever order, with its file where it belongs."""
        if self.batch.is_audited and self.engine is not self.home:
            yield from self._audited(numbers)
            yield from self._kept(self._asked(self.home, self._texts(self.again), PLAIN), PLAYED)
        else:
            how = PLAYED if self.engine is self.home else BELIEVED
            yield from self._kept(self._asked(self.engine, self._texts(numbers), PLAIN), how)

    def _asked(self, engine: Engine, texts: Iterable[tuple[int, bytes]],
               options: Sequence[str]) -> Iterator[tuple[int, Answer]]:
        return play_all(texts, self.program, options, engine.executor, self.seconds, engine.play, engine.size)

    def _texts(self, numbers: Iterable[int]) -> Iterator[tuple[int, bytes]]:
        for number in numbers:
            try:
                text, self.times[number] = self.batch.text(number)
            except OSError as error:
                self.wrong[number] = Became(ERROR, error.strerror or "it cannot be read", PLAYED)
            except Unmade as unmade:
                self.wrong[number] = Became("3", f"{unmade.place.line}:{unmade.place.column}: {unmade.why}", PLAYED)
            else:
                yield number, text

    def _records(self, numbers: Iterable[int]) -> Iterator[tuple[int, bytes]]:
        """The records that the engine makes, of the very texts."""
        def noted() -> Iterator[tuple[int, bytes]]:
            for number, text in self._texts(numbers):
                self.sent[number] = text
                yield number, text

        for number, answer in self._asked(self.engine, noted(), RECORD):
            text = self.sent.pop(number)
            if isinstance(answer, Unplayed) or answer.data is None:
                self.again.append(number)  # whether it is refused is soon seen
            elif _is_of(answer.data, text):
                self.makers[number] = answer.host
                yield number, answer.data
            else:
                self._refuse(number, answer.host)

    def _refuse(self, number: int, host: str) -> None:
        self.refused[host] += 1
        self.again.append(number)

    def _audited(self, numbers: Iterable[int]) -> Iterator[tuple[int, Became]]:
        """The pieces whose records stand the audit here; the others are to be played again."""
        answers = self._asked(self.home, self._records(numbers), AUDIT)
        for number, answer in answers:
            host = self.makers.pop(number)
            if isinstance(answer, Played) and answer.status == 0:
                yield from self._kept([(number, answer)], AUDITED)
            else:
                self._refuse(number, host)

    def _kept(self, answers: Iterable[tuple[int, Answer]], how: str) -> Iterator[tuple[int, Became]]:
        for number, answer in answers:
            yield number, self._keep(number, answer, how)
            yield from self._unread()
        yield from self._unread()

    def _unread(self) -> Iterator[tuple[int, Became]]:
        while self.wrong:
            number, became = self.wrong.popitem()
            with contextlib.suppress(OSError):
                remove(self.batch.target(self.batch.name(number)))
            yield number, became

    def _keep(self, number: int, answer: Answer, how: str) -> Became:
        """Writes the file of a piece, or takes the old one away."""
        target = self.batch.target(self.batch.name(number))
        data: Optional[bytes] = None if isinstance(answer, Unplayed) else answer.data
        if data is not None and len(data) > MOST_FILE:
            return Became(ERROR, "its file is longer than a file can be", how)
        try:
            if data is None:
                remove(target)
            else:
                write(target, data)
        except OSError as error:
            if error.errno in FULL:
                raise Failed(f"{os.path.dirname(target)}: {error.strerror}") from error
            return Became(ERROR, f"{os.path.basename(target)}: {error.strerror}", how)
        return Became(NONE, answer.why, how) if isinstance(answer, Unplayed) else Became(str(answer.status), answer.said, how)


def _is_of(record: bytes, text: bytes) -> bool:
    """Whether a record is one of this text."""
    return record[10:HEAD] == len(text).to_bytes(4, "big") and record[HEAD:HEAD + len(text)] == text
